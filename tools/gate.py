#!/usr/bin/env python3
"""The gate measured: the clock's time of `.ci/run`, and the processor's seconds of each crate's proofs, tests and edits.

    tools/gate.py FOLDER          runs the gate on a clone of HEAD in FOLDER, and prints the table; FOLDER/log has what the gate printed
    tools/gate.py --told FOLDER   prints the table of what such a run has measured so far

It looks at the provers twice a second, so it misses up to half a second of each, and it takes a hundredth of a processor. What an earlier run passed on this machine is
kept there, and then isn't measured: only on a new machine all is done (`every proof and must-fail edit was done in this run` in the log says so).
"""
import collections
import json
import os
import subprocess
import sys
import time

TOP = os.path.join(os.path.dirname(os.path.abspath(__file__)), "..")
TICKS, PAGE = os.sysconf("SC_CLK_TCK"), os.sysconf("SC_PAGE_SIZE")
STAGES = ["library", "tests", "edits", "program"]


def stage_of(words, folder):
    """What a prover is at, by its command line and the folder that it runs in."""
    if "rt-edit" in folder:
        return "edits"
    return "tests" if "--test" in words else "library" if "--statements" in words else "program"


def look(seen, begun):
    """Notes how far each prover on this machine is."""
    for name in filter(str.isdigit, os.listdir("/proc")):
        try:
            with open(f"/proc/{name}/stat") as text:
                fields = text.read().rpartition(")")[2].split()
            key = f"{name}:{fields[19]}"
            if key not in seen:
                with open(f"/proc/{name}/cmdline") as text:
                    words = text.read().split("\0")
                if not words[0].endswith("/rattle") or "--crate-name" not in words:
                    continue
                crate = words[words.index("--crate-name") + 1]
                seen[key] = {"crate": crate, "stage": stage_of(words, os.readlink(f"/proc/{name}/cwd")), "from": time.time() - begun, "memory": 0}
            seen[key]["seconds"] = (int(fields[11]) + int(fields[12])) / TICKS
            seen[key]["memory"] = max(seen[key]["memory"], int(fields[21]) * PAGE)
            seen[key]["to"] = time.time() - begun
        except (OSError, UnicodeDecodeError):
            # (it has ended)
            continue


def measure(folder):
    """Runs the gate on a clone, and leaves what was seen in the folder."""
    os.makedirs(folder)
    subprocess.run(["git", "clone", "-q", TOP, f"{folder}/clone"], check=True)
    begun, seen = time.time(), {}
    with open(f"{folder}/log", "w") as log:
        gate = subprocess.Popen(["bash", ".ci/run"], cwd=f"{folder}/clone", stdin=subprocess.DEVNULL, stdout=log, stderr=subprocess.STDOUT)
        status = None
        while status is None:
            status = gate.poll()
            look(seen, begun)
            with open(f"{folder}/seen.new", "w") as out:
                json.dump({"status": status, "clock": time.time() - begun, "provers": list(seen.values())}, out)
            os.replace(f"{folder}/seen.new", f"{folder}/seen.json")
            time.sleep(0.5)
    return status


def table(folder):
    """The rows of all crates, the dearest first."""
    with open(f"{folder}/seen.json") as text:
        told = json.load(text)
    spent, memory, edits = collections.defaultdict(collections.Counter), collections.Counter(), collections.Counter()
    for it in told["provers"]:
        spent[it["crate"]][it["stage"]] += it.get("seconds", 0)
        memory[it["crate"]] = max(memory[it["crate"]], it["memory"])
        edits[it["crate"]] += it["stage"] == "edits"
    rows = [["crate", *STAGES, "checks of edits", "GB"]]
    for crate, stages in sorted(spent.items(), key=lambda it: -it[1].total()):
        rows.append([f"`{crate}`", *(f"{stages[it]:.0f}" if stages[it] else "" for it in STAGES), str(edits[crate] or ""), f"{memory[crate] / 1e9:.1f}"])
    sums = [sum(it[stage] for it in spent.values()) for stage in STAGES]
    rows.append(["all", *(f"{it:.0f}" for it in sums), str(edits.total()), f"{max(memory.values(), default=0) / 1e9:.1f}"])
    for at, row in enumerate(rows):
        print(f"| {' | '.join(row)} |")
        if at == 0:
            print("|---" * len(row) + "|")
    print(f"\n{sum(sums) / 3600:.2f} hours of processor time, {told['clock'] / 60:.0f} minutes by the clock, status {told['status']}")


def main(words):
    if len(words) == 2 and words[0] == "--told":
        table(words[1])
        return 0
    if len(words) != 1:
        print(__doc__)
        return 2
    status = measure(words[0])
    table(words[0])
    return status


if __name__ == "__main__":
    sys.exit(main(sys.argv[1:]))
