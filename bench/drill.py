"""Runs the command `drill 1 2000`, and prints what it takes, how that parts into its steps, and which calls take which part of it.

Three runs are timed, each in a new folder. The steps are told apart by the calls of the system that a run has made, while its processor's time
is looked at every half of a millisecond: before its first write it makes the files and their volume; then it writes each block to two members;
the settling ends with the last write to a member; the rest is the reading of the files.

The shares are instructions, as valgrind counts them, so that they don't depend on the load: from the start of the program the way is followed
down to the last function of the drill's own that has nearly all instructions, and each call that this one makes is printed with what it takes,
all that it calls included; these are added up by their names, too. There is no bound; the exit status is 1 where a drill fails or prints
anything else than the run before. Image files stand in a temporary folder (TMPDIR says where).
"""
import os
import re
import shutil
import subprocess
import sys
import tempfile
import time

from calls import calls_of
from replay import peak_of

ROUNDS = 3
WORDS = ["drill", "1", "2000"]
NEARLY_ALL = 0.9
OWN = ("main", "dgraid::", "dg_run::", "dg_drill::drills::")
LEAST_SHARE = 0.002
PARTS = {
    "the files and their volume": ("dg_drill::items", "dg_drill::made", "ufs_build::", "rand_", "ufs_super", "std_alloc::vec::Vec::grow"),
    "writes": ("write_block", "dg_infer::", "Loose+R::array"),
    "settle": ("::settle::", "dg_volume::plans", "dg_volume::seals", "dg_move::", "dg_plan::", "dg_placed::", "ufs_check::"),
    "reads": ("dg_drill::reads", "dg_drill::comparers", "::cat::", "ufs_path::", "ufs_pointer::"),
}


class Drill:
    """One run in a new folder: its seconds by the clock, in the program and in the system, its peak memory in KiB, and what it prints."""

    def __init__(self, program, parent):
        self.samples, self.peak = [], 0
        with tempfile.TemporaryDirectory(dir=parent) as folder:
            start = time.monotonic()
            child = subprocess.Popen([program, *WORDS], stdin=subprocess.DEVNULL, stdout=subprocess.PIPE, cwd=folder)
            ended = 0
            while not ended:
                self.look(child.pid)
                time.sleep(0.0005)
                ended, status, usage = os.wait4(child.pid, os.WNOHANG)
            self.clock = time.monotonic() - start
            self.printed = child.stdout.read().decode()
        if status != 0:
            sys.exit(f"the program ended with wait status {status} and printed {self.printed!r}")
        self.inside, self.system = usage.ru_utime, usage.ru_stime

    def look(self, pid):
        """Notes the processor's seconds so far, the calls that wrote, and the bytes that they wrote."""
        try:
            with open(f"/proc/{pid}/io") as file:
                counts = dict(line.split(": ") for line in file)
            self.samples.append((time.clock_gettime(~pid << 3 | 2), int(counts["syscw"]), int(counts["wchar"])))
            self.peak = max(self.peak, peak_of(pid))
        except OSError:
            return

    def steps(self):
        """The processor's seconds of each step."""
        blocks = int(re.search(r"^blocks (\d+)$", self.printed, re.M).group(1))
        # The last sample may be of before or after the lines are printed, which are fewer bytes than a block.
        least = self.samples[-1][2] - len(self.printed)
        ends = [min(now for now, calls, _ in self.samples if calls >= most) for most in (1, 2 * blocks)]
        ends.append(min(now for now, _, written in self.samples if written >= least))
        ends.append(self.inside + self.system)
        return [after - before for before, after in zip([0, *ends], ends)]


def part_of(name):
    """The part of a drill to which a call belongs."""
    return next((part for part, names in PARTS.items() if any(one in name for one in names)), "other")


def shares(program, folder):
    """Prints what the calls of the drill's own function take."""
    calls = calls_of(program, WORDS, folder)
    top = calls.deepest("main", NEARLY_ALL, OWN)
    whole = calls.whole(top)
    print(f"{whole / 1e6:,.0f} million instructions in {top}, of which {calls.own[top] / whole:.1%} its own")
    parts = dict.fromkeys([*PARTS, "other"], 0)
    for name, count in calls.callees[top].most_common():
        parts[part_of(name)] += count
        if count >= LEAST_SHARE * whole:
            print(f"    {count / whole:6.1%} {name} ({part_of(name)})")
    print("; ".join(f"{part}: {count / whole:.1%}" for part, count in parts.items()))


def main():
    program = sys.argv[1]
    with tempfile.TemporaryDirectory() as folder:
        runs = [Drill(program, folder) for _ in range(ROUNDS)]
        print(runs[0].printed, end="")
        for run in runs:
            if run.printed != runs[0].printed:
                sys.exit(f"another run printed {run.printed!r}")
            steps = "; ".join(f"{step} {seconds:.3f}" for step, seconds in zip(PARTS, run.steps()))
            print(f"{run.clock:.2f} s by the clock, {run.inside:.2f} in the program, {run.system:.2f} in the system; peak memory {run.peak:,} KiB")
            print(f"    of the processor's seconds: {steps}", flush=True)
        if shutil.which("valgrind"):
            shares(program, folder)


if __name__ == "__main__":
    main()
