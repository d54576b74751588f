"""Refuses each allocation of some runs of the program in turn, and sees how each run ends.

    drill.py PROGRAM SHIM [--from N] [--to N]

The runs are a replay of a small volume's blocks with each kind of event (settle, cat, ls, tree, diffuse, fail, replace, rebuild, tend, save and
more), and then, on the array that it saved, a `resume`, `cat`, `ls` and `status`. Each is run once undisturbed, which counts its allocations, and
once for each number of an allocation, which SHIM (built of refuse.c) refuses. Such a run must end with status 5, and with nothing
printed but a prefix of what the undisturbed run prints; nothing on standard error. A run of a command that only reads must leave each image byte for
byte as it was, and no run may make one that isn't of the array. `--from` and `--to` bound the numbers. The status is 1 where a run ended otherwise.
"""
import argparse
import collections
import os
import shutil
import subprocess
import sys
import tempfile

HERE = os.path.dirname(os.path.abspath(__file__))
sys.path.insert(0, os.path.join(HERE, "..", "soak"))
from model import Array  # noqa: E402
from rows import E, F, hexed, writes  # noqa: E402

SECONDS = 20
NO_MEMORY = 5
MOST_WRONG = 20
CHANGED = f"write 34 {hexed(b'jello')}"
# the files are removed and a member is refilled, which reaps their blocks; then they are written again
REMOVED = [*writes(E, [24, 28, 33]), "who 34", "fail 3 0", "replace 3 0", "rebuild 3 99", "who 34", *writes(F)]
SCRIPT = [
    "array 1024 128 4 64 2", *writes(F), "who 34", "pending", "tend 2", "settle", *REMOVED, "settle", "tree", "home /d/b", "ls /d", "cat /a",
    "cat /h", "diffuse", "home /a", "fail 2 0", "replace 2 0", "rebuild 2 10", "rebuild 2 99", "save", "cat /d/b", "read 34", CHANGED,
    "write 120 -", "settle", "cat /d/b", "diffuse", "save",
]
RESUMED = [
    "cat /a", "tree", CHANGED, "tend 3", "settle", "cat /h", "diffuse", "fail 1 1", "replace 1 1", "rebuild 1 99", "save", "fail 0 0", "fail 0 1", "cat /d/b",
    "write 3 -", "save", "audit", "regroup", "settle", "lostfiles", "cat /a", "write 3 -", "rebuild 1 99", "save",
]
# the commands that only read the saved array
READERS = ["cat", "ls", "status"]
RUNS = [(["replay"], SCRIPT), (["resume"], RESUMED), (["cat", "/d/b"], []), (["ls", "/"], []), (["status"], [])]


def replies():
    """What the model answers to the replay and to the trace that is resumed after it."""
    array = Array(*map(int, SCRIPT[0].split(" ")[1:]))
    told = [["ok"], *(array.do(line) for line in SCRIPT[1:])], [array.do(line) for line in RESUMED]
    return ["".join(line + "\n" for reply in some for line in reply).encode() for some in told]


def images(folder):
    """The bytes of each file of a folder, by its name."""
    found = {}
    for name in sorted(os.listdir(folder)):
        with open(os.path.join(folder, name), "rb") as file:
            found[name] = file.read()
    return found


class Drill:
    """The program with the shim, in folders of its own."""

    def __init__(self, program, shim, base):
        self.program, self.shim, self.base = program, shim, base
        self.counter = os.path.join(base, "count")
        self.wanted = replies()
        self.saved = os.path.join(base, "saved")
        self.kept = {}

    def run(self, words, lines, start, refused):
        """One run on a copy of a folder: its output, what it told, its status, how many allocations it made, and whether the images are as they may be."""
        folder = os.path.join(self.base, "run")
        shutil.copytree(start, folder)
        with open(self.counter, "wb") as file:
            file.write(bytes(24))
        environment = {**os.environ, "LD_PRELOAD": self.shim, "REFUSE_COUNT": self.counter, "REFUSE_AT": str(refused)}
        text = "".join(line + "\n" for line in lines).encode()
        try:
            done = subprocess.run([self.program, *words], input=text, capture_output=True, cwd=folder, env=environment, timeout=SECONDS)
            ended = done.stdout, done.stderr, done.returncode
        except subprocess.TimeoutExpired as late:
            ended = late.stdout or b"", b"", f"no end in {SECONDS} seconds"
        with open(self.counter, "rb") as file:
            count = int.from_bytes(file.read(8), "little")
        kept = self.keeps(words, folder)
        if refused == 0 and words == ["replay"]:
            os.rename(folder, self.saved)
            self.kept = images(self.saved)
        else:
            shutil.rmtree(folder)
        return *ended, count, kept

    def keeps(self, words, folder):
        """Whether a run left the images as it may: one that only reads has changed none, and no run has made one that isn't of the array."""
        left = images(folder)
        return left == self.kept if words[0] in READERS else not self.kept or left.keys() <= self.kept.keys()


def last_event(lines, output):
    """The event in whose reply an output ends, by its number and its line."""
    ends = sum(not line.startswith((b"bytes ", b"node ", b"entry ", b"block ")) for line in output.split(b"\n")[:-1])
    return f"event {ends + 1}, {lines[ends][:40]!r}" if ends < len(lines) else "no event"


def try_run(drill, words, lines, start, first, last):
    """Refuses the allocations of one run in turn; how many were refused, and how many of these runs ended otherwise than they must."""
    whole, told, status, count, kept = drill.run(words, lines, start, 0)
    print(f"{' '.join(words)}: {count} allocations, {len(whole.splitlines())} lines, status {status}", flush=True)
    if status != 0 or told or count == 0 or not kept or lines and whole not in drill.wanted:
        sys.exit(f"the undisturbed run ended with status {status}, {count} allocations, and told {told!r}; or its replies aren't the model's, "
                 "or it changed an image")
    wrong, places = 0, collections.Counter()
    tried = range(max(1, first), min(count, last) + 1)
    for number in tried:
        output, told, status, _, kept = drill.run(words, lines, start, number)
        places[len(output.splitlines())] += 1
        if status != NO_MEMORY or told or not kept or not whole.startswith(output):
            wrong += 1
            at = last_event(lines, output) if lines else "no event"
            print(f"allocation {number} refused: status {status}, {len(output)} bytes of output ({at}), which are "
                  f"{'' if whole.startswith(output) else 'no '}prefix, told {told!r}, and the images are{'' if kept else ' not'} as they may be", flush=True)
        if wrong == MOST_WRONG:
            break
    if first <= 1 and last > count:
        drill_past(drill, words, lines, start, count, whole)
    print(f"{' '.join(words)}: {len(tried)} refused, {wrong} wrong, at {len(places)} places of the output", flush=True)
    return len(tried), wrong


def drill_past(drill, words, lines, start, count, whole):
    """Where none is left to be refused, the run goes as undisturbed."""
    output, told, status, _, kept = drill.run(words, lines, start, count + 1)
    if (output, told, status, kept) != (whole, b"", 0, True):
        sys.exit(f"a run without a refused allocation ended with status {status}")


def main():
    parser = argparse.ArgumentParser()
    parser.add_argument("program")
    parser.add_argument("shim")
    parser.add_argument("--from", type=int, default=1, dest="first")
    parser.add_argument("--to", type=int, default=10**9, dest="last")
    args = parser.parse_args()
    tried, wrong = 0, 0
    with tempfile.TemporaryDirectory() as base:
        drill = Drill(os.path.abspath(args.program), os.path.abspath(args.shim), base)
        blank = os.path.join(base, "blank")
        os.mkdir(blank)
        for words, lines in RUNS:
            start = blank if words == ["replay"] else drill.saved
            more, worse = try_run(drill, words, lines, start, args.first, args.last)
            tried, wrong = tried + more, wrong + worse
    print(f"{tried} allocations refused, {wrong} runs that ended otherwise than with status 5, a prefix of the replies, and images as they may be")
    sys.exit(wrong > 0)


if __name__ == "__main__":
    main()
