"""Builds volumes of 16, 64 and 256 MiB from files that nearly fill them, puts their blocks into the order `late`, and prints what that takes.

The time of a build is the difference of runs with more builds and with one, divided by the builds, in the least of three rounds by turns of
the sizes; the making of the files isn't in it, nor is the order. The first build of a run takes memory from the system, which is told apart: by a
run that makes the files alone, as is the memory. The time of an order is had in the same way, on volumes of files without a zero (`order`), of
whose blocks the first byte tells, and of files of zeros (`zeros`), whose blocks are gone through. The time per MiB in the program may grow by a
factor of 1.3 from 16 to 256 MiB; else the exit status is 1. Then a volume of 16 MiB is built with 500, 1000, 2000 and 4000 files of one byte, each
of which is looked for among those before it. With the word `count`, the instructions of each task are counted too.
"""
import sys

from programs import ROUNDS, run
from taken import more

SIZES = (16, 64, 256)
TURN_MIB = {"build": 512, "order": 2048, "zeros": 512}
MOST_RATIO = 1.3
MIB = 1 << 20

TINY = (500, 1000, 2000, 4000)
TINY_TIMES = 16


def line_of(printed):
    return rf"{printed} blocks are written\n"


class Runs:
    """Runs of a task with one size: without it, once, and more often."""

    def __init__(self, program, task, size, more):
        self.program, self.task, self.size, self.more = program, task, size, more
        self.without, self.once, self.often = [], [], []

    def turn(self):
        for times, runs in ((0, self.without), (1, self.once), (1 + self.more, self.often)):
            runs.append(run(self.program, (self.task, self.size, times), line_of(r"([1-9]\d*)" if times else "0")))

    def each(self):
        """The least seconds in the program of a task that isn't the first of its run."""
        return (min(one.seconds for one in self.often) - min(one.seconds for one in self.once)) / self.more

    def first(self):
        """The least seconds of the processor, in the program and in the system, of the first task of a run."""
        once, without = (min(one.seconds + one.system for one in runs) for runs in (self.once, self.without))
        return once - without

    def blocks(self):
        return int(self.once[0].found.group(1))

    def memory(self):
        """The peak memory of a run, and how much more that is than without the task, in bytes."""
        peak = max(one.peak for one in self.once)
        return peak, peak - max(one.peak for one in self.without)


def by_turns(runs):
    for _ in range(ROUNDS):
        for one in runs:
            one.turn()
    return runs


def count(program, task, size):
    """Prints the instructions of a task, or nothing where there is no valgrind."""
    counted = more(program, [((task, size, times),) for times in (1, 2)])
    if counted is not None:
        print(f"{task} {size}: {counted / 1e6:,.2f} million instructions", flush=True)


def compare(program, task):
    """Prints what a task takes, and answers the ratio of the largest volume's time per MiB to that of the least."""
    per_mib = []
    for one in by_turns([Runs(program, task, size, TURN_MIB[task] // size) for size in SIZES]):
        each, first = one.each(), one.first()
        told = f"{one.size} MiB, {one.blocks():,} blocks: {each * 1e3:.1f} ms in the program, {one.size / each:,.0f} MiB a second"
        told += f"; the first one {first * 1e3:.1f} ms with the system's, {one.size / first:,.0f} MiB a second"
        if task == "build":
            peak, more = one.memory()
            told += f"; peak memory {peak / MIB:.1f} MiB, {more / MIB:.1f} more than the files alone"
        print(f"{task}: {told}", flush=True)
        per_mib.append(each / one.size)
    ratio = per_mib[-1] / per_mib[0]
    print(f"{task}: time per MiB at {SIZES[-1]} MiB to that at {SIZES[0]}: {ratio:.2f}", flush=True)
    return ratio


def tiny(program):
    """Prints what many files of one byte take."""
    for one in by_turns([Runs(program, "tiny", files, TINY_TIMES) for files in TINY]):
        print(f"{one.size:,} files of one byte in 16 MiB: {one.each() * 1e3:.1f} ms in the program", flush=True)


def main():
    program = sys.argv[1]
    ratios = [compare(program, task) for task in TURN_MIB]
    tiny(program)
    if "count" in sys.argv[2:]:
        for task in TURN_MIB:
            for size in SIZES:
                count(program, task, size)
        for files in TINY:
            count(program, "tiny", files)
    sys.exit(max(ratios) > MOST_RATIO)


if __name__ == "__main__":
    main()
