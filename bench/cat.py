"""Reads a file of 4 MiB by `cat` from arrays of 8 MiB and of 128 MiB, and prints the time per byte.

The two arrays have 2^13 and 2^17 blocks of 1024 bytes, and are replayed by turns, each with and without the reads: what the
reads take is the difference of the least times. The time per byte may grow by a factor of 1.2 at most; else the exit
status is 1. The traces, the replies and the image files stand in a temporary folder (TMPDIR says where). The bytes that are
answered are compared with the file.
"""
import os
import random
import subprocess
import sys
import tempfile
import time

from volumes import Volume

FRAGMENT = 1024
BOUNDARIES = 4
FILE_BYTES = 4 << 20
READS = 8
ROUNDS = 9


def write_trace(path, blocks, volume, reads):
    with open(path, "w") as out:
        out.write(f"array {FRAGMENT} {blocks} {BOUNDARIES} {2 * blocks // BOUNDARIES} 2\n")
        out.writelines(volume.events())
        out.writelines(["cat /f0\n"] * reads)


def replay(program, folder, trace, replies):
    """One replay: its seconds by the clock, and those of the processor."""
    with open(trace, "rb") as stdin, open(replies, "wb") as stdout:
        start = time.monotonic()
        child = subprocess.Popen([program, "replay"], stdin=stdin, stdout=stdout, cwd=folder)
        _, status, usage = os.wait4(child.pid, 0)
        clock = time.monotonic() - start
    if status != 0:
        sys.exit(f"the program ended with wait status {status}")
    return clock, usage.ru_utime + usage.ru_stime


def check(replies, contents):
    """Each read gave the file, and no more was answered."""
    with open(replies) as got:
        while (line := got.readline()) == "ok\n":
            pass
        for _ in range(READS):
            read = bytearray()
            while line.startswith("bytes "):
                read += bytes.fromhex(line[6:])
                line = got.readline()
            if read != contents or line != f"end {len(contents)}\n":
                sys.exit("a read isn't as expected")
            line = got.readline()
        if line:
            sys.exit("more replies than events")


class Array:
    """The replays of one array: what each took without the reads, and with them."""

    def __init__(self, folder, bits, contents):
        self.bits = bits
        self.contents = contents
        self.folder = os.path.join(folder, str(bits))
        self.replies = os.path.join(folder, f"replies-{bits}")
        os.mkdir(self.folder)
        volume = Volume(FRAGMENT, 1 << bits, [contents])
        self.traces = [os.path.join(folder, f"trace-{bits}-{reads}") for reads in (0, READS)]
        for trace, reads in zip(self.traces, (0, READS)):
            write_trace(trace, 1 << bits, volume, reads)
        self.rounds = []

    def replay(self, program):
        self.rounds.append([replay(program, self.folder, trace, self.replies) for trace in self.traces])

    def least(self):
        """The least times of the reads, in seconds per byte: by the clock, and of the processor."""
        check(self.replies, self.contents)
        clock, processor = (
            (min(one[1][kind] for one in self.rounds) - min(one[0][kind] for one in self.rounds)) / (READS * FILE_BYTES)
            for kind in (0, 1)
        )
        print(
            f"N = 2^{self.bits}: {1 / clock / (1 << 20):,.1f} MiB/s by the clock; per byte {clock * 1e9:.2f} ns by the clock, "
            f"{processor * 1e9:.2f} ns of the processor"
        )
        return clock, processor


def main():
    program, seed = sys.argv[1], int(sys.argv[2])
    contents = random.Random(seed).randbytes(FILE_BYTES)
    with tempfile.TemporaryDirectory() as folder:
        arrays = [Array(folder, bits, contents) for bits in (13, 17)]
        for _ in range(ROUNDS):
            for array in arrays:
                array.replay(program)
        small, large = (array.least() for array in arrays)
    ratios = [b / a for a, b in zip(small, large)]
    print("time per byte at N = 2^17 to that at N = 2^13: {:.2f} by the clock, {:.2f} of the processor".format(*ratios))
    sys.exit(ratios[0] > 1.2)


if __name__ == "__main__":
    main()
