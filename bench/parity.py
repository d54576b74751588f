"""Groups of disks with parity in memory, by the program of crates/parity_bench.

Writes of the blocks of a 64 MiB array over groups of 3, 5 and 8 disks beside those of one over pairs; reads of a member of 64 MiB without a disk beside those
with all; and a disk of its group that comes back beside a plain copy of as many bytes. Each is done by turns, so many rounds; what preparing it takes is
measured by a run that does it no times, and taken off. Printed are the medians of the rounds, in the processor's seconds, and the bytes that were moved. The
exit status is 1 where reads without a disk take more than n times as long, or a disk comes back at less than 0.4 of the speed of a copy, by all bytes that are moved.
"""
import re
import statistics
import sys

from taken import seconds

ROUNDS = 9
WIDTHS = (3, 5, 8)
PAIR = 2
# bytes of a block, the bits of how many there are, and how often a block is written or read
ARRAYS = ((512, 17, 600_000), (4096, 14, 150_000))
# the member whose disk comes back, and how often
MENDED = (4096, 14, 6)
LEAST = 0.4
MIB = 1 << 20


def run(program, words):
    """The processor's seconds of a run, how much was done, the calls, and the bytes read and written."""
    taken, printed = seconds(program, words)
    found = re.fullmatch(r"(\d+) done, (\d+) calls, (\d+) bytes read, (\d+) bytes written\n", printed)
    if not found:
        sys.exit(f"the program printed {printed!r}")
    return taken, [int(number) for number in found.groups()]


def alone(program, task, words, times, *last):
    """The seconds of what is done so many times alone, and what was done."""
    without, _ = run(program, [task, *words, 0, *last])
    whole, did = run(program, [task, *words, times, *last])
    return whole - without, did


def medians(runs):
    """The medians of the seconds of some runs, made by turns, and what each did."""
    rounds = [[one() for one in runs] for _ in range(ROUNDS)]
    taken = [statistics.median(one[which][0] for one in rounds) for which in range(len(runs))]
    return taken, [one[1] for one in rounds[0]]


def writes(program):
    print("writes: block, disks, seconds, beside a pair; calls, bytes read and bytes written for each byte of a block")
    for size, bits, times in ARRAYS:
        kinds = (PAIR, *WIDTHS)
        runs = [lambda kind=kind: alone(program, "write", [kind, size, bits], times) for kind in kinds]
        taken, did = medians(runs)
        for kind, one, (done, calls, read, written) in zip(kinds, taken, did):
            if done != times:
                sys.exit(f"{done} of {times} writes were stored")
            whole = times * size
            print(f"  {size} {kind}: {one:.3f} s, {one / taken[0]:.2f}; {calls / times:.2f}, {read / whole:.2f}, {written / whole:.2f}", flush=True)


def reads(program):
    """Whether reads without a disk take at most n times as long as those with all."""
    print("reads: block, disks, seconds with all disks and without one, the ratio; bytes read for each byte of a block")
    is_within = True
    for size, bits, times in ARRAYS:
        for width in WIDTHS:
            runs = [lambda out=out: alone(program, "read", [width, size, bits], times, out) for out in (0, 1)]
            (whole, without), did = medians(runs)
            if any(one[0] != times for one in did):
                sys.exit(f"not all of {times} reads were made")
            moved = [one[2] / (times * size) for one in did]
            print(f"  {size} {width}: {whole:.3f} s, {without:.3f} s, {without / whole:.2f}; {moved[0]:.2f}, {moved[1]:.2f}", flush=True)
            is_within = is_within and without <= width * whole
    return is_within


def mends(program):
    """Whether a disk comes back at so much of the speed of a copy at least, by the bytes that are moved: all other disks are read for it."""
    print("a disk that comes back: disks, MiB a second, those of a plain copy, the ratio; bytes moved a second beside those of a copy")
    is_within, (size, bits, times) = True, MENDED
    for width in WIDTHS:
        runs = [lambda task=task: alone(program, task, [width, size, bits], times) for task in ("mend", "copy")]
        taken, did = medians(runs)
        # the bytes written are those of the disk; of a copy as many, but for the last piece
        speeds = [one[3] / MIB / taken_by for one, taken_by in zip(did, taken)]
        moved = [(one[2] + one[3]) / taken_by for one, taken_by in zip(did, taken)]
        ratio = speeds[0] / speeds[1]
        print(f"  {width}: {speeds[0]:.0f}, {speeds[1]:.0f}, {ratio:.2f}; {moved[0] / moved[1]:.2f}", flush=True)
        is_within = is_within and moved[0] / moved[1] >= LEAST
    return is_within


if __name__ == "__main__":
    writes(sys.argv[1])
    within = [reads(sys.argv[1]), mends(sys.argv[1])]
    sys.exit(not all(within))
