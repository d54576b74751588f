"""Replays the traffic of sound volumes of 2^12 to 2^20 fragments of 512 bytes, with a `settle` at its end, and prints what these take.

The volumes are those of bench/check.py, on an array of four boundaries with places for a naming block on two, and slots for twice the
blocks. The blocks that aren't zero are written in the order `late` (those of the data area upwards, then all others downwards), and one volume of 64 MiB
in the orders `up` and `down` as well. The time of a `settle` is the difference of replays with it and without. The processor's time of a short run
comes in ticks, so each trace is replayed as often as makes a million writes, at least three times, and the mean is told. The time of a write in the
program may grow by a factor of 1.3 from 8 MiB to 512 MiB; else the exit status is 1. Traces and image files stand in a temporary folder (TMPDIR says where).
"""
import os
import sys
import tempfile

from check import FRAGMENT, sound_volume
from replay import replay

LEAST_ROUNDS = 3
MOST_WRITES = 1_000_000
SIZES = (12, 14, 16, 17, 20)
TRAFFIC_BITS = 17
FLAT_BITS = (14, 20)
BOUNDARIES = 4


def written_blocks(volume, order):
    """The numbers of the blocks that aren't zero, in an order."""
    some = sorted(block for block, data in volume.image.items() if any(data))
    if order == "up":
        return some
    if order == "down":
        return some[::-1]
    in_data = [block for block in some if block % volume.group_size >= volume.data_at]
    others = [block for block in some if block % volume.group_size < volume.data_at]
    return in_data + others[::-1]


def write_trace(path, volume, bits, order, settle):
    """A trace of the volume's writes, and their number."""
    blocks = written_blocks(volume, order)
    with open(path, "w") as out:
        out.write(f"array {FRAGMENT} {1 << bits} {BOUNDARIES} {(1 << bits) // 2} 2\n")
        for block in blocks:
            out.write(f"write {block} {volume.image[block].hex()}\n")
        if settle:
            out.write("settle\n")
    return len(blocks)


def mean(program, folder, trace, writes, settle):
    """The mean seconds in the program of some replays of a trace, and their peak memory in KiB."""
    replies = os.path.join(folder, "replies")
    rounds = max(LEAST_ROUNDS, MOST_WRITES // writes)
    taken = [replay(program, folder, trace, replies) for _ in range(rounds)]
    with open(replies) as got:
        lines = got.read().split("\n")[:-1]
    if lines != ["ok"] * (writes + 1) + ["settled"] * settle:
        sys.exit(f"the replies end with {lines[-1]!r}")
    return sum(one[1] for one in taken) / rounds, max(one[3] for one in taken)


def measure(program, folder, bits, order):
    """What a volume's writes and its settling take: events, seconds of each, and KiB."""
    volume = sound_volume(1 << bits)
    trace = os.path.join(folder, "trace")
    found = []
    for settle in (False, True):
        writes = write_trace(trace, volume, bits, order, settle)
        found.append(mean(program, folder, trace, writes, settle))
    (alone, kept), (whole, peak) = found
    print(
        f"2^{bits} fragments, {order}: {writes:,} writes, {writes / whole:,.0f} events a second in the program with the settling; "
        f"{alone / writes * 1e6:.2f} us a write, settle {whole - alone:.2f} s, {(whole - alone) / (1 << bits) * 1e6:.2f} us a fragment; "
        f"peak memory {kept:,} KiB without settle, {peak:,} KiB with it",
        flush=True,
    )
    return alone / writes


def main():
    program = sys.argv[1]
    with tempfile.TemporaryDirectory() as folder:
        per_write = {bits: measure(program, folder, bits, "late") for bits in SIZES}
        for order in ("up", "down"):
            measure(program, folder, TRAFFIC_BITS, order)
    small, large = (per_write[bits] for bits in FLAT_BITS)
    print(f"time per write at 2^20 to that at 2^14: {large / small:.2f}")
    sys.exit(large / small > 1.3)


if __name__ == "__main__":
    main()
