"""Writes blocks of sound volumes of 8 MiB, 64 MiB and 512 MiB over and over by a replay, and prints the processor's time of a write.

The volumes are those of bench/check.py (2^14, 2^17 and 2^20 fragments of 512 bytes, on four boundaries, m = 2, slots for twice the blocks). They are
written whole first, which isn't in the time. Then follow, by turns of the arrays, writes of one block each, with two contents by turns: a block of
a file's data; the first fragment of a file's indirect block, with its pointers and with none; a fragment of inodes in which one's time
changes; and the same fragment with a file of 20 blocks and without it. From 8 MiB to 512 MiB the time of a write of data may grow by a factor of 1.3 at
most, and that of the others, which change the ordered tables of what is claimed, by 1.3 over the growth of the bits of the number of fragments; else the exit
status is 1. The image files stand in a temporary folder (TMPDIR says where): about 1.5 GB.
"""
import os
import sys
import tempfile

from check import FRAGMENT, sound_volume
from infer import a_long_file, pairs_of, slots_of
from session import Session, load

SIZES = (14, 17, 20)
BOUNDARIES = 4
ROUNDS = 5
TIMES = {"data": 20_000, "indirect": 4_000, "inode's time": 10_000, "inode": 1_000}
MTIME = 24


def kinds_of(volume):
    """The two writes of each kind, as lines."""
    pairs = pairs_of(volume)
    block, at, _ = slots_of(volume, a_long_file(volume))
    inodes = volume.image[block]
    touched = inodes[:at + MTIME] + b"\1\0\0\0" + inodes[at + MTIME + 4:]
    pairs["inode's time"] = ((block, touched), (block, inodes))
    return {kind: [f"write {where} {data.hex()}\n" for where, data in pairs[kind]] for kind in TIMES}


class Array:
    """An array whose volume is written, and the seconds of each kind of write in each round."""

    def __init__(self, program, folder, bits):
        self.bits = bits
        self.session = Session(program, os.path.join(folder, str(bits)), (FRAGMENT, 1 << bits, BOUNDARIES, (1 << bits) // 2, 2))
        volume = sound_volume(1 << bits)
        written = [block for block, data in sorted(volume.image.items()) if any(data)]
        taken = self.session.all_well(f"write {block} {volume.image[block].hex()}\n" for block in written)
        print(f"2^{bits} fragments, {volume.about()}: {len(written):,} writes before, {taken / len(written) * 1e6:.2f} us each; {load()}", flush=True)
        self.kinds = kinds_of(volume)
        self.taken = {kind: [] for kind in TIMES}

    def round(self):
        for kind, pair in self.kinds.items():
            self.taken[kind].append(self.session.all_well(pair * (TIMES[kind] // 2)) / TIMES[kind])

    def least(self, kind):
        return min(self.taken[kind])


def main():
    program = os.path.abspath(sys.argv[1])
    with tempfile.TemporaryDirectory() as folder:
        arrays = [Array(program, folder, bits) for bits in SIZES]
        for _ in range(ROUNDS):
            for array in arrays:
                array.round()
        for array in arrays:
            array.session.expect("settle", "settled")
            array.session.end()
    grew = False
    for kind in TIMES:
        each = [array.least(kind) for array in arrays]
        ratio = each[-1] / each[0]
        by_bit = ratio * SIZES[0] / SIZES[-1]
        told = ", ".join(f"{one * 1e6:,.2f} us at 2^{bits}" for one, bits in zip(each, SIZES))
        print(f"{kind}: {told}; 2^{SIZES[-1]} to 2^{SIZES[0]}: {ratio:.2f}, by the bits of the number {by_bit:.2f}")
        grew = grew or (ratio if kind == "data" else by_bit) > 1.3
    sys.exit(grew)


if __name__ == "__main__":
    main()
