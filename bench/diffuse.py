"""Gives 16 files of 1 MiB a second copy by `diffuse`, on arrays of 64 MiB and of 512 MiB, and prints the time per copied block.

The arrays have 2^17 and 2^20 blocks of 512 bytes on four boundaries (m = 2, slots for twice the blocks), and their volumes are full of files like
those of bench/check.py beside the 16. Both are settled; then, by turns, the 16 files are read and `diffuse` is asked for, and a write and a `settle`
take the copies away again, which isn't in the time. The processor's time per copied block may grow by a factor of 1.2 at most; else the exit status
is 1. The image files stand in a temporary folder (TMPDIR says where): about 1.5 GB.
"""
import os
import sys
import tempfile

from check import FEW_BLOCKS, FRAGMENT, IN_DIRECTORY, MANY_BLOCKS, MANY_EACH
from session import Session, load
from volumes import FRAGMENTS, Volume

SIZES = (17, 20)
COPIED = 16
COPIED_BYTES = 1 << 20
COPIED_BLOCKS = COPIED * (COPIED_BYTES // FRAGMENT + FRAGMENTS)
BOUNDARIES = 4
ROUNDS = 5


def full_volume(fragments):
    """A volume with the 16 files, and about as many others as fit."""
    few, many = (b"x" * (blocks * FRAGMENTS * FRAGMENT) for blocks in (FEW_BLOCKS, MANY_BLOCKS))
    mean = ((MANY_EACH - 1) * FEW_BLOCKS + MANY_BLOCKS + 1) * FRAGMENTS / MANY_EACH + 1
    count = int((fragments - 1000 - COPIED_BLOCKS) * 0.97 / mean)
    others = [few if i % MANY_EACH else many for i in range(count)]
    return Volume(FRAGMENT, fragments, [bytes([1 + i]) * COPIED_BYTES for i in range(COPIED)] + others, IN_DIRECTORY)


class Array:
    """A settled array, and what each `diffuse` took: the seconds by the clock and of the processor."""

    def __init__(self, program, folder, bits):
        self.bits, self.taken = bits, []
        self.session = Session(program, os.path.join(folder, str(bits)), (FRAGMENT, 1 << bits, BOUNDARIES, (1 << bits) // 2, 2))
        volume = full_volume(1 << bits)
        self.about = volume.about()
        self.session.all_well(f"write {block} {data.hex()}\n" for block, data in sorted(volume.image.items()) if any(data))
        first = min(block for block, data in volume.image.items() if any(data))
        self.again = f"write {first} {volume.image[first].hex()}"

    def round(self):
        self.session.expect(self.again, "ok")
        self.session.expect("settle", "settled")
        for i in range(COPIED):
            self.session.expect(f"cat /d0/f{i}", f"end {COPIED_BYTES}")
        self.taken.append(self.session.expect("diffuse", f"diffused {COPIED}"))
        home = self.session.ask("home /d0/f0")[0][0]
        if "copy" not in home:
            sys.exit(f"after diffuse home /d0/f0 gives {home!r}")

    def least(self):
        """The seconds per copied block, by the clock and of the processor."""
        self.session.end()
        clock, processor = (min(one[kind] for one in self.taken) / COPIED_BLOCKS for kind in (0, 1))
        print(
            f"2^{self.bits} blocks, {self.about}; {COPIED_BLOCKS:,} blocks copied: {clock * 1e6:.2f} us a block by the clock, "
            f"{processor * 1e6:.2f} us of the processor; {load()}"
        )
        return clock, processor


def main():
    program = os.path.abspath(sys.argv[1])
    with tempfile.TemporaryDirectory() as folder:
        arrays = [Array(program, folder, bits) for bits in SIZES]
        for _ in range(ROUNDS):
            for array in arrays:
                array.round()
        small, large = (array.least() for array in arrays)
    ratios = [b / a for a, b in zip(small, large)]
    print("time per copied block at 512 MiB to that at 64 MiB: {:.2f} by the clock, {:.2f} of the processor".format(*ratios))
    sys.exit(ratios[1] > 1.2)


if __name__ == "__main__":
    main()
