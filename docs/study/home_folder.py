"""The volume of the study: a small home folder of directories, files and links, whose sizes are drawn by a seed.

The sizes of files are log-normal, as in measured file systems: half of them have fewer than 4 KiB, and a few have most of
the bytes. A directory has some directories and some files.
"""
import math
import os
import random
import sys

sys.path.insert(0, os.path.join(os.path.dirname(os.path.abspath(__file__)), "..", "..", "tests", "soak"))
from image import Image, Item, make_geometry  # noqa: E402
from volume import ROOT  # noqa: E402

BLOCK = 1024
BLOCKS = 8192
MEDIAN, SPREAD, LARGEST = 4096, 1.8, 300_000
DIRECTORIES, FILES, LINKS = 24, 400, 10
FILL = 0.75


def geometry():
    """Four groups of 2048 fragments of 1 KiB, eight in a file block, with 128 inodes each."""
    return make_geometry("little", BLOCK, 8, 4, BLOCKS // 4, 128)


def size_of(rng):
    return min(LARGEST, int(math.exp(rng.gauss(math.log(MEDIAN), SPREAD))))


def items_of(seed):
    """The items of the volume, and of each file and directory its path."""
    rng = random.Random(seed)
    items, paths = [], {ROOT: ""}
    directories = [ROOT]
    inode = 3
    room = int(FILL * BLOCKS * BLOCK)
    for i in range(DIRECTORIES):
        above = rng.choice(directories)
        items.append(Item(inode, above, b"d%02d" % i, "d"))
        paths[inode] = f"{paths[above]}/d{i:02}"
        directories.append(inode)
        inode += 1
    for i in range(FILES):
        size = size_of(rng)
        if room < size + BLOCK:
            continue
        room -= size + BLOCK
        above = rng.choice(directories)
        items.append(Item(inode, above, b"f%03d" % i, "r", rng.randbytes(size)))
        paths[inode] = f"{paths[above]}/f{i:03}"
        inode += 1
    for i in range(LINKS):
        above = rng.choice(directories)
        items.append(Item(inode, above, b"l%d" % i, "l", b"../d00/f%03d" % rng.randrange(FILES)))
        inode += 1
    return items, paths


class Study:
    """The blocks of the volume, and what its files hold."""

    def __init__(self, seed):
        items, paths = items_of(seed)
        made = Image(geometry(), BLOCKS)
        made.add_all(items)
        self.blocks = {b: bytes(block) for b, block in enumerate(made.blocks) if any(block)}
        self.files = {paths[item.inode]: item.data for item in items if item.kind == "r"}
        self.directories = ["/"] + [paths[item.inode] for item in items if item.kind == "d"]

    def writes(self):
        return "".join(f"write {b} {block.hex()}\n" for b, block in self.blocks.items())


if __name__ == "__main__":
    study = Study(int(sys.argv[1]) if len(sys.argv) > 1 else 1)
    sizes = sorted(map(len, study.files.values()))
    print(f"{len(study.files)} files of {sum(sizes)} bytes, the middle one of {sizes[len(sizes) // 2]}, the largest of {sizes[-1]}")
    print(f"{len(study.directories)} directories, {len(study.blocks)} blocks that aren't zero")
