"""Saves small arrays on a disk and on a tmpfs, and prints what a save takes there by the clock.

Arrays of 64 blocks of 1024 bytes on 4 and on 16 boundaries (8 and 32 members) are saved in each folder by turns: once more as they are, and behind a write of one
block. On a disk almost all of the time is that of flushes. A save once more flushes each member three times: the label that is opened, the body, the label. Behind a
write, which has opened the labels, it is two. The least and the middle of the rounds are printed.
"""
import os
import statistics
import sys
import tempfile

from session import Session

ROUNDS = 40
BOUNDARIES = (4, 16)


class Array:
    """An array in a folder, and what its saves took."""

    def __init__(self, program, folder, boundaries):
        self.session = Session(program, folder, (1024, 64, boundaries, 32, 2))
        self.number, self.again, self.behind = 0, [], []
        self.save()

    def save(self):
        self.number += 1
        return self.session.expect("save", f"saved {self.number}")[0]

    def turn(self):
        self.again.append(self.save())
        self.session.expect("write 3 01", "ok")
        self.behind.append(self.save())


def main():
    if len(sys.argv) < 3:
        sys.exit("flush.py PROGRAM FOLDER..")
    program = os.path.abspath(sys.argv[1])
    rows = {}
    for place in sys.argv[2:]:
        for boundaries in BOUNDARIES:
            folder = tempfile.TemporaryDirectory(dir=place)
            rows[place, boundaries] = folder, Array(program, folder.name, boundaries)
    for _ in range(ROUNDS):
        for _, array in rows.values():
            array.turn()
    for (place, boundaries), (folder, array) in rows.items():
        array.session.end()
        folder.cleanup()
        for what, taken in (("again", array.again), ("behind a write", array.behind)):
            print(f"{place}: {2 * boundaries} members, a save {what}: least {min(taken) * 1e3:.2f} ms, middle {statistics.median(taken) * 1e3:.2f} ms")


if __name__ == "__main__":
    main()
