"""Writes blocks of sound volumes of 2^12, 2^16 and 2^20 fragments of 512 bytes, and prints what a write takes.

The volumes are those of bench/check.py. Written are, over and over by turns, a block of data with two contents; the first fragment of a file's
indirect block, with its pointers and with none; and a fragment of inodes, with a file of 20 blocks and without it. Of the volumes
all blocks but the data of files are written first, which isn't in the time. The time of a write may grow by a factor of 1.5 from 2^12 to
each, over the growth of the bits of the number of fragments; else the exit status is 1. Then a volume of 64 MiB is written whole, upwards, downwards,
and late, the blocks of its data area upwards and then all others downwards. With the word `count`, the instructions of a write are
counted too. The images stand in a temporary folder (TMPDIR says where).
"""
import os
import re
import struct
import sys
import tempfile

from check import FRAGMENT, MANY_BLOCKS, MANY_EACH, sound_volume
from taken import least, more
from volumes import FRAGMENTS

ROUNDS = 3
SIZES = (12, 16, 20)
TIMES = {"data": 1 << 20, "indirect": 1 << 14, "inode": 1 << 12}
COUNTED_TIMES = 64
TRAFFIC_BITS = 17
DATA = b"x" * FRAGMENT


def record(block, data):
    return struct.pack("<I", block) + data


def slots_of(volume, number):
    """The fragment in which an inode stands, its place there, and its 15 slots."""
    group, place = divmod(number, volume.inodes)
    block = volume.group_size * group + volume.inodes_at + 128 * place // FRAGMENT
    at = 128 * place % FRAGMENT
    return block, at, struct.unpack_from("<15I", volume.image[block], at + 40)


def a_long_file(volume):
    """The inode of a file with an indirect block, in the middle of the volume."""
    first = 2 + volume.directories
    files = volume.files
    return first + files // 2 // MANY_EACH * MANY_EACH


def pairs_of(volume):
    """The writes that are measured: for each kind of block two, by turns."""
    block, at, slots = slots_of(volume, a_long_file(volume))
    inodes = volume.image[block]
    without = inodes[:at] + bytes(128) + inodes[at + 128:]
    indirect = slots[12]
    return {
        "data": ((slots[0], b"y" * FRAGMENT), (slots[0], DATA)),
        "indirect": ((indirect, bytes(FRAGMENT)), (indirect, volume.image[indirect])),
        "inode": ((block, without), (block, inodes)),
    }


def write_records(path, *lists):
    with open(path, "wb") as out:
        for records in lists:
            out.writelines(record(*one) for one in records)


class Volume:
    """A volume of so many fragments, whose blocks but for the data of files are written first."""

    def __init__(self, folder, bits):
        self.bits = bits
        self.fragments = 1 << bits
        volume = sound_volume(self.fragments)
        first = [one for one in sorted(volume.image.items()) if one[1] != DATA]
        self.about = volume.about()
        self.first = len(first)
        self.paths = {}
        for kind, pair in pairs_of(volume).items():
            self.paths[kind] = os.path.join(folder, f"{bits}-{kind}")
            write_records(self.paths[kind], first, pair)

    def runs(self, kind, times):
        """The runs with no writes of a kind and with so many pairs of them."""
        return [((self.fragments, self.first, count), self.paths[kind]) for count in (0, times)]

    def measure(self, program, kind):
        """The seconds of a write, and the fetches that it makes."""
        (without, with_writes), printed = least(program, self.runs(kind, TIMES[kind]), ROUNDS)
        fetches = [fetches_in(one) for one in printed]
        return (with_writes - without) / TIMES[kind] / 2, (fetches[1] - fetches[0]) / TIMES[kind] / 2


def fetches_in(printed):
    found = re.fullmatch(r"\d+ writes, (\d+) fetches, \d+ blocks are claimed, \d+ are pending\n", printed)
    if not found:
        sys.exit(f"the program printed {printed!r}")
    return int(found.group(1))


def writes(program, folder, counts):
    """Prints what a write of each kind takes on each volume, and tells whether it grows by more than it may."""
    volumes = [Volume(folder, bits) for bits in SIZES]
    for volume in volumes:
        print(f"2^{volume.bits} fragments, {volume.about}")
    grew = False
    for kind in ("data", "indirect", "inode"):
        each = []
        for volume in volumes:
            taken, fetches = volume.measure(program, kind)
            line = f"2^{volume.bits}, {kind}: {taken * 1e9:,.0f} ns a write, {fetches:.1f} fetches"
            if counts:
                line += f", {more(program, volume.runs(kind, COUNTED_TIMES)) / COUNTED_TIMES / 2:,.0f} instructions"
            each.append(taken)
            print(line, flush=True)
        ratios = [one / each[0] for one in each[1:]]
        by_bit = [ratio * SIZES[0] / bits for ratio, bits in zip(ratios, SIZES[1:])]
        print(f"{kind}: ratios to 2^12 " + ", ".join(f"{one:.2f} ({other:.2f} by bit)" for one, other in zip(ratios, by_bit)))
        grew = grew or max(by_bit) > 1.5
    return grew


def orders_of(volume):
    """The blocks of a volume in each order of its traffic."""
    up = sorted(volume.image.items())
    is_data = [block % volume.group_size >= volume.free_from for block, _ in up]
    data = [one for one, found in zip(up, is_data) if found]
    others = [one for one, found in zip(up, is_data) if not found]
    return {"up": up, "down": up[::-1], "late": data + others[::-1]}


def traffic(program, folder):
    """Prints how many writes a second the whole traffic of a volume has, in each order."""
    fragments = 1 << TRAFFIC_BITS
    volume = sound_volume(fragments)
    volume.free_from = volume.data_at
    path = os.path.join(folder, "traffic")
    for name, order in orders_of(volume).items():
        write_records(path, order)
        runs = [((fragments, count, 0), path) for count in (0, len(order))]
        (without, with_writes), printed = least(program, runs, 3)
        taken = with_writes - without
        print(
            f"{name}: {len(order):,} writes, {fetches_in(printed[1]):,} fetches, {taken:.2f} s, {len(order) / taken:,.0f} writes a second",
            flush=True,
        )


def main():
    program = sys.argv[1]
    with tempfile.TemporaryDirectory() as folder:
        grew = writes(program, folder, "count" in sys.argv[2:])
        traffic(program, folder)
    sys.exit(grew)


if __name__ == "__main__":
    main()
