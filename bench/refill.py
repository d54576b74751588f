"""Refills a member with 64 MiB of used slots, of which none or half are dead, and prints the MiB a second beside plain copies.

The array has 2^17 blocks of 1024 bytes on two boundaries, so that boundary 0 has the even blocks of a volume of files of 64 KiB. A member of it is
failed, replaced and refilled while all files are there; then every second file is removed (its inode, its name and its marks in the group's map),
and the same is done again: blocks of removed files are dead and aren't copied. Beside it stand plain copies, by `dd`, of as many bytes as were
copied from the other member, a slot at a time and a MiB at a time. The replies are compared with the count of live slots. The exit status is 1 where the
refill with dead blocks takes more of the processor than the one without. The image files stand in a temporary folder (TMPDIR says where).
"""
import os
import re
import struct
import subprocess
import sys
import tempfile

from session import Session, load
from volumes import FRAGMENTS, Volume

FRAGMENT = 1024
BITS = 17
FILE_BYTES = 64 << 10
IN_DIRECTORY = 64
ROUNDS = 3
SHAPE = (FRAGMENT, 1 << BITS, 2, 1 << BITS, 1)
MIB = 1 << 20


def make_volume():
    each = FILE_BYTES // FRAGMENT + 1
    return Volume(FRAGMENT, 1 << BITS, [b"x" * FILE_BYTES] * int(((1 << BITS) - 2000) * 0.98 / each), IN_DIRECTORY)


def inode_place(volume, number):
    """The fragment in which an inode stands, and its byte there."""
    group, place = divmod(number, volume.inodes)
    return volume.group_size * group + volume.inodes_at + 128 * place // FRAGMENT, 128 * place % FRAGMENT


def blocks_of(volume, number):
    """The fragments of an inode without indirect blocks."""
    block, at = inode_place(volume, number)
    size, = struct.unpack_from("<Q", volume.image[block], at + 8)
    slots = [slot for slot in struct.unpack_from("<12I", volume.image[block], at + 40) if slot]
    fragments = [fragment for slot in slots for fragment in range(slot, slot + FRAGMENTS)]
    return fragments[:-(-size // FRAGMENT)]


class Removal:
    """The blocks of a volume as they are when some of its files are removed."""

    def __init__(self, volume, removed):
        self.volume, self.changed, self.dead = volume, {}, set()
        for number in removed:
            self.dead.update(blocks_of(volume, number))
            block, at = inode_place(volume, number)
            self.edit(block)[at:at + 128] = bytes(128)
            self.mark(number // volume.inodes, 168, number % volume.inodes, False)
        free_at = 168 + (volume.inodes + 7) // 8
        for block in self.dead:
            self.mark(block // volume.group_size, free_at, block % volume.group_size, True)
        for number in range(2, 2 + volume.directories):
            self.forget(blocks_of(volume, number), set(removed))

    def edit(self, block):
        return self.changed.setdefault(block, bytearray(self.volume.image[block]))

    def mark(self, group, map_at, bit, is_set):
        at = map_at + bit // 8
        first = self.volume.group_size * group + self.volume.first + 2 * FRAGMENTS
        piece = self.edit(first + at // FRAGMENT)
        mask = 1 << bit % 8
        piece[at % FRAGMENT] = piece[at % FRAGMENT] | mask if is_set else piece[at % FRAGMENT] & ~mask

    def forget(self, blocks, removed):
        """The entries of a directory that name a removed file become unused."""
        for block in blocks:
            at = 0
            while at < FRAGMENT:
                number, length = struct.unpack_from("<IH", self.volume.image.get(block, bytes(FRAGMENT)), at)
                if not length:
                    break
                if number in removed:
                    struct.pack_into("<I", self.edit(block), at, 0)
                at += length


def lines_of(blocks):
    return (f"write {block} {bytes(data).hex()}\n" for block, data in sorted(blocks.items()))


def refill(session, live):
    """The seconds of a refill that is to copy so many slots."""
    session.expect("fail 0 0", "ok")
    session.expect("replace 0 0", "ok")
    return session.expect(f"rebuild 0 {2**32 - 1}", f"copied {live} 0")


def plain_copy(folder, blocks, size):
    """The seconds of a copy, by `dd`, of so many blocks of boundary 0, in pieces of this size."""
    count = blocks * FRAGMENT // size
    words = ["dd", f"if={folder}/member-00-1.img", f"of={folder}/copy", f"bs={size}", f"count={count}"]
    told = subprocess.run(words, capture_output=True, check=True, env={**os.environ, "LC_ALL": "C"}).stderr.decode()
    os.remove(f"{folder}/copy")
    return float(re.search(r"copied, ([0-9.e-]+) s", told).group(1))


def one_round(program, folder, volume, removal):
    """What one array takes: the seconds of the refill without dead blocks and with them, and of the plain copies of their bytes."""
    used = {block for block, data in volume.image.items() if any(data) and block % 2 == 0}
    dead = removal.dead & used
    later = used | {block for block in removal.changed if block % 2 == 0}
    live = len(later - dead)
    session = Session(program, folder, SHAPE)
    session.all_well(lines_of({block: data for block, data in volume.image.items() if any(data)}))
    taken = [refill(session, len(used))]
    session.all_well(lines_of(removal.changed))
    one_dead = min(dead)
    session.expect(f"who {one_dead}", "dead")
    taken.append(refill(session, live))
    session.expect(f"who {one_dead}", "idle")
    session.end()
    copies = [plain_copy(folder, count, size) for count in (len(used), live) for size in (FRAGMENT, MIB)]
    return taken, copies, (len(used), len(later), live)


def main():
    program = os.path.abspath(sys.argv[1])
    volume = make_volume()
    first = 2 + volume.directories
    removal = Removal(volume, range(first + 1, first + volume.files, 2))
    rounds = []
    for _ in range(ROUNDS):
        with tempfile.TemporaryDirectory() as folder:
            rounds.append(one_round(program, folder, volume, removal))
    used, later, live = rounds[0][2]
    processors = []
    for which, (slots, copied) in enumerate(((used, used), (later, live))):
        clock, processor = (min(one[0][which][kind] for one in rounds) for kind in (0, 1))
        by_slot, by_mib = (min(one[1][2 * which + kind] for one in rounds) for kind in (0, 1))
        passed, bytes_copied = slots * FRAGMENT / MIB, copied * FRAGMENT / MIB
        processors.append(processor)
        print(
            f"{passed:.1f} MiB of used slots, {100 * (slots - copied) / slots:.0f} of 100 dead: {clock:.3f} s by the clock, {processor:.3f} s of the processor; "
            f"by the clock {passed / clock:,.0f} MiB/s passed, {bytes_copied / clock:,.0f} MiB/s copied; a plain copy of these {bytes_copied:.1f} MiB "
            f"a slot at a time {bytes_copied / by_slot:,.0f} MiB/s, a MiB at a time {bytes_copied / by_mib:,.0f} MiB/s; {load()}"
        )
    print(f"processor's time with dead blocks to that without: {processors[1] / processors[0]:.2f}")
    sys.exit(processors[1] > processors[0])


if __name__ == "__main__":
    main()
