#!/usr/bin/env python3
"""Puts three faults into an image of the tour's folder, or takes them out again: tests/tour/break_image.py [--mend] IMAGE OUT

README is marked as unused in the map of inodes. The entry of /maps/lake names an inode that isn't there. And /sounds/short gets the first
fragment of /letters/1 in place of its own.
"""
import os
import sys

sys.path.insert(0, os.path.join(os.path.dirname(os.path.abspath(__file__)), "..", "soak"))
from volume import Volume, group_start, inode_places  # noqa: E402

FRAGMENT, SLOTS_AT, USED_AT = 1024, 40, 92
ABSENT, MARK = 60, 900


def found(volume, path):
    """The number and the inode at a path."""
    return volume.look(path, [])


def slot_place(volume, number):
    """Where the first slot of an inode stands in the image."""
    block, byte = inode_places(volume.geometry)[number]
    return block * FRAGMENT + byte + SLOTS_AT


def used_place(volume, data, number):
    """The byte and the bit of an inode of the first group in its map."""
    at = (group_start(volume.geometry, 0) + volume.geometry.cblkno) * FRAGMENT
    return at + int.from_bytes(data[at + USED_AT:at + USED_AT + 4], "little") + number // 8, 1 << number % 8


def entry_place(volume, data, directory, name):
    """Where the entry of a name stands in the first fragment of a directory."""
    start = directory.slots[0] * FRAGMENT
    return data.index(bytes([len(name)]) + name + b"\0", start, start + FRAGMENT) - 7


def put(data, at, value):
    data[at:at + 4] = value.to_bytes(4, "little")


def broken(volume, data):
    """The image with the faults; what they replaced is kept in the first fragment, which no one reads."""
    (readme, _), (lake, _), (short, inode) = (found(volume, path) for path in (b"/README", b"/maps/lake", b"/sounds/short"))
    byte, bit = used_place(volume, data, readme)
    entry, slot = entry_place(volume, data, found(volume, b"/maps")[1], b"lake"), slot_place(volume, short)
    for number, value in enumerate((byte, bit, entry, lake, slot, inode.slots[0])):
        put(data, MARK + 4 * number, value)
    data[byte] &= ~bit
    put(data, entry, ABSENT)
    put(data, slot, found(volume, b"/letters/1")[1].slots[0])


def mended(data):
    """The image without them."""
    byte, bit, entry, lake, slot, address = (int.from_bytes(data[at:at + 4], "little") for at in range(MARK, MARK + 24, 4))
    data[byte] |= bit
    put(data, entry, lake)
    put(data, slot, address)
    data[MARK:MARK + 24] = bytes(24)


def main():
    mends = sys.argv[1:2] == ["--mend"]
    words = sys.argv[1 + mends:]
    if len(words) != 2:
        sys.exit(__doc__)
    with open(words[0], "rb") as file:
        data = bytearray(file.read())
    if mends:
        mended(data)
    else:
        broken(Volume([bytes(data[at:at + FRAGMENT]) for at in range(0, len(data), FRAGMENT)], FRAGMENT), data)
    with open(words[1], "wb") as out:
        out.write(data)


if __name__ == "__main__":
    main()
