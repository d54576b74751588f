#!/usr/bin/env python3
"""An image of a UFS1 volume with the directories, files and links of a folder: tests/tour/folder_image.py FOLDER IMAGE

Names come in their order, so that one folder always gives one image. A fragment has 1024 bytes, a file block 8 of them, and a
group 1024 fragments and 64 inodes; there are as many groups as the folder needs.
"""
import os
import sys

sys.path.insert(0, os.path.join(os.path.dirname(os.path.abspath(__file__)), "..", "soak"))
from image import Image, Item, NoRoom, make_geometry  # noqa: E402
from volume import ROOT  # noqa: E402

FRAGMENT, FRAG, GROUP, INODES = 1024, 8, 1024, 64


def items_in(folder):
    """What is in a folder, directories before what is in them; inodes ascend from 3 on."""
    items = []

    def walk(path, parent):
        for name in sorted(os.listdir(path)):
            here, inode = os.path.join(path, name), 3 + len(items)
            if os.path.islink(here):
                items.append(Item(inode, parent, os.fsencode(name), "l", os.fsencode(os.readlink(here))))
            elif os.path.isdir(here):
                items.append(Item(inode, parent, os.fsencode(name), "d"))
                walk(here, inode)
            else:
                with open(here, "rb") as file:
                    items.append(Item(inode, parent, os.fsencode(name), "r", file.read()))

    walk(folder, ROOT)
    return items


def made_of(items):
    """The volume with the fewest groups that has room."""
    groups = -(-(len(items) + 3) // INODES)
    while True:
        geometry = make_geometry("little", FRAGMENT, FRAG, groups, GROUP, INODES)
        made = Image(geometry, geometry.size)
        try:
            made.add_all(items)
            return made
        except NoRoom:
            groups += 1


def main():
    if len(sys.argv) != 3:
        sys.exit(__doc__)
    items = items_in(sys.argv[1])
    made = made_of(items)
    with open(sys.argv[2], "wb") as out:
        out.write(b"".join(made.blocks))
    files = sum(item.kind == "r" for item in items)
    print(f"{len(items)} entries, {files} of them files, in {made.g.size} blocks of {FRAGMENT} bytes")


if __name__ == "__main__":
    main()
