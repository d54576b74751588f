#!/usr/bin/env python3
"""Kills the program in the middle of a save of a `safe` array: tests/tour/stop_save.py MARK PROGRAM resume <TRACE

MARK says when: `prepared` once each image in the folder has the next save prepared, and none has it committed; `committed` once one has it committed.
What the program printed until then is printed, and how far the save came. The process is traced, as in tests/histories/stops.py.
"""
import os
import re
import shutil
import struct
import sys
import tempfile

HERE = os.path.dirname(os.path.abspath(__file__))
sys.path.insert(0, os.path.join(HERE, "..", "histories"))
import stops  # noqa: E402

PAGE, HEADER, WORD = 512, struct.Struct("<8sQB"), b"DGRAID-S"
PREPARED, COMMITTED = 0x50, 0x43


def heads():
    """The saves that the images in the folder have, each with its mark, image by image."""
    found = []
    for name in sorted(os.listdir(".")):
        if re.fullmatch(r"member-\d\d-\d\.img", name):
            with open(name, "rb") as file:
                both = [HEADER.unpack_from(file.read(PAGE)) for _ in range(2)]
            found.append([(save, mark) for word, save, mark in both if word == WORD])
    return found


def last_save():
    return max((save for of in heads() for save, mark in of if mark == COMMITTED), default=0)


def has_come_to(mark, before):
    """How many images have a later save prepared, how many have it committed, and whether this is where to stop."""
    images = heads()
    prepared, committed = (sum(any(save > before and its == kind for save, its in of) for of in images) for kind in (PREPARED, COMMITTED))
    return prepared, committed, prepared == len(images) if mark == "prepared" else committed > 0


def main():
    mark, name, *words = sys.argv[1:]
    before, told = last_save(), None
    with tempfile.TemporaryFile() as output:
        process = stops.Traced(os.path.realpath(shutil.which(name)), words, ".", (sys.stdin, output, sys.stderr))
        try:
            while process.goes_on():
                prepared, committed, is_there = has_come_to(mark, before) if process.is_on_image() else (0, 0, False)
                if is_there:
                    told = f"killed, with the next save prepared on {prepared} images and committed on {committed}"
                    break
        finally:
            process.end()
        output.seek(0)
        print(output.read().decode() + (told or f"ended with status {process.status}"))


if __name__ == "__main__":
    main()
