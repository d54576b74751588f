"""Audits random volumes that were broken, with the program and with a plain reading of the definitions, and compares each line.

    audits.py PROGRAM [--volumes N] [--seed S]
    audits.py --cases FOLDER ..      writes the images and the answers, for `rt try --cases FOLDER -- audit`

Each volume is a sound one of a few files, in either order of bytes, in which some places were broken. The program reads its image on
standard input (`audit`). At the first difference the image is kept, and printed are its name, both answers and the seed; the status is 1.
"""
import argparse
import collections
import os
import subprocess
import sys
import tempfile

from findings import Audit
from generate import Trace
from volume import FIELDS, SUPER_AT, SUPER_BYTES, number_at, read_geometry

MOST = 1 << 28
LEAST = 9568
SECONDS = 60


def answer_to(image):
    """The lines of the command's answer to an image, and its status."""
    if not LEAST <= len(image) <= MOST:
        return ["bad length"], 8
    data = image[SUPER_AT:SUPER_AT + SUPER_BYTES]
    order = "big" if data[-4:] == b"\0\1\x19\x54" else "little"
    size, fsize = (number_at(data, FIELDS[name], 4, order) for name in ("size", "fsize"))
    l = fsize if fsize in (512, 1024, 2048, 4096) else 512
    if read_geometry(data, l, size)[0] is None:
        return [f"bad {read_geometry(data, l, size)[1]} 0", "end 1"], 8
    if len(image) < size * l:
        return ["bad length"], 8
    lines = Audit([image[at:at + l] for at in range(0, size * l, l)], l).lines()
    return lines, 8 if lines[0].startswith("bad ") else 0


class Broken(Trace):
    """A volume, and places in it that are broken."""

    def __init__(self, seed):
        super().__init__(seed, "array")
        for block, data in enumerate(self.goal):
            self.array.blocks[block] = data
        self.array.set_block(0, self.array.blocks[0])
        for _ in range(self.rng.choice([1, 1, 2, 2, 3, 4, 8])):
            self.break_something()

    def write(self, block, data):
        self.array.set_block(block, data.ljust(self.array.l, b"\0"))

    def image(self):
        return b"".join(bytes(block) for block in self.array.blocks)


def run(program, image):
    """The lines of the program's answer, and its status."""
    done = subprocess.run([program, "audit"], input=image, capture_output=True, timeout=SECONDS, check=False)
    return done.stdout.decode().split("\n")[:-1], done.returncode


def tell(seed, image, want, got):
    kept = os.path.join(tempfile.mkdtemp(), "image")
    with open(kept, "wb") as out:
        out.write(image)
    print(f"seed {seed}, image {kept}\ndefinitions: {want}\nprogram:     {got}")
    sys.exit(1)


def write_case(folder, seed, image, lines):
    with open(os.path.join(folder, f"v{seed}"), "wb") as out:
        out.write(image)
    with open(os.path.join(folder, f"v{seed}.stdout"), "w", encoding="ascii") as out:
        out.write("".join(line + "\n" for line in lines))


def words():
    parser = argparse.ArgumentParser()
    parser.add_argument("program", nargs="?")
    parser.add_argument("--cases")
    parser.add_argument("--volumes", type=int, default=1000)
    parser.add_argument("--seed", type=int, default=1)
    return parser.parse_args()


def main():
    args = words()
    counts, orders, seed, done = collections.Counter(), collections.Counter(), args.seed, 0
    while done < args.volumes:
        volume = Broken(seed)
        image = volume.image()
        want = answer_to(image)
        if args.cases:
            write_case(args.cases, seed, image, want[0])
        else:
            got = run(os.path.abspath(args.program), image)
            if got != want:
                tell(seed, image, want, got)
        counts.update({" ".join(line.split(" ")[:2]) for line in want[0][:-1]} or {"nothing"})
        orders.update([volume.g.order])
        done += 1
        seed += 1
    found = ", ".join(f"{kind} {count}" for kind, count in sorted(counts.items()))
    verdict = "written" if args.cases else "no difference"
    print(f"{done} volumes, {dict(orders)}, {verdict}; with each kind so many: {found}")


if __name__ == "__main__":
    main()
