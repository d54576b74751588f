"""Damages the members of double arrays at random, and compares what an opening gives with a plain reading of their bytes.

    run.py PROGRAM [--rounds N] [--seed S] [--arrays N]

PROGRAM is that of crates/stop_bench, which makes the members of so many arrays and opens what is left of them. Each round changes those of one
array in some places: bytes, headers, tables, pages, lengths, or which is whose. It is decided by the seed and its number. The status is 1 where
a line differs; the images of the first one are left in the folder `stop-wrong`.
"""
import argparse
import os
import random
import subprocess
import sys

from changes import damaged
from reading import opened

BATCH = 500
ABSENT = (1 << 64) - 1
SECONDS = 120


def made(program, count):
    """The members of so many arrays, as calls that fail have left them."""
    done = subprocess.run([program, "make", "1", str(count)], capture_output=True, check=True, timeout=SECONDS)
    return pairs(done.stdout.decode())


def pairs(text):
    """The members of arrays, of which each has a line for each of its two."""
    images = [bytes.fromhex(line) for line in text.split("\n")[:-1]]
    return list(zip(images[::2], images[1::2]))


def framed(images):
    """The bytes that hand the members of an array to the program."""
    parts = []
    for image in images:
        parts.append((ABSENT if image is None else len(image)).to_bytes(8, "little"))
        parts.append(image or b"")
    return b"".join(parts)


def lines_of(program, arrays):
    """What the program prints of these arrays, a line each."""
    done = subprocess.run([program, "open"], input=b"".join(map(framed, arrays)), capture_output=True, timeout=SECONDS)
    if done.returncode != 0 or done.stderr:
        sys.exit(f"{program} open ended with {done.returncode} and {done.stderr[:200]!r}")
    return done.stdout.decode().split("\n")[:-1]


def keep(images):
    os.makedirs("stop-wrong", exist_ok=True)
    for member, image in enumerate(images):
        with open(f"stop-wrong/{member}", "wb") as file:
            file.write(image or b"")


def compare(program, numbers, arrays):
    """How many of these lines are of double arrays. Ends where one isn't as it is to be."""
    got = lines_of(program, arrays)
    want = [opened(images) for images in arrays]
    for number, images, one, other in zip(numbers, arrays, got, want):
        if one != other:
            keep(images)
            sys.exit(f"round {number}: the program says\n  {one}\nand the bytes\n  {other}")
    if len(got) != len(want):
        sys.exit(f"{len(got)} lines of {len(want)}")
    return sum(line != "plain" for line in got)


def main():
    parser = argparse.ArgumentParser()
    parser.add_argument("program")
    parser.add_argument("--rounds", type=int, default=600)
    parser.add_argument("--seed", type=int, default=1)
    parser.add_argument("--arrays", type=int, default=24)
    asked = parser.parse_args()
    bases = made(asked.program, asked.arrays)
    doubles = compare(asked.program, [f"of array {seed}" for seed in range(1, asked.arrays + 1)], bases)
    for start in range(0, asked.rounds, BATCH):
        numbers = range(start, min(start + BATCH, asked.rounds))
        rngs = [random.Random(f"{asked.seed} {number}") for number in numbers]
        doubles += compare(asked.program, numbers, [damaged(rng, rng.choice(bases)) for rng in rngs])
    print(f"{asked.rounds} rounds over {asked.arrays} arrays: {doubles} were opened as double arrays, and each is as its bytes say")


if __name__ == "__main__":
    main()
