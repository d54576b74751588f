"""Histories of several runs over the same images, some of which are stopped at a call, with images changed in between, beside a plain model.

    run.py PROGRAM [--histories N] [--seed S] [--first I] [--minutes T] [--doubles D] [--keep FOLDER]

A history is a replay and one to five further runs (`resume`, `cat`, `ls`, `status`). Before each run, the bytes of the images decide by the rules what an
opening gives, and what was written says whether that is right; each reply and each image that is left is judged by both. History I is decided by the
seed and its number, and every third one is of a double array (every Dth by `--doubles D`): `--first I --histories 1` runs it alone. At the first difference it is printed, its images are kept where a folder is named, and the
status is 1.
"""
import argparse
import collections
import os
import shutil
import subprocess
import sys
import time

HERE = os.path.dirname(os.path.abspath(__file__))
sys.dont_write_bytecode = True
sys.path.insert(0, HERE)
from doubles import DoubleHistory  # noqa: E402
from history import Folder, History, new_folder  # noqa: E402
from ledger import Difference  # noqa: E402

NUMBERS = ("runs", "stops", "in saves", "changes", "opened", "unclean", "nostate", "as saved", "mixed", "spoiled", "unknown", "unsure")


def words():
    parser = argparse.ArgumentParser()
    parser.add_argument("program")
    parser.add_argument("--histories", type=int, default=1000)
    parser.add_argument("--seed", type=int, default=1)
    parser.add_argument("--first", type=int, default=0)
    parser.add_argument("--minutes", type=float, default=1e9)
    parser.add_argument("--doubles", type=int, default=3)
    parser.add_argument("--keep")
    return parser.parse_args()


def play(program, seed, number, doubles, folder):
    """One history; what differs, or None."""
    one = (History if number % doubles else DoubleHistory)(program, f"{seed} {number}", folder)
    try:
        one.go()
    except (Difference, subprocess.TimeoutExpired) as difference:
        return one, difference
    return one, None


def main():
    args = words()
    program, counts, start, number = os.path.abspath(args.program), collections.Counter(), time.monotonic(), args.first
    with new_folder() as path:
        folder = Folder(path)
        while number < args.first + args.histories and time.monotonic() - start < 60 * args.minutes:
            one, difference = play(program, args.seed, number, args.doubles, folder)
            if difference:
                if args.keep:
                    shutil.copytree(path, args.keep)
                print(f"history {number} of seed {args.seed}", *one.steps, difference, sep="\n")
                sys.exit(1)
            counts.update(one.counts)
            number += 1
    told = ", ".join(f"{counts[name]} {name}" for name in NUMBERS)
    print(f"{number - args.first} histories from {args.first} on of seed {args.seed}, no difference: {told}")


if __name__ == "__main__":
    main()
