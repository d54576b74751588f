"""Damages the labels and bodies of saved members at random, and sees how the program takes it.

    run.py PROGRAM [--cases N] [--seed S] [--first I] [--minutes T] [--doubles D] [--keep FOLDER]

Arrays are made and saved twice by the program; each then has so many cases. A case changes a byte, a bit, a run, a number, the length,
the seal, the format or what the body says; or it puts an older body, label or image there, or swaps, copies or removes images. The format
has no checksum; a body that says something else is made anew, with its length in the label, so that the reader gets past it. Then
`status`, `cat` of two paths, and `resume` with an empty trace are run. Each must end with just what the rules of an opening give for these
bytes, read by `opened.py` and the model of the soak: an array, `nostate` and status 6, or `unclean` and status 7; within 20 seconds, with
nothing on standard error, and with no byte of an image changed. Only where the good members disagree on a block is a reply of any right
form taken. Each second array is double
(each Dth by `--doubles D`): headers, tables, pages and what stands beside the state are changed too, and `resume` completes headers, as the bytes say. Case I is
decided by the seed, and `--first I --cases 1` runs it alone; `--keep` leaves the images of the first wrong case. The
status is 1 where a case went wrong.
"""
import argparse
import collections
import os
import random
import re
import shutil
import subprocess
import sys
import tempfile
import time

HERE = os.path.dirname(os.path.abspath(__file__))
sys.path[:0] = [HERE, os.path.join(HERE, "..", "soak"), os.path.join(HERE, "..", "histories")]
import between_doubles  # noqa: E402
import opening  # noqa: E402
from changes import MEMBERS, Images, change  # noqa: E402
from generate import make  # noqa: E402
from ledger import Disk  # noqa: E402
from opened import decode, encode  # noqa: E402
from rows import F, writes  # noqa: E402
from saved import Difference, Label, Round, image_name  # noqa: E402

SECONDS = 20
CASES_OF_AN_ARRAY = 100
MOST_WRONG = 10
REFUSED = {"nostate": 6, "unclean": 7}
F_PATHS = ["/", "/a", "/d", "/d/b", "/h", "/z", "/d/x"]
REFUSAL = re.compile(rb"(notfound|notdir|notregular|unavailable|bad [a-z]+)\n")
# what is told on standard error, by whether there is no saved array
TOLD = re.compile(b""), re.compile(rb"(no image in this folder|\d+ images?, none with a (label|label of its own|whole state behind its label))\n")


def images_in(folder):
    """The images in a folder, by member."""
    found = {}
    for member in range(MEMBERS):
        path = os.path.join(folder, image_name(member))
        if os.path.exists(path):
            with open(path, "rb") as file:
                found[member] = file.read()
    return found


def trace_of(rng, seed, word):
    """The events up to a save, of an array whose first line has this word, and the paths that are read."""
    if rng.random() < 0.4:
        lines = [f"{word} 1024 128 4 64 {rng.choice([1, 2, 3])}", *writes(F)]
        paths = F_PATHS
    else:
        lines = make(seed, rng.choice([40, 80, 120]), word).lines
        lines = [line for line in lines if not line.startswith("fail") or rng.random() < 0.2]
        lines = lines[:rng.randrange(len(lines) + 1)] or [f"{word} 512 64 2 64 1"]
        paths = sorted({line.split(" ")[1] for line in lines if line.split(" ")[0] in ("cat", "ls", "home")} | {"/"})
    if rng.random() < 0.7:
        lines += ["settle", *[f"cat {path}" for path in rng.sample(paths, min(3, len(paths)))]] + ["diffuse"] * (rng.random() < 0.6)
    return lines, [path for path in paths if not path.startswith("-")]


def as_first_form(images, is_short):
    """The same array in the format that keeps no copies, or None where there are some; its images have either format's length."""
    found = {}
    for member, image in images.items():
        label = Label(member, image)
        state = decode(label.body(image), label.shape, label.form) if label.own else None
        if state is None or state.copies:
            return None
        _, n, b, k, _ = label.shape
        body = encode(state, b"1")
        one = bytearray(image[:label.place + 8 + 2 * b + 7 * n + 5 * b * (k + 1)] if is_short else image)
        one[7:8], one[40:44] = b"1", len(body).to_bytes(4, "little")
        one[label.place:] = body.ljust(len(one) - label.place, b"\0")
        found[member] = bytes(one)
    return found


class Saved:
    """An array that was saved twice: its images after each save."""

    def __init__(self, program, seed, folder, word):
        rng = random.Random(f"array {seed}")
        lines, self.paths = trace_of(rng, seed, word)
        one = Round(program, seed, 0, folder)
        one.paths = self.paths
        one.play("replay", [*lines, "save"])
        self.old = images_in(folder)
        array = opening.judge(self.old)
        if not isinstance(array, str):
            one.array = array
            one.play("resume", [*one.more(array)[:rng.choice([0, 3, 25])], "save"])
        self.now = images_in(folder)
        shutil.rmtree(folder)
        if rng.random() < 0.2 and word == "array":
            older = as_first_form(self.now, rng.random() < 0.7)
            self.now = older or self.now


class Folder:
    """A folder whose images are those of one case after another."""

    def __init__(self, path):
        self.path, self.there = path, {}
        os.mkdir(path)

    def put(self, images):
        for member in set(self.there) - set(images):
            os.remove(os.path.join(self.path, image_name(member)))
        for member, image in images.items():
            if self.there.get(member) != image:
                with open(os.path.join(self.path, image_name(member)), "wb") as file:
                    file.write(image)
        self.there = dict(images)


class Case:
    """One damaged array, and what the program makes of it."""

    def __init__(self, program, folder, seed, number, saved):
        self.program, self.folder, self.saved = program, folder, saved
        self.rng = random.Random(f"case {seed} {number}")
        self.counts = collections.Counter()
        self.told = []
        self.images = self.changed()
        folder.put(self.images)

    def changed(self):
        """The images of the saved array as they are changed."""
        images = Images(self.saved.now, self.saved.old)
        self.told += [change(self.rng, images) for _ in range(self.rng.choice([1, 1, 1, 1, 2, 3]))]
        return {member: bytes(image) for member, image in images.now.items()}

    def completed(self):
        """The images behind a `resume` that does nothing."""
        return self.images

    def run(self, words):
        """The output and the status, which must be one that has a name."""
        try:
            done = subprocess.run([self.program, *words], input=b"", capture_output=True, cwd=self.folder.path, timeout=SECONDS)
        except subprocess.TimeoutExpired:
            raise Difference(f"{words}: no end in {SECONDS} seconds") from None
        self.counts[words[0]] += 1
        if done.returncode not in (0, 6, 7, 8) or not TOLD[done.returncode == 6].fullmatch(done.stderr):
            raise Difference(f"{words}: status {done.returncode}, standard error {done.stderr!r:.500}, output {done.stdout!r:.200}")
        return done.stdout, done.returncode

    def see(self, words, *wanted):
        got = self.run(words)
        if got not in wanted:
            raise Difference(f"{words}\nwanted: {wanted!r:.2000}\ngot:    {got!r:.2000}")

    def see_file(self, array, path):
        """What `cat` gives; where it isn't sure what the blocks hold, anything of a right form."""
        if not array.is_sure:
            output, status = self.run(["cat", path])
            if status not in (0, 8) or status == 8 and not REFUSAL.fullmatch(output):
                raise Difference(f"cat {path}: status {status} and {output!r:.500}")
            return
        reply = array.do(f"cat {path}")
        if reply[-1].startswith("end "):
            self.see(["cat", path], (bytes.fromhex("".join(line[6:] for line in reply[:-1])), 0))
        else:
            self.see(["cat", path], ((reply[-1] + "\n").encode(), 8))

    def check(self):
        array, resumed = opening.judge(self.images), (b"", 0)
        if isinstance(array, str):
            self.counts[array] += 1
            resumed = (array + "\n").encode(), REFUSED[array]
            for words in (["status"], ["cat", self.rng.choice(self.saved.paths)]):
                self.see(words, resumed)
        else:
            self.counts["phase " + array.phase() if array.is_sure else "unsure"] += 1
            texts = [Round.status_of(None, array)]
            if not array.is_sure and not array.worn:
                texts = [re.sub(rb"phase [a-z]+", phase, texts[0]) for phase in (b"phase loose", b"phase settled")]
            self.see(["status"], *((text, 0) for text in texts))
            for path in self.rng.sample(self.saved.paths, min(2, len(self.saved.paths))):
                self.see_file(array, path)
        self.see_images(self.images)
        self.see(["resume"], resumed)
        self.see_images(self.completed())

    def see_images(self, wanted):
        self.folder.there = images_in(self.folder.path)
        if self.folder.there != wanted:
            raise Difference("an image was changed")


class DoubleCase(Case):
    """One damaged double array."""

    def changed(self):
        disks, older = ({member: Disk(image, None, False) for member, image in images.items()} for images in (self.saved.now, self.saved.old))
        for _ in range(self.rng.choice([1, 1, 1, 1, 2, 3])):
            if disks:
                self.told.append(self.rng.choice(between_doubles.CHANGES)(self.rng, disks, [older]))
        return between_doubles.images_of(disks)

    def completed(self):
        kept = opening.reopened(self.images)
        return {member: kept.behind[member] for member in self.images} if kept else self.images


def words():
    parser = argparse.ArgumentParser()
    parser.add_argument("program")
    parser.add_argument("--cases", type=int, default=10_000)
    parser.add_argument("--seed", type=int, default=1)
    parser.add_argument("--first", type=int, default=0)
    parser.add_argument("--minutes", type=float, default=1e9)
    parser.add_argument("--doubles", type=int, default=2)
    parser.add_argument("--keep")
    return parser.parse_args()


def main():
    args = words()
    program, counts, wrong, saved, start = os.path.abspath(args.program), collections.Counter(), 0, None, time.monotonic()
    with tempfile.TemporaryDirectory() as base:
        folder = Folder(os.path.join(base, "case"))
        for number in range(args.first, args.first + args.cases):
            if saved is None or number % CASES_OF_AN_ARRAY == 0:
                at = number // CASES_OF_AN_ARRAY
                os.mkdir(os.path.join(base, "made"))
                saved = Saved(program, args.seed * 1_000_000 + at, os.path.join(base, "made"), "array" if at % args.doubles else "safe")
            case = (Case if at % args.doubles else DoubleCase)(program, folder, args.seed, number, saved)
            try:
                case.check()
            except Difference as difference:
                print(f"case {number} of seed {args.seed}", *case.told, difference, sep="\n", flush=True)
                if args.keep and not wrong:
                    shutil.copytree(folder.path, args.keep)
                wrong += 1
            counts.update(case.counts)
            if wrong == MOST_WRONG or time.monotonic() - start > 60 * args.minutes:
                break
    told = ", ".join(f"{count} {word}" for word, count in counts.most_common())
    print(f"{number + 1 - args.first} cases from {args.first} on of seed {args.seed}, {wrong} wrong: {told}")
    sys.exit(wrong > 0)


if __name__ == "__main__":
    main()
