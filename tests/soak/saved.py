"""Saves arrays, takes members away, opens them again, and compares each reply and each saved byte with the model.

    saved.py PROGRAM [--rounds N] [--seed S] [--length M] [--minutes T]

A round is a folder of image files: a random trace with saves in it is replayed, the label and the body on each member are read
beside what the model would save, some images are deleted or damaged, the array is opened by `status`, `cat` and `ls`, and a
further trace is resumed on it, again and again. Which members have which label is the model's: behind `saved q` each member that was good then has label
q and the body of that state, and it is sealed as long as nothing is written. At the first difference the round's commands are printed, with what differs; the
status is 1. A round is decided by its seed and the length.
"""
import argparse
import collections
import copy
import os
import random
import struct
import subprocess
import sys
import tempfile
import time

from generate import make
from lines import FIRST
from model import GOOD, OUT, array_of_line

SECONDS = 120
LABEL = struct.Struct("<7scQcBBB6I")


def numbers(*values):
    return b"".join(struct.pack("<I", value) for value in values)


def homes_bytes(homes):
    return numbers(len(homes)) + b"".join(numbers(inode) + bytes([home]) for inode, home in sorted(homes.items()))


def body_of(array, good):
    """The body of format 2 that says the array's state, with these members good."""
    body = bytes([["loose", "settled", "worn"].index(array.phase()), 0, 0, 0])
    body += bytes(0 if mark else 1 for mark in good)
    for block, sites in enumerate(array.sites):
        body += bytes([len(sites), block in array.pending])
        body += b"".join(bytes([boundary]) + numbers(slot) for boundary, slot in sites)
    copies = array.copies if array.settled else {}
    return body + homes_bytes(array.homes) + homes_bytes(copies) + bytes([len(array.recent)]) + numbers(*array.recent)


def good_members(array):
    return [member == GOOD for pair in array.members for member in pair]


def is_good(array, member):
    """Whether the member of this number, by the array's first line, is good."""
    place = array.place(member // 2)
    return place is not None and array.members[place][member % 2] == GOOD


def image_name(member):
    return f"member-{member // 2:02d}-{member % 2}.img"


class Label:
    """What the first 512 bytes of an image say, if they are its own label; or None."""

    def __init__(self, member, image):
        magic, form, self.sequence, seal, boundary, side, zero, *rest = LABEL.unpack_from(image)
        self.shape, self.body_length = tuple(rest[:5]), rest[5]
        self.form, self.sealed = form, seal == b"S"
        l, n, b, k, m = self.shape
        self.place = 512 + (k + 1) * l
        room = {b"1": 8 + 2 * b + 7 * n + 5 * b * (k + 1), b"2": 77 + 2 * b + 12 * n + 5 * b * (k + 1)}
        lengths = [self.place + room[f] for f in (form, b"2") if f in room]
        self.own = (
            magic == b"DGRAID-" and form in room and seal in (b"S", b"O") and zero == 0 and not any(image[LABEL.size:512])
            and 1 <= self.sequence < 2**63 and l in (512, 1024, 2048, 4096) and 1 <= n <= 2**20 and 2 <= b <= 16 and 1 <= k <= 2**20
            and b * k <= 2**21 and n <= b * k and 1 <= m <= b and self.body_length <= room[form]
            and (boundary, side) == divmod(member, 2) and len(image) in lengths
        )
        self.key = (form, self.sequence, self.sealed, self.shape, self.body_length)

    def body(self, image):
        return image[self.place:self.place + self.body_length]


def read_label(folder, member):
    try:
        with open(os.path.join(folder, image_name(member)), "rb") as file:
            image = file.read()
    except FileNotFoundError:
        return None, b""
    if len(image) < 512:
        return None, image
    label = Label(member, image)
    return (label if label.own else None), image


class Difference(Exception):
    pass


class Round:
    """One folder of images, with what was done in it."""

    def __init__(self, program, seed, length, folder):
        self.program, self.folder, self.length = program, folder, length
        self.rng = random.Random(seed)
        self.seed = seed
        self.told = []
        self.counts = collections.Counter()
        self.array = None
        # the states that were saved, by number, and whether it is sure that the seal was opened since the last one, or sure that it wasn't
        self.saved, self.wrote, self.may_have = {}, False, False
        # the number of the label that a member has, 0 for none; of a member that was taken away or damaged nothing is said
        self.labels, self.last = {}, 0

    def run(self, words, trace=b""):
        self.told.append(f"dgraid {' '.join(words)}" + (f" < {len(trace.splitlines())} lines" if trace else ""))
        done = subprocess.run([self.program, *words], input=trace, capture_output=True, cwd=self.folder, timeout=SECONDS)
        self.counts[words[0]] += 1
        return done.stdout, done.returncode

    def see(self, what, want, got):
        if want != got:
            raise Difference(f"{what}\nmodel:   {want!r:.2000}\nprogram: {got!r:.2000}")

    # replays

    def note(self, line, reply):
        """What an event and its reply say of the seal and of saves."""
        word, last = line.split(" ")[0], reply[-1].split(" ")
        if word == "save":
            if last[0] == "saved":
                good = good_members(self.array)
                self.last = int(last[1])
                self.saved[self.last] = (copy.deepcopy(self.array), good, body_of(self.array, good))
                self.labels.update((member, self.last) for member, mark in enumerate(good) if mark)
                self.wrote = self.may_have = False
        elif word in FIRST or word == "write" and last == ["ok"] or word == "replace" and last == ["ok"]:
            self.wrote = True
            if word in FIRST:
                self.labels = dict.fromkeys(range(2 * self.array.boundaries), 0)
            elif word == "replace":
                s, j = map(int, line.split(" ")[1:])
                self.labels[2 * s + j] = 0
        elif word == "rebuild" and last[0] == "copied" or word == "tend" and last[0] == "tended" or word == "diffuse" and last[0] == "diffused":
            self.wrote |= int(last[1]) > 0
            self.may_have |= word != "tend"
        elif word == "settle" and last == ["settled"]:
            self.may_have = True
        elif word == "regroup" and (last[0] == "regrouped" or last == ["too", "few"] and any(good_members(self.array))):
            self.wrote = True

    def replies(self, lines):
        told = []
        for line in lines:
            if line.split(" ")[0] in FIRST:
                self.array = array_of_line(line)
                told.append(["ok"])
            else:
                before = sum(map(len, self.array.sites))
                told.append(self.array.do(line))
                if line == "settle":
                    self.wrote |= sum(map(len, self.array.sites)) > before
            self.note(line, told[-1])
        return told

    def play(self, word, lines):
        want = self.replies(lines)
        trace = "".join(line + "\n" for line in lines).encode("latin-1")
        with open(os.path.join(self.folder, f"trace-{len(self.told)}"), "wb") as file:
            file.write(trace)
        got, status = self.run([word], trace)
        self.see(f"{word}: replies", "".join(line + "\n" for reply in want for line in reply).encode("latin-1"), got)
        self.see(f"{word}: status", 0, status)
        self.counts["events"] += len(lines)

    def with_saves(self, lines):
        rng, out = self.rng, []
        for line in lines:
            out.append(line)
            if rng.random() < 0.02 and out[0] != line:
                out.append("save")
        return out + ["save"] * (rng.random() < 0.85)

    # images

    def see_images(self):
        """Each member that wasn't taken away or damaged has the label that it got last, or none, and the body under a sealed one. The seal of the last save is there still, or opened."""
        for member, number in sorted(self.labels.items()):
            name = image_name(member)
            label, image = read_label(self.folder, member)
            self.see(f"the number on {name}", number, label.sequence if label else 0)
            if not label:
                self.see(f"bytes of a label on {name}", False, any(image[:512]))
                continue
            array, _, body = self.saved[number]
            self.see(f"the format and the array on {name}", (b"2", (array.l, array.n, array.b, array.k, array.m)), (label.form, label.shape))
            if number == self.last:
                if self.wrote and is_good(self.array, member):
                    self.see(f"the seal of {name}", False, label.sealed)
                if not (self.wrote or self.may_have):
                    self.see(f"the seal of {name}", True, label.sealed)
            if label.sealed:
                self.see(f"the body on {name}", body, label.body(image))

    def take_away(self):
        rng, b = self.rng, self.array.boundaries
        kind = rng.random()
        gone = [] if kind < 0.3 else rng.sample(range(2 * b), rng.randrange(1, 3)) if kind < 0.6 else []
        if kind >= 0.6:
            for s in rng.sample(range(b), rng.choice([1, 1, 2]) if kind < 0.97 else b):
                gone += [2 * s, 2 * s + 1]
        for member in gone:
            self.labels.pop(member, None)
            path = os.path.join(self.folder, image_name(member))
            if os.path.exists(path):
                if rng.random() < 0.2:
                    self.told.append(f"{image_name(member)} is damaged")
                    with open(path, "r+b") as file:
                        file.seek(rng.choice([0, 7, 16, 17, 20, 40, 44, 511]))
                        file.write(b"\x7f")
                else:
                    self.told.append(f"{image_name(member)} is removed")
                    os.remove(path)

    # openings

    def opened(self):
        """What an opening gives by the rules: 'nostate', 'unclean', or the array."""
        found = {member: read_label(self.folder, member) for member in range(32)}
        labels = {member: label for member, (label, _) in found.items() if label}
        if not labels:
            return "nostate"
        newest = max(label.sequence for label in labels.values())
        counted = {member: label for member, label in labels.items() if label.sequence == newest}
        if not all(label.sealed for label in counted.values()):
            return "unclean"
        state, good, body = self.saved[newest]
        sources = [member for member, label in sorted(counted.items()) if label.body(found[member][1]) == body]
        if not sources:
            return "nostate"
        source = sources[0]
        array = copy.deepcopy(state)
        array.saves = self.last = newest
        for member in range(2 * array.b):
            same = member in counted and counted[member].key == counted[source].key
            array.members[member // 2][member % 2] = GOOD if same and good[member] else OUT
        if array.lost():
            array.worn, array.settled, array.copies = True, False, {}
        return array

    def status_of(self, array):
        lines = [f"array {array.l} {array.n} {array.b} {array.k} {array.m}", f"phase {array.phase()}"]
        for s, pair in enumerate(array.members):
            good = [j for j in (0, 1) if pair[j] == GOOD]
            state = "both" if len(good) == 2 else f"half {good[0]}" if good else "lost 0"
            lines.append(f"boundary {array.live[s]} {state} {array.used(s)}")
        return "".join(line + "\n" for line in lines).encode()

    def see_commands(self, array):
        refused = {"nostate": 6, "unclean": 7}
        if isinstance(array, str):
            for words in (["status"], ["cat", "/a"], ["ls", "/"], ["resume"]):
                self.see(" ".join(words), ((array + "\n").encode(), refused[array]), self.run(words))
            return
        self.see("status", (self.status_of(array), 0), self.run(["status"]))
        for path in self.rng.sample(self.paths, min(4, len(self.paths))) + ["/"]:
            if "\0" in path or path.startswith("-"):
                continue
            for word in ("cat", "ls"):
                probe = copy.deepcopy(array)
                reply = probe.do(f"{word} {path}")
                if reply[-1].startswith("end ") and word == "cat":
                    want = bytes.fromhex("".join(line[6:] for line in reply[:-1])), 0
                else:
                    want = "".join(line + "\n" for line in reply).encode("latin-1"), 0 if reply[-1].startswith("end ") else 8
                self.see(f"{word} {path}", want, self.run([word, path]))

    def go(self):
        case = make(self.seed, self.length)
        lines = case.lines
        if not lines:
            return
        self.paths = sorted({line.split(" ")[1] for line in lines if line.split(" ")[0] in ("cat", "ls", "home")} | {"/"})
        lines = lines[:self.rng.randrange(1, len(lines) + 1)]
        self.play("replay", self.with_saves(lines))
        for _ in range(self.rng.randrange(1, 5)):
            self.see_images()
            if self.rng.random() < 0.7:
                self.take_away()
            array = self.opened()
            self.counts["opened" if not isinstance(array, str) else array] += 1
            self.see_commands(array)
            if isinstance(array, str):
                break
            self.counts["phase " + array.phase()] += 1
            self.array, self.wrote, self.may_have = array, False, False
            self.play("resume", self.with_saves(self.more(array)))
        self.see_images()

    def more(self, array):
        """Events for an array that was opened: those of another trace that it can take, and a few of its own."""
        rng = self.rng
        lines = []
        for _ in range(rng.randrange(25)):
            block = rng.randrange(array.n + 1)
            path = rng.choice(self.paths)
            lines.append(rng.choice([
                f"read {block}", f"who {block}", "pending", f"cat {path}", f"ls {path}", f"home {path}", "tree", "settle", "diffuse",
                "regroup", "lostfiles", "audit", f"drop {block} 0", f"mend 0 {block}", f"tend {rng.randrange(4)}", f"rebuild {rng.randrange(array.b)} {rng.choice([0, 1, 5, 1000])}",
                f"replace {rng.randrange(array.b)} {rng.randrange(2)}", f"fail {rng.randrange(array.b)} {rng.randrange(2)}",
                "write {} {}".format(block, bytes(rng.randrange(256) for _ in range(rng.randrange(1, 9))).hex()),
            ]))
        if rng.random() < 0.4:
            at = rng.randrange(len(lines) + 1)
            lines[at:at] = ["regroup", "settle", "lostfiles"]
        return lines


def main():
    parser = argparse.ArgumentParser()
    parser.add_argument("program")
    parser.add_argument("--rounds", type=int, default=1000)
    parser.add_argument("--seed", type=int, default=1)
    parser.add_argument("--length", type=int, default=120)
    parser.add_argument("--minutes", type=float, default=1e9)
    args = parser.parse_args()
    program, start, counts, seed = os.path.abspath(args.program), time.monotonic(), collections.Counter(), args.seed
    while seed < args.seed + args.rounds and time.monotonic() - start < 60 * args.minutes:
        with tempfile.TemporaryDirectory() as folder:
            one = Round(program, seed, args.length, folder)
            try:
                one.go()
            except Difference as difference:
                print(f"seed {seed} length {args.length}", *one.told, difference, sep="\n")
                sys.exit(1)
            counts.update(one.counts)
        seed += 1
    told = ", ".join(f"{count} {word}" for word, count in counts.most_common())
    print(f"{seed - args.seed} rounds, seeds {args.seed} to {seed - 1}, no difference: {told}")


if __name__ == "__main__":
    main()
