#!/usr/bin/env python3
"""Random folders as volumes that makefs makes: tests/makefs/run.py [PROGRAM] [--rounds N] [--seed S] [--keep FOLDER]

First one folder stands as a volume in both orders of bytes on plain and on safe arrays of four boundaries, with three places of the naming, and what
`tools/rescue.py` brings of each is compared with it, with none, one, two and three of the boundaries lost.

Each round makes a folder of files, directories, links and pipes, and a UFS1 image of it by NetBSD's makefs (Debian's package of that
name), in either order of bytes, with fragments of 512 to 4096 bytes. An audit finds no malformation on it. `trace`, `replay` and `resume` take it to a settled,
saved array. Then each file's bytes and each directory's entries are compared with the folder's: with all boundaries, with some lost, and once a member
was replaced, refilled, and serves alone; and what `tools/rescue.py` brings is compared with the folder, byte by byte. With fewer than m boundaries lost, a
file must be given whole exactly where its home isn't lost, or its copy isn't, and each directory must be listed; with more, each answer must be right or
`unavailable`. The status is 1 where an answer is wrong; without makefs nothing is run, which is told.
"""
import argparse
import os
import random
import shutil
import stat
import subprocess
import sys
import tempfile

HERE = os.path.dirname(os.path.abspath(__file__))
PROGRAM = os.path.join(HERE, "..", "..", "crates", "dgraid", "out", "dgraid")
RESCUE = os.path.join(HERE, "..", "..", "tools", "rescue.py")
PATH = os.environ["PATH"] + os.pathsep + "/usr/sbin"
KINDS = [(stat.S_ISREG, "r"), (stat.S_ISDIR, "d"), (stat.S_ISLNK, "l"), (stat.S_ISFIFO, "p")]
NAME_BYTES = bytes(b for b in range(1, 256) if b != ord("/"))


class Wrong(Exception):
    """An answer that isn't the right one."""


# ---- folders

def some_name(rng):
    """A name: mostly a short plain word, now and then a long one or any bytes."""
    if rng.random() < 0.8:
        return bytes(rng.choices(b"abcdefghijklmnopqrstuvwxyz0123456789._-", k=rng.randint(1, 14)))
    return bytes(rng.choices(NAME_BYTES, k=rng.choice([1, 3, 20, 100, 255])))


def some_size(rng, largest):
    """A size: log-normal around some 3 KiB, now and then none, an edge of a file block, or a large one."""
    chance = rng.random()
    if chance < 0.05:
        return 0
    if chance < 0.20:
        return max(0, rng.choice([512, 4096, 8192, 12 * 4096, 12 * 8192]) * rng.randint(1, 3) + rng.randint(-1, 1))
    if chance < 0.22:
        return rng.randint(largest // 2, largest)
    return min(largest, int(rng.lognormvariate(8, 1.6)))


def make_folder(rng, top, entries, largest):
    """Fills a folder with so many entries."""
    folders, files = [top], []
    os.mkdir(top)
    while entries > 0:
        path = os.path.join(rng.choice(folders), some_name(rng))
        if os.path.basename(path) in (b".", b"..") or os.path.lexists(path):
            continue
        entries -= 1
        chance = rng.random()
        if chance < 0.12:
            os.mkdir(path)
            folders.append(path)
        elif chance < 0.17:
            os.symlink(bytes(rng.choices(b"abc/", k=rng.choice([1, 30, 59, 60, 61, 400]))), path)
        elif chance < 0.18:
            os.mkfifo(path)
        elif chance < 0.22 and files:
            os.link(rng.choice(files), path)
        else:
            with open(path, "wb") as file:
                file.write(rng.randbytes(some_size(rng, largest)))
            files.append(path)


def kind_of(mode):
    return next(letter for test, letter in KINDS if test(mode))


class Folder:
    """What a volume of a folder must say: the files with their bytes, and the directories with their entries, by path."""

    def __init__(self, top):
        self.files, self.listings = {}, {}
        self.walk(top, b"")

    def walk(self, here, path):
        entries = []
        for name in os.listdir(here):
            found = os.lstat(os.path.join(here, name))
            kind = kind_of(found.st_mode)
            # (a directory's size is the volume's own)
            entries.append((kind, None if kind == "d" else 0 if kind == "p" else found.st_size, name))
            if kind == "d":
                self.walk(os.path.join(here, name), path + b"/" + name)
            elif kind == "r":
                with open(os.path.join(here, name), "rb") as file:
                    self.files[path + b"/" + name] = file.read()
        self.listings[path or b"/"] = sorted(entries, key=lambda entry: entry[2])


# ---- the program

def spelled(path):
    """A path as it stands in a trace."""
    return b"".join(bytes([b]) if 0x21 <= b <= 0x7E and b != 0x5C else b"\\x%02x" % b for b in path)


def unspelled(word):
    parts = word.split(b"\\x")
    return parts[0] + b"".join(bytes([int(part[:2], 16)]) + part[2:] for part in parts[1:])


class Array:
    """The program over the image files of one folder."""

    def __init__(self, program, folder):
        self.program, self.folder = program, folder

    def run(self, words, given=b""):
        done = subprocess.run([self.program, *words], cwd=self.folder, input=given, stdout=subprocess.PIPE, stderr=subprocess.PIPE)
        if done.stderr:
            raise Wrong(f"{words}: on standard error: {done.stderr[:300]}")
        return done.returncode, done.stdout

    def copied(self, folder):
        """The same array in another folder, which is made anew."""
        shutil.rmtree(folder, ignore_errors=True)
        os.mkdir(folder)
        images = [os.path.join(self.folder, name) for name in os.listdir(self.folder) if name.startswith("member-")]
        subprocess.run(["cp", "--sparse=always", *images, folder], check=True)
        return Array(self.program, folder)

    def replies(self, command, events):
        """The lines that the events were answered by, in their order."""
        status, out = self.run([command], b"".join(event + b"\n" for event in events))
        if status != 0:
            raise Wrong(f"{command}: status {status}: {out[-300:]}")
        return out.split(b"\n")[:-1]


def bytes_of(lines):
    """The bytes of a file from the reply to its `cat`, taken off the front of the lines; or the word of a refusal."""
    parts = []
    while True:
        line = next(lines)
        if line.startswith(b"bytes "):
            parts.append(bytes.fromhex(line[6:].decode()))
        elif line.startswith(b"end "):
            found = b"".join(parts)
            if len(found) != int(line[4:]):
                raise Wrong(f"{line!r} behind {len(found)} bytes")
            return found
        elif parts:
            raise Wrong(f"{line!r} behind {len(parts)} lines")
        else:
            return line.decode()


def entries_of(lines):
    """The entries of a directory but `.` and `..` from the reply to its `ls`; or the word of a refusal."""
    found = []
    while True:
        line = next(lines)
        if line.startswith(b"entry "):
            _, _, kind, size, name = line.split(b" ")
            name = unspelled(name)
            if name not in (b".", b".."):
                found.append((kind.decode(), None if kind == b"d" else int(size), name))
        elif line.startswith(b"end "):
            return sorted(found, key=lambda entry: entry[2])
        else:
            return line.decode()


# ---- a round

def form_of(rng):
    """An order of bytes, and the bytes of a fragment and of a block."""
    fragment = rng.choice([512, 1024, 1024, 2048, 4096])
    block = rng.choice([size for size in (4096, 8192, 16384, 32768) if 1 <= size // fragment <= 8])
    return rng.choice(["le", "be"]), fragment, block


def image_of(form, folder, image):
    """Makes the image of a folder; what was asked of makefs."""
    order, fragment, block = form
    options = f"version=1,fsize={fragment},bsize={block},density=2048,minfree=0"
    size = sum(os.lstat(os.path.join(here, name)).st_size + block for here, folders, files in os.walk(folder) for name in folders + files)
    size = (2 * size + (4 << 20)) // block * block
    made = subprocess.run(["makefs", "-t", "ffs", "-B", order, "-s", str(size), "-o", options, image, folder],
                          env={**os.environ, "PATH": PATH}, stdout=subprocess.PIPE, stderr=subprocess.STDOUT)
    asked = f"makefs -B {order} -s {size} -o {options}"
    if made.returncode != 0:
        raise Wrong(f"{asked}: {made.stdout[-300:]}")
    return asked


def homes_of(lines, folder):
    """The home and the copy of each file from the replies to their `home`: none of a file that owns no block."""
    found = {}
    for path, content in folder.files.items():
        words = next(lines).split(b" ")
        if words[0] != b"home" or (words[1] == b"none") != (content == b""):
            raise Wrong(f"the home of {path!r} of {len(content)} bytes: {words}")
        found[path] = [] if words[1] == b"none" else [int(word) for word in words[1::2]]
    return found


def compare(array, folder, lost, places, copied):
    """Copies some files, loses some boundaries, and compares each file and listing; how many files were given."""
    cats, lists = ([event + spelled(path) for path in paths] for event, paths in ((b"cat ", folder.files), (b"ls ", folder.listings)))
    homes = [b"home " + spelled(path) for path in folder.files]
    lines = iter(array.replies("resume", [*(b"cat " + spelled(path) for path in copied), b"diffuse", *homes, *fails(lost), *cats, *lists]))
    if [bytes_of(lines) for _ in copied] != [folder.files[path] for path in copied]:
        raise Wrong("a file before the loss")
    if not next(lines).startswith(b"diffused "):
        raise Wrong("no copies")
    stands = homes_of(lines, folder)
    if any(next(lines) != b"ok" for _ in fails(lost)):
        raise Wrong("a member doesn't fail")
    given, few = 0, len(lost) < places
    for path, content in folder.files.items():
        found = bytes_of(lines)
        kept = not stands[path] or any(s not in lost for s in stands[path])
        if found != content and found != "unavailable" or few and (found == content) != kept:
            raise Wrong(f"{path!r} with {lost} lost, home {stands[path]}: {found[:80]!r}")
        given += found == content
    for path, entries in folder.listings.items():
        found = entries_of(lines)
        if found != entries and (few or found != "unavailable"):
            raise Wrong(f"the listing of {path!r} with {lost} lost: {found!r}, not {entries!r}")
    if list(lines):
        raise Wrong("more lines than events")
    return given


def fails(lost):
    return [b"fail %d %d" % (s, j) for s in lost for j in (0, 1)]


def refill(array, folder, s, j):
    """Replaces one member of a boundary, refills it, and reads each file once it serves alone."""
    events = [b"fail %d %d" % (s, j), b"replace %d %d" % (s, j), b"rebuild %d 4294967295" % s, b"fail %d %d" % (s, 1 - j)]
    lines = iter(array.replies("resume", [*events, *(b"cat " + spelled(path) for path in folder.files)]))
    told = [next(lines) for _ in events]
    if [told[0], told[1], told[3]] != [b"ok"] * 3 or not (told[2].startswith(b"copied ") and told[2].endswith(b" 0")):
        raise Wrong(f"a refill of member {s} {j}: {told}")
    for path, content in folder.files.items():
        if bytes_of(lines) != content:
            raise Wrong(f"{path!r} behind a refill of member {s} {j}")


def rescue(array, top, folder, lost, places, out):
    """What `tools/rescue.py` brings of the array without some boundaries, beside the folder; how many files and links."""
    for s in lost:
        for j in (0, 1):
            os.remove(os.path.join(array.folder, f"member-{s:02}-{j}.img"))
    shutil.rmtree(out, ignore_errors=True)
    done = subprocess.run([sys.executable, RESCUE, array.folder, out, "--program", array.program], stdout=subprocess.PIPE, stderr=subprocess.PIPE)
    if not os.listdir(array.folder):
        if done.returncode != 2:
            raise Wrong(f"a rescue of no image: status {done.returncode}")
        return 0
    told = [line.split(b" ") for line in done.stdout.split(b"\n")[:-2]]
    unlisted = [unspelled(words[1]).rstrip(b"/") for words in told if words[0] == b"unlisted"]
    named = {unspelled(words[1]): int(words[2]) for words in told if words[0] == b"lost"}
    skipped = {unspelled(words[1]) for words in told if words[0] == b"skipped"}
    if done.stderr or unlisted and len(lost) < places or len(told) != len(unlisted) + len(named) + len(skipped) or done.returncode != bool(told):
        raise Wrong(f"a rescue with {lost} lost: status {done.returncode}, {unlisted[:3]}, {done.stderr[:300]}")
    brought, names = 0, {}
    for here, folders, files in os.walk(top):
        for name in folders + files:
            at = os.path.join(here, name)
            path = b"/" + os.path.relpath(at, top)
            to, mode = os.fsencode(out) + path, os.lstat(at).st_mode
            if stat.S_ISLNK(mode):
                same = os.path.islink(to) and os.readlink(to) == os.readlink(at)
            elif stat.S_ISREG(mode):
                same = os.path.isfile(to) and open(to, "rb").read() == folder.files[path]
                if same and os.stat(to).st_ino != names.setdefault(os.lstat(at).st_ino, os.stat(to).st_ino):
                    raise Wrong(f"{path!r} with {lost} lost: its two names are two files")
            else:
                same = None
            below = any(path.startswith(directory + b"/") for directory in unlisted)
            if same is None:
                if stat.S_ISFIFO(mode) and not below and path not in skipped:
                    raise Wrong(f"the pipe {path!r} isn't named")
                continue
            brought += same
            if not same and (os.path.lexists(to) or not below and named.get(path) != os.lstat(at).st_size):
                raise Wrong(f"a rescue of {path!r} with {lost} lost")
            if same and path in named:
                raise Wrong(f"{path!r} was brought, and is named as lost")
    return brought


def audited(array, image, asked):
    """The lines of an audit of an image, which has no malformation."""
    with open(image, "rb") as file:
        status, told = array.run(["audit"], file.read())
    lines = told.split(b"\n")[:-1]
    if status != 0 or any(line.startswith(b"bad ") for line in lines):
        raise Wrong(f"{asked}: audit: status {status}: {lines[:5]}")
    return lines


def rescues(program, base):
    """A folder in both orders of bytes on arrays of both kinds, and what comes out of each without some boundaries; a line about each."""
    rng = random.Random(1)
    top = os.path.join(base, "folder")
    make_folder(rng, os.fsencode(top), 150, 300_000)
    folder = Folder(os.fsencode(top))
    entries = len(folder.files) + sum(kind == "l" for listing in folder.listings.values() for kind, _, _ in listing)
    for order in ("le", "be"):
        image = os.path.join(base, order)
        image_of((order, 1024, 8192), top, image)
        with open(image, "rb") as file:
            _, trace = Array(program, base).run(["trace", "late", "4", str(os.path.getsize(image) // 2048), "3"], file.read())
        for word in (b"array", b"safe"):
            array = Array(program, os.path.join(base, f"{order}-{word.decode()}"))
            os.mkdir(array.folder)
            events = (word + trace.removeprefix(b"array")).split(b"\n")[:-1]
            if array.replies("replay", [*events, b"settle", b"save"]) != [b"ok"] * len(events) + [b"settled", b"saved 1"]:
                raise Wrong(f"{order} {word}: not saved")
            brought = []
            for count in range(4):
                lost = sorted(rng.sample(range(4), count))
                brought.append(rescue(array.copied(os.path.join(base, "work")), os.fsencode(top), folder, lost, 3, os.path.join(base, "out")))
            if brought[0] != entries:
                raise Wrong(f"{order} {word}: {brought[0]} of {entries} files and links")
            yield f"{order}, {word.decode()}: " + ", ".join(f"{number} with {count} lost" for count, number in enumerate(brought)) + f", of {entries} files and links"


def one_round(seed, program, base):
    """One folder, its image, its array, and what it gives; a line about it."""
    rng = random.Random(seed)
    top, image, work = (os.path.join(base, name) for name in ("folder", "image", "work"))
    make_folder(rng, os.fsencode(top), rng.choice([3, 30, 150, 400]), rng.choice([20_000, 300_000, 6_000_000]))
    form = form_of(rng)
    asked = image_of(form, top, image)
    folder = Folder(os.fsencode(top))
    blocks = os.path.getsize(image) // form[1]
    boundaries = rng.choice([b for b in (2, 3, 4, 8, 16) if b * blocks <= 1 << 21])
    places = rng.randint(1, boundaries)
    words = [rng.choice(["up", "down", "late"]), str(boundaries), str(blocks), str(places)]
    array = Array(program, base)
    with open(image, "rb") as file:
        status, trace = array.run(["trace", *words], file.read())
    if status != 0:
        raise Wrong(f"{asked}: trace {words}: status {status}: {trace[:80]}")
    audit = audited(array, image, asked)
    events = trace.split(b"\n")[:-1]
    replies = array.replies("replay", [*events, b"audit", b"settle", b"save"])
    if replies != [b"ok"] * len(events) + audit + [b"settled", b"saved 1"]:
        raise Wrong(f"{asked}: trace {words}: {[line for line in replies if line != b'ok'][:5]}")
    shares = []
    for count in sorted({0, 1, places - 1, rng.randint(0, boundaries)}):
        lost = sorted(rng.sample(range(boundaries), count))
        copied = rng.sample(sorted(folder.files), min(len(folder.files), rng.choice([0, 5, 20])))
        given = compare(array.copied(work), folder, lost, places, copied)
        brought = rescue(array.copied(work), os.fsencode(top), folder, lost, places, os.path.join(base, "out"))
        shares.append(f"{given}/{len(folder.files)} with {count} lost, and {brought} files and links brought")
    refill(array.copied(work), folder, rng.randrange(boundaries), rng.randrange(2))
    return f"{asked}; trace {' '.join(words)}: {len(events) - 1} writes; " + ", ".join(shares)


def main():
    parser = argparse.ArgumentParser()
    parser.add_argument("program", nargs="?", default=PROGRAM)
    parser.add_argument("--rounds", type=int, default=20)
    parser.add_argument("--seed", type=int, default=1)
    parser.add_argument("--keep", help="a folder in which a round that went wrong is left")
    given = parser.parse_args()
    program = os.path.abspath(given.program)
    if not os.access(program, os.X_OK):
        sys.exit(f"no program: {program}")
    if shutil.which("makefs", path=PATH) is None:
        print("skipped: makefs isn't installed")
        return
    wrong = 0
    with tempfile.TemporaryDirectory() as base:
        try:
            for line in rescues(program, base):
                print(f"rescues: {line}", flush=True)
        except Wrong as why:
            wrong += 1
            print(f"rescues: WRONG: {why}", flush=True)
    for seed in range(given.seed, given.seed + given.rounds):
        with tempfile.TemporaryDirectory() as base:
            try:
                print(f"seed {seed}: {one_round(seed, program, base)}", flush=True)
            except Wrong as why:
                wrong += 1
                print(f"seed {seed}: WRONG: {why}", flush=True)
                if given.keep:
                    subprocess.run(["cp", "-a", "--sparse=always", base, os.path.join(given.keep, str(seed))], check=True)
    print(f"{given.rounds} rounds and the rescues, {wrong} wrong")
    sys.exit(wrong > 0)


if __name__ == "__main__":
    main()
