#!/usr/bin/env python3
"""Brings every file that is still given out of a saved array into a folder.

    tools/rescue.py IMAGES OUT [--program PROGRAM] [--tree FILE]

IMAGES is the folder with the member images, which are only read; OUT is a folder of its own, which is made where it isn't there. Directories, regular files
and symbolic links come out under their names; a second name of a file is a hard link, or a copy where OUT takes none. Modes, owners and times aren't
brought. Each entry that doesn't come out has a line on standard output, and the last line has the numbers:

    lost PATH BYTES          the array doesn't give it; with `older` behind it where OUT has something of this name
    unlisted PATH WHY        a directory that can't be listed, or not to its end
    skipped PATH WHY         a device, a pipe, a socket, or a second name of a directory
    failed PATH BYTES WHY    OUT can't have it, or the program ended over it

A directory may not be listed though files of it are still given by their paths: `ls` needs the inodes of all entries. Where FILE has what the event `tree`
printed on a good day, its entries stand for those of such a directory.

What stands in OUT is compared with what the array gives, and left as it is where it is the same: so a second run goes on where the first was stopped. On a
terminal a line on standard error tells how far it is.

A `safe` array that was stopped in the middle of a save may have images in which this save is only prepared. An opening completes them by a write, and where it
can't, it goes on without them. So the program gets copies of these images, in a folder beside OUT that is taken away at the end, and the images stay as they are,
also where they can't be written.

It needs python3 alone, and asks one `dgraid resume`, from the path or as PROGRAM, by events that read. A member on which a read fails is out as long as a run
lasts, so behind such an event another run is begun.

The exit status is 0 where all came out, 1 where something has such a line, 2 where nothing could be tried, and 3 where OUT is full or can't be written.
"""
import argparse
import binascii
import collections
import contextlib
import errno
import os
import re
import signal
import struct
import subprocess
import sys
import tempfile
import time

ROOT = 2
SUPER_AT = 8192
INODE_BYTES = 128
SLOTS_AT = 40
LONGEST_PATH = 1023
PART = b".rescue-part"
MORE_FOLLOWS = (b"bytes ", b"entry ")
# numbers of `struct fs` (fs.h), by their bytes in the superblock
SUPER_FIELDS = {"cgoffset": 24, "cgmask": 28, "iblkno": 16, "bsize": 48, "fsize": 52, "frag": 56, "inopb": 120, "ipg": 184, "fpg": 188, "maxsymlinklen": 1320}
SUPER_MAGIC_AT, SUPER_MAGIC = 1372, 0x00011954
IMAGE = re.compile(r"member-(\d\d)-([01])\.img")
MEMBERS = 32
PIECE = 1 << 16
MIB = 1 << 20
# seconds between two looks at how far it is
INTERVAL = 0.2
FULL = (errno.ENOSPC, errno.EDQUOT)
NO_FOLDER = "its directory couldn't be made"
OTHER_SPELLING = "something stands there under another spelling of its name"
READ_FAILED = re.compile(r"^member-\d\d-\d\.img: read: ", re.MULTILINE)


# ---- which headers of a `safe` array count, and which an opening takes

PAGE = 512
MAGIC = b"DGRAID-S"
LABELS = (b"DGRAID-1", b"DGRAID-2")
MARKS = {0x50: False, 0x43: True}
PAST_SEQUENCES = 1 << 62
FIELDS = struct.Struct("<8sQBB6sQII")

Header = collections.namedtuple("Header", "sequence committed size room extra")


def pages_of(size):
    return -(-size // PAGE)


def bits_of(size):
    """Bytes of the bits of a table."""
    return -(-pages_of(size) // 8)


def table_of(size, room):
    """Bytes of a table: its bits and the room for extra bytes, up to whole pages."""
    return -(-(bits_of(size) + room) // PAGE) * PAGE


def length_of(size, room):
    """Bytes of the image of a member."""
    return 2 * PAGE + 2 * table_of(size, room) + 2 * PAGE * pages_of(size)


def header_on(front, length, place, member):
    """The header that counts in one of the two places of a member whose image has this front and so many bytes; None where none does, as where it begins as
    the label of a plain array."""
    if front.startswith(LABELS):
        return None
    page = front[PAGE * place : PAGE * (place + 1)]
    if len(page) < PAGE or any(page[FIELDS.size :]):
        return None
    magic, sequence, mark, owner, zeros, size, room, extra = FIELDS.unpack_from(page)
    is_form = magic == MAGIC and mark in MARKS and not any(zeros)
    in_bounds = 1 <= sequence < PAST_SEQUENCES and sequence % 2 == place and extra <= room
    if not is_form or not in_bounds or owner != member or length_of(size, room) != length:
        return None
    return Header(sequence, MARKS[mark], size, room, extra)


def taken(found):
    """Of the headers that count, by member and place, those that an opening takes, in order: the ones of the greatest save that some member has committed,
    which say the same room and the same number of extra bytes as the first committed one. It commits each of them that is only prepared."""
    committed = [header for _, header in sorted(found.items()) if header.committed]
    if not committed:
        return {}
    last = max(header.sequence for header in committed)
    lead = next(header for header in committed if header.sequence == last)
    asked = lead.sequence, lead.room, lead.extra
    return {where: header for where, header in sorted(found.items()) if (header.sequence, header.room, header.extra) == asked}


# ---- images that are only read

class Stopped(Exception):
    """Nothing more can be brought."""


def images_in(folder):
    """The names of the images in a folder, by their members."""
    names = {}
    for name in os.listdir(folder):
        found = IMAGE.fullmatch(name)
        if found and os.path.isfile(os.path.join(folder, name)):
            names[2 * int(found[1]) + int(found[2])] = name
    return {member: name for member, name in names.items() if member < MEMBERS}


def half_saved(folder):
    """The names of the images that an opening would write to: those in which the save that it takes is only prepared."""
    names, found = images_in(folder), {}
    for member, name in names.items():
        with contextlib.suppress(OSError), open(os.path.join(folder, name), "rb") as file:
            front, length = file.read(2 * PAGE), os.fstat(file.fileno()).st_size
            for place in (0, 1):
                if header := header_on(front, length, place, member):
                    found[member, place] = header
    return {names[member] for (member, _), header in taken(found).items() if not header.committed}


def copy_image(source, target, teller):
    """A copy of an image, sparse where it is."""
    with open(source, "rb") as given, open(target, "wb") as made:
        length = os.fstat(given.fileno()).st_size
        made.truncate(length)
        while piece := given.read(PIECE):
            if piece.strip(b"\0"):
                made.write(piece)
            else:
                made.seek(len(piece), os.SEEK_CUR)
            teller.progress(lambda: f"a copy of {os.path.basename(source)}: {made.tell() / MIB:.1f} of {length / MIB:.1f} MiB")


def put_beside(source, target, is_half, teller):
    """Puts an image where the program is to find it. One that can't be read whole is left out, as nothing may stand for its bytes."""
    if not is_half:
        os.symlink(source, target)
        return
    try:
        copy_image(source, target, teller)
    except OSError as why:
        if why.errno in FULL:
            raise Stopped(f"no room beside the folder of what comes out for copies of the images: {why.strerror}") from why
        os.remove(target)
        teller.warn(f"{os.path.basename(source)}: {why.strerror}: it is left out")


@contextlib.contextmanager
def to_be_opened(program, images, out, teller):
    """The folder to run the program in, so that an opening writes to no image: where it would, one with links to the images, and with copies of some."""
    half = half_saved(images)
    if not half:
        yield images
        return
    above, last = os.path.split(os.path.abspath(out))
    os.makedirs(above, exist_ok=True)
    with tempfile.TemporaryDirectory(prefix=f".{last}-images-", dir=above) as folder:
        for name in images_in(images).values():
            put_beside(os.path.abspath(os.path.join(images, name)), os.path.join(folder, name), name in half, teller)
        teller.clear()
        subprocess.run([program, "resume"], stdin=subprocess.DEVNULL, stdout=subprocess.DEVNULL, cwd=folder, check=False)
        yield folder


# ---- the program

def spelled(name):
    """A name as the program's paths spell it."""
    return "".join(chr(byte) if 0x21 <= byte <= 0x7E and byte != 0x5C else f"\\x{byte:02x}" for byte in name)


def entries_in(lines):
    """The entries of each directory, by its path, in what the event `tree` printed."""
    found, above = {}, []
    for line in lines:
        if line.startswith(b"node "):
            depth, inode, kind, size, word = line.rstrip(b"\n").split(b" ")[1:]
            del above[int(depth) - 1:]
            found.setdefault("".join(above), []).append((int(inode), kind.decode(), int(size), unspelled(word)))
            above.append(f"/{word.decode()}")
    return found


def unspelled(word):
    """The bytes of a name that the program spells."""
    return re.sub(rb"\\x([0-9a-f]{2})", lambda it: bytes([int(it[1], 16)]), word)


class Teller:
    """What is told, and on a terminal a line about how far it is, which is cleared before anything else."""

    def __init__(self):
        self.on_terminal, self.is_shown, self.last = sys.stderr.isatty(), False, time.monotonic()

    def tell(self, *words):
        self.clear()
        print(*words, flush=True)

    def warn(self, text):
        self.clear()
        print(f"rescue: {text}", file=sys.stderr, flush=True)

    def pass_on(self, text):
        """Lines of the program on standard error."""
        if text:
            self.clear()
            print(text, end="", file=sys.stderr, flush=True)

    def clear(self):
        if self.is_shown:
            print("\r\x1b[K", end="", file=sys.stderr, flush=True)
            self.is_shown = False

    def progress(self, line):
        """Shows a line that is made by a call, if it is time."""
        if not self.on_terminal or time.monotonic() - self.last < INTERVAL:
            return
        columns = 80
        with contextlib.suppress(OSError):
            columns = os.get_terminal_size(sys.stderr.fileno()).columns or columns
        print(f"\r{line()[:columns - 1]}\x1b[K", end="", file=sys.stderr, flush=True)
        self.is_shown, self.last = True, time.monotonic()


class Ended(Exception):
    """The program ended, or answered what it never does."""


class Session:
    """A `resume` that is asked through pipes. Where it ends, a later question begins another one."""

    def __init__(self, program, images, teller):
        self.program, self.images, self.teller = program, images, teller
        self.child, self.is_busy, self.has_failed = None, False, False

    def begin(self):
        pipes = dict.fromkeys(("stdin", "stdout", "stderr"), subprocess.PIPE)
        try:
            self.child = subprocess.Popen([self.program, "resume"], cwd=self.images, **pipes)
        except OSError as why:
            raise Ended(f"the program can't be started: {why}") from why
        os.set_blocking(self.child.stderr.fileno(), False)
        # by this reply the array is open: a read that fails in an opening fails in the next one, too
        list(self.replies("read 0"))
        self.has_failed = False

    def pass_on(self):
        """Passes on what the program told before its last line. It tells each member and kind of call once, so a pipe has room for all."""
        told = (self.child.stderr.read() or b"").decode(errors="replace")
        self.teller.pass_on(told)
        self.has_failed |= READ_FAILED.search(told) is not None

    def ask(self, event):
        """The lines of the reply to an event, without their ends."""
        if self.child is None:
            self.begin()
        return self.replies(event)

    def replies(self, event):
        self.is_busy = True
        with contextlib.suppress(OSError):
            self.child.stdin.write(event.encode() + b"\n")
            self.child.stdin.flush()
        while self.is_busy:
            line = self.child.stdout.readline()
            if not line.endswith(b"\n") or line.startswith(b"line "):
                self.is_busy = False
                raise Ended(f"the program ended with status {self.close()}" + (f", after {line.decode(errors='replace')!r}" if line else ""))
            self.pass_on()
            self.is_busy = line.startswith(MORE_FOLLOWS)
            yield line[:-1]

    def reply(self, event):
        return list(self.ask(event))

    def read(self, number):
        """A block's bytes, without the zeros at its end, or None where it is gone."""
        word, _, data = self.reply(f"read {number}")[-1].partition(b" ")
        return binascii.unhexlify(data.replace(b"-", b"")) if word == b"data" else None

    def renew(self):
        """Ends a run in which a read failed, so that the next question begins another one: whether it did."""
        if self.child is None or not self.has_failed:
            return False
        self.close()
        return True

    def close(self):
        """Ends the run, if there is one, and gives its status."""
        if self.child is None:
            return None
        child, self.child = self.child, None
        if self.is_busy:
            child.kill()
        with contextlib.suppress(OSError):
            child.stdin.close()
        child.stdout.close()
        told = child.stderr.read() or b""
        status = child.wait()
        told += child.stderr.read() or b""
        child.stderr.close()
        self.teller.pass_on(told.decode(errors="replace"))
        return status


class Volume:
    """As much of UFS1 as leads to the target of a symbolic link."""

    def __init__(self, session, block):
        self.session, self.block = session, block
        data = self.bytes_at(SUPER_AT, SUPER_MAGIC_AT + 4)
        self.order = next((order for order in "<>" if data and struct.unpack_from(f"{order}I", data, SUPER_MAGIC_AT)[0] == SUPER_MAGIC), None)
        self.numbers = {name: struct.unpack_from(f"{self.order}I", data, at)[0] for name, at in SUPER_FIELDS.items()} if self.order else None

    def bytes_at(self, place, count):
        """So many bytes from a place of the volume on, or None where one of their blocks is gone."""
        parts = []
        for number in range(place // self.block, -(-(place + count) // self.block)):
            part = self.session.read(number)
            if part is None:
                return None
            parts.append(part.ljust(self.block, b"\0"))
        return b"".join(parts)[place % self.block:][:count]

    def target(self, inode, size):
        """The target of a symbolic link, or None where it isn't given."""
        g = self.numbers
        if g is None or not 0 < size <= g["bsize"]:
            return None
        group, place = divmod(inode, g["ipg"])
        first = g["fpg"] * group + g["cgoffset"] * (group & ~g["cgmask"] & 0xFFFFFFFF) + g["iblkno"]
        at = (first + place // g["inopb"] * g["frag"]) * g["fsize"] + place % g["inopb"] * INODE_BYTES
        data = self.bytes_at(at, INODE_BYTES)
        if data is None:
            return None
        if size < g["maxsymlinklen"]:
            return data[SLOTS_AT:SLOTS_AT + size]
        fragment, = struct.unpack_from(f"{self.order}I", data, SLOTS_AT)
        return self.bytes_at(fragment * g["fsize"], size) if fragment else None


# ---- what comes out

class Arrival:
    """The bytes of a file as they come. Nothing is written as long as they are those of the file that stands there."""

    def __init__(self, part, to, size):
        self.part, self.to, self.size, self.count, self.made, self.old, self.why = part, to, size, 0, None, None, None
        with contextlib.suppress(OSError):
            if os.path.isfile(to) and not os.path.islink(to) and os.path.getsize(to) == size:
                self.old = open(to, "rb")

    def take(self, data):
        """Takes more bytes. Why the folder can't have them is kept."""
        try:
            if self.why is None:
                self.put(data)
        except OSError as why:
            check_room(why)
            self.why = why
        self.count += len(data)

    def put(self, data):
        if self.made is None and (self.old is None or self.old.read(len(data)) != data):
            self.begin()
        if self.made is not None:
            self.made.write(data)

    def begin(self):
        """Begins a file of its own, with what has come."""
        self.made = new_part(self.part)
        if self.old is not None:
            self.old.seek(0)
            left = self.count
            while left and (piece := self.old.read(min(PIECE, left))):
                left -= self.made.write(piece)

    def finish(self):
        """Gives the whole file its name, unless it stands there."""
        if self.why is not None:
            raise self.why
        if self.made is None and (self.old is None or self.count != self.size):
            self.begin()
        if self.made is not None:
            self.made.close()
            os.replace(self.part, self.to)

    def close(self):
        """Leaves nothing behind that isn't whole."""
        for file in (self.old, self.made):
            with contextlib.suppress(OSError):
                if file is not None:
                    file.close()
        with contextlib.suppress(OSError):
            if self.made is not None:
                os.remove(self.part)


def check_room(why):
    """A full disk ends all, since nothing that follows would come out either."""
    if why.errno in FULL:
        raise Stopped(f"the folder of what comes out is full: {why.strerror}") from why


def new_part(part):
    """A file that isn't there yet."""
    try:
        return os.fdopen(os.open(part, os.O_WRONLY | os.O_CREAT | os.O_EXCL, 0o666), "wb")
    except OSError as why:
        raise Stopped(f"the folder of what comes out can't be written: {why.strerror}") from why


class Rescue:
    """What came out so far."""

    def __init__(self, session, out, block, teller, tree):
        self.session, self.out, self.teller, self.volume, self.tree = session, os.fsencode(out), teller, Volume(session, block), tree
        self.files, self.bytes, self.compared, self.there, self.lost_bytes = 0, 0, 0, 0, 0
        self.told = dict.fromkeys(("lost", "unlisted", "skipped", "failed"), 0)
        self.seen, self.names, self.present, self.part = {ROOT}, {}, set(), None

    # what is told

    def miss(self, word, path, *rest):
        """Names an entry that doesn't come out."""
        self.told[word] += 1
        self.teller.tell(word, path, *rest)

    def lose(self, path, size, to=None):
        self.lost_bytes += size
        self.miss("lost", path, size, *(["older"] if to and os.path.lexists(to) else []))

    def fail(self, path, size, why):
        self.miss("failed", path, size, why)

    def progress(self, path, count=0, size=0):
        come = (self.bytes + self.compared + count) / MIB
        within = f"{count / MIB:.1f} of {size / MIB:.1f} MiB of " if size > MIB else ""
        self.teller.progress(lambda: f"{self.files} files, {come:.1f} MiB, {self.told['lost']} lost: {within}{path}")

    def summary(self):
        further = "".join(f", {count} {word}" for word, count in self.told.items() if count and word != "lost")
        brought = f"{self.files} files ({self.there} of them were there), {self.bytes} bytes brought"
        return f"{brought}; {self.told['lost']} lost, {self.lost_bytes} bytes{further}"

    # what the folder can have

    def attempt(self, path, size, make, what=""):
        """Whether the folder took what a call makes. What it can't have is named."""
        try:
            make()
        except OSError as why:
            check_room(why)
            self.fail(path, size, f"{what}{why.strerror or why}")
            return False
        return True

    def is_other(self, to):
        """Whether what stands there has another spelling of this name, which is the same one to the file system. That isn't overwritten."""
        return os.path.lexists(to) and os.path.basename(to) not in self.present

    def take_part(self, names):
        """Takes a name for a file that isn't whole yet: none that the volume has. What a run that was stopped left there is removed."""
        names, part = {name.lower() for name in names}, PART
        while part in names:
            part += b"-"
        self.part = os.path.join(self.out, part)
        try:
            if os.path.lexists(self.part):
                os.remove(self.part)
        except OSError as why:
            raise Stopped(f"{os.fsdecode(self.part)} is in the way: {why.strerror}") from why

    def place(self, make, to):
        """Makes a link under another name first, and gives it its own then."""
        make(self.part)
        try:
            os.replace(self.part, to)
        except OSError:
            os.remove(self.part)
            raise

    # what the array gives

    def twice(self, bring):
        """What a call brings, or a second one: a member on which a read failed is out as long as the run lasts, and a new run has it again."""
        found = bring()
        return bring() if found is None and self.session.renew() else found

    def entries(self, path):
        """The entries of a directory, as inode, kind, size and name; what isn't listed is told."""
        lines, why = [], ""

        def ask():
            lines[:] = self.session.reply(f"ls {path or '/'}")
            return lines if lines[-1].startswith(b"end ") else None

        try:
            if self.twice(ask) is None:
                why = lines[-1].decode()
        except Ended as ended:
            why = ended
        if why:
            self.miss("unlisted", path or "/", why)
            if path in self.tree:
                return self.tree[path]
        found = [line.split(b" ", 4)[1:] for line in lines if line.startswith(b"entry ")]
        return [(int(inode), kind.decode(), int(size), name) for inode, kind, size, word in found if (name := unspelled(word)) not in (b".", b"..")]

    def arrive(self, path, to, size):
        """The bytes of a file; None where they don't come whole."""
        arrival, last, is_whole = Arrival(self.part, to, size), b"", False
        try:
            for last in self.session.ask(f"cat {path}"):
                if last.startswith(b"bytes "):
                    arrival.take(binascii.unhexlify(last[6:]))
                self.progress(path, arrival.count, size)
            is_whole = last == b"end %d" % arrival.count
            return arrival if is_whole else None
        finally:
            if not is_whole:
                arrival.close()

    # what is brought

    def run(self):
        """Goes over all directories, those of a directory behind its files."""
        waiting = [("", self.out)]
        while waiting:
            path, folder = waiting.pop()
            waiting += self.directory(path, folder)

    def directory(self, path, folder):
        """Brings what is in a directory, and gives the directories in it, each with its folder, or None where there is none."""
        entries = self.entries(path)
        if not path:
            self.take_part(name for _, _, _, name in entries)
        self.present = set()
        with contextlib.suppress(OSError):
            self.present.update(os.listdir(folder) if folder else [])
        inside = []
        for inode, kind, size, name in entries:
            at, to = f"{path}/{spelled(name)}", folder and os.path.join(folder, name)
            if not name or set(name) & set(b"/\0") or len(unspelled(at.encode())) > LONGEST_PATH:
                self.unasked(at, kind, size)
            elif kind == "d" and inode in self.seen:
                self.miss("skipped", at, "a second name of a directory")
            elif kind not in "drl":
                self.miss("skipped", at, f"a file of kind {kind}")
            elif kind == "d":
                self.seen.add(inode)
                inside.append((at, self.folder(at, to, size)))
            elif to is None:
                self.fail(at, size, NO_FOLDER)
            elif kind == "r":
                self.file(at, to, inode, size)
            else:
                self.link(at, to, inode, size)
            self.present.add(name)
            self.session.renew()
            self.progress(at)
        return inside[::-1]

    def unasked(self, path, kind, size):
        """An entry that no event can ask for."""
        if kind == "d":
            self.miss("unlisted", path, "no event can ask for it")
        else:
            self.lose(path, size)

    def folder(self, path, to, size):
        """Makes a directory, and gives it; None where it can't be."""
        def make():
            try:
                os.mkdir(to)
            except FileExistsError:
                if os.path.islink(to) or not os.path.isdir(to):
                    raise

        if to is None:
            self.fail(path, size, NO_FOLDER)
        elif self.is_other(to):
            self.fail(path, size, OTHER_SPELLING)
        elif self.attempt(path, size, make):
            return to
        return None

    def file(self, path, to, inode, size):
        if inode in self.names and self.second_name(to, self.names[inode]):
            self.files += 1
        elif self.copy(path, to, size):
            self.names.setdefault(inode, to)
            self.files += 1

    def second_name(self, to, first):
        """Whether a further name of a file that came out is there, as a link to it."""
        try:
            if os.path.lexists(to) and os.path.samestat(os.lstat(to), os.lstat(first)):
                self.there += 1
            elif self.is_other(to):
                return False
            else:
                self.place(lambda part: os.link(first, part), to)
        except OSError as why:
            check_room(why)
            return False
        return True

    def copy(self, path, to, size):
        """Whether a file came out, whole, or was there. It is named where it didn't."""
        try:
            arrival = self.twice(lambda: self.arrive(path, to, size))
        except Ended as why:
            self.fail(path, size, why)
            return False
        if arrival is None:
            self.lose(path, size, to)
            return False
        with contextlib.closing(arrival):
            if arrival.made is not None and self.is_other(to):
                self.fail(path, size, OTHER_SPELLING)
                return False
            if not self.attempt(path, size, arrival.finish):
                return False
        if arrival.made is not None:
            self.bytes += arrival.count
        else:
            self.there += 1
            self.compared += arrival.count
        return True

    def link(self, path, to, inode, size):
        try:
            target = self.twice(lambda: self.volume.target(inode, size))
        except Ended as why:
            self.fail(path, size, why)
            return
        if target is None or b"\0" in target:
            self.lose(path, size, to)
        elif os.path.islink(to) and os.readlink(to) == target:
            self.there += 1
            self.files += 1
        elif self.is_other(to):
            self.fail(path, size, OTHER_SPELLING)
        elif self.attempt(path, size, lambda: self.place(lambda part: os.symlink(target, part), to), f"a link to {spelled(target)}: "):
            self.files += 1


def status_of(program, images, teller):
    """The bytes of a block of the saved array; the program says why where there is none."""
    teller.clear()
    ran = subprocess.run([program, "status"], stdout=subprocess.PIPE, cwd=images, check=False)
    words = ran.stdout.split()
    if ran.returncode or words[:1] != [b"array"]:
        teller.warn(f"`{program} status` in {images} ended with status {ran.returncode}: {ran.stdout.decode(errors='replace').strip()}")
        sys.exit(2)
    return int(words[1])


def holds(folder, other):
    """Whether a folder is another one, or has it in it."""
    folder, other = os.path.realpath(folder), os.path.realpath(other)
    return os.path.commonpath([folder, other]) == folder


def bring(program, images, out, teller, tree):
    """The status of a rescue that could be tried."""
    with to_be_opened(program, images, out, teller) as folder:
        block = status_of(program, folder, teller)
        with contextlib.closing(Session(program, folder, teller)) as session:
            os.makedirs(out, exist_ok=True)
            rescue = Rescue(session, out, block, teller, tree)
            try:
                rescue.run()
            except BrokenPipeError:
                raise
            except OSError as why:
                raise Stopped(why) from why
    teller.tell(rescue.summary())
    return 1 if any(rescue.told.values()) else 0


def main():
    parser = argparse.ArgumentParser(description="brings every file that is still given out of a saved array into a folder")
    parser.add_argument("images", help="the folder with the member images, which are only read")
    parser.add_argument("out", help="the folder to bring the files to")
    parser.add_argument("--program", default="dgraid")
    parser.add_argument("--tree", type=argparse.FileType("rb"), help="what the event `tree` printed on a good day")
    args = parser.parse_args()
    program = os.path.abspath(args.program) if os.sep in args.program else args.program
    if not os.path.isdir(args.images):
        parser.error(f"{args.images} is no folder")
    if holds(args.out, args.images):
        parser.error(f"{args.out} has the images in it")
    for number in (signal.SIGTERM, signal.SIGHUP):
        if signal.getsignal(number) is signal.SIG_DFL:
            signal.signal(number, signal.default_int_handler)
    teller = Teller()
    try:
        sys.exit(bring(program, args.images, args.out, teller, entries_in(args.tree or [])))
    except Stopped as why:
        teller.warn(f"{why}; a further run goes on")
        sys.exit(3)
    except KeyboardInterrupt:
        teller.warn("stopped; a further run goes on")
        sys.exit(130)
    except BrokenPipeError:
        # nobody reads what is told; nor is there anyone for what is left in the buffer
        os.dup2(os.open(os.devnull, os.O_WRONLY), sys.stdout.fileno())
        sys.exit(3)
    except (OSError, Ended) as why:
        teller.warn(why)
        sys.exit(2)


if __name__ == "__main__":
    main()
