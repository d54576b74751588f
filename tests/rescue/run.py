#!/usr/bin/env python3
"""Rescues saved volumes of which boundaries are lost, and compares each byte with what was put in.

    tests/rescue/run.py PROGRAM

Volumes of both orders of bytes, with directories in each other, files of all sizes up to two levels of indirect blocks, a hole, an empty file, odd names, a
second name, links that are short and long, and a pipe, stand on settled arrays of four boundaries, which are saved. Of each, none, one, two and three
boundaries are taken away, and `tools/rescue.py` is run over what is left. A file comes out whole and right or is named as lost, and it comes out exactly where
`cat` gives it, as far as directories are listed, and with a tree of before in any case; the images are as before; and a second run, after some of what came out was removed, cut short, changed or left half done, brings the rest.

The same is done over a `safe` array: as it was saved, without a boundary, and as a stop in the middle of its last save leaves it, with one header of this save
committed and the others prepared. There a rescue brings what the whole save has, and writes to no image, also where images lie beside them of which no header
counts.

Then what comes out of a whole array goes to folders that can't have all of it: one without links, one with other things in the way, a full one, one that isn't
a folder of its own. What they can't have is named, and a second run brings it once they can. On a terminal no message is mixed up with the line that tells how
far a rescue is. A member on which a read fails takes nothing else away.
"""
import contextlib
import fcntl
import hashlib
import os
import pty
import random
import re
import shutil
import struct
import subprocess
import sys
import tempfile
import termios

TOP = os.path.dirname(os.path.dirname(os.path.dirname(os.path.abspath(__file__))))
sys.path.insert(0, os.path.join(TOP, "tests", "soak"))

from image import Image, Item, make_geometry  # noqa: E402

RESCUE = os.path.join(TOP, "tools", "rescue.py")
SHAPE = (4, 2000, 3)
BLOCKS = 4000
PREPARED, COMMITTED = 0x50, 0x43
PIPE = "/a/pipe"
# what a run of the script has in place of what it calls
RUN = """
import errno, os, sys
sys.path.insert(0, TOOLS)
import rescue

def denied(*words):
    raise PermissionError(errno.EPERM, "Operation not permitted")

class Full:
    def __init__(self, file):
        self.file = file
    def write(self, data):
        if os.path.getsize(self.file.name) + len(data) > 2000:
            raise OSError(errno.ENOSPC, "No space left on device")
        count = self.file.write(data)
        self.file.flush()
        return count
    def close(self):
        self.file.close()

CHANGES
rescue.main()
"""
NO_LINKS = "os.link = os.symlink = denied"
NO_ROOM = "new_part = rescue.new_part; rescue.new_part = lambda part: Full(new_part(part))"
ALL_PROGRESS = "rescue.INTERVAL = 0"
# a program on whose member 0 each read for one file fails: this file is unavailable then, and all others as long as the run lasts
FAILING = """#!/usr/bin/env python3
import os, subprocess, sys
program, bad = {!r}, {!r}
if sys.argv[1] != "resume":
    os.execv(program, [program, *sys.argv[1:]])
child = subprocess.Popen([program, "resume"], stdin=subprocess.PIPE, stdout=subprocess.PIPE)
is_out = False
for line in sys.stdin.buffer:
    if line == b"cat " + bad + b"\\n" and not is_out:
        is_out = True
        print("member-00-0.img: read: Input/output error", file=sys.stderr, flush=True)
    if is_out and line.startswith(b"cat "):
        print("unavailable", flush=True)
        continue
    child.stdin.write(line)
    child.stdin.flush()
    while True:
        reply = child.stdout.readline()
        sys.stdout.buffer.write(reply)
        sys.stdout.buffer.flush()
        if not reply.startswith((b"bytes ", b"entry ")):
            break
child.stdin.close()
sys.exit(child.wait())
"""


def items_of(rng, has_pipe):
    """What stands on a volume. A second item of an inode is another name of it."""
    data = lambda count: rng.randbytes(count)
    long_file = data(12 * 8192 + 5 * 8192 + 77)
    items = [
        Item(3, 2, b"a", "d"), Item(4, 3, b"b", "d"), Item(5, 4, b"odd \\\xff\x01 name", "r", data(3000)), Item(6, 2, b"empty", "r"),
        Item(7, 2, b"one", "r", data(1)), Item(8, 3, b"block", "r", data(8192)), Item(9, 3, b"long", "r", long_file),
        Item(10, 4, b"hole", "r", data(4 * 8192), holes=(1, 2)), Item(11, 2, b"short", "l", b"a/b"), Item(12, 4, b"far", "l", b"../" * 40 + b"one"),
        Item(8, 4, b"again", "r", b""), Item(19, 2, b".rescue-part", "r", data(300)), Item(13, 3, b"pipe", "p"),
    ][:None if has_pipe else -1]
    items[10].data = items[5].data
    items += [Item(14 + n, 2 + n % 3, b"more%d" % n, "d") for n in range(5)]
    items += [Item(90, 2, b"\xfe" * 255, "d"), Item(91, 90, b"\x80" * 255, "d"), Item(92, 91, b"deep", "r", data(700))]
    items.append(Item(93, 2, b"large", "r", data(5 << 18)))
    return items + [Item(20 + n, (2, 3, 4, 14, 15, 16, 17, 18)[n % 8], b"file%d" % n, "r", data(rng.randrange(1, 20000))) for n in range(60)]


def contents(item):
    """The bytes of a file; a hole reads as zeros."""
    data = bytearray(item.data)
    for n in item.holes:
        data[n * 8192:(n + 1) * 8192] = bytes(len(data[n * 8192:(n + 1) * 8192]))
    return bytes(data)


def path_of(item, items):
    above = next((it for it in items if it.inode == item.parent and it.kind == "d"), None)
    return (path_of(above, items) if above else b"") + b"/" + item.name


def spelled(path):
    return "".join(chr(byte) if 0x21 <= byte <= 0x7E and byte != 0x5C else f"\\x{byte:02x}" for byte in path)


def save(program, folder, order, rng, kind=b"array", has_pipe=True):
    """A saved array with a volume of these items."""
    items = items_of(rng, has_pipe)
    g = make_geometry(order, 1024, 8, 2, 2000, 128)
    image = Image(g, BLOCKS)
    image.add_all(items)
    os.makedirs(folder)
    traced = subprocess.run([program, "trace", "late", *map(str, SHAPE)], input=b"".join(image.blocks), stdout=subprocess.PIPE, check=True).stdout
    trace = kind + traced.removeprefix(b"array") + b"settle\nsave\n"
    ran = subprocess.run([program, "replay"], input=trace, stdout=subprocess.PIPE, cwd=folder, check=True)
    assert ran.stdout.endswith(b"settled\nsaved 1\n"), ran.stdout[-200:]
    return items


def sums(folder):
    return {name: hashlib.sha256(open(os.path.join(folder, name), "rb").read()).hexdigest() for name in sorted(os.listdir(folder))}


def words_of(changes):
    """What a rescue is called by, with some of what it calls exchanged."""
    return [sys.executable, "-c", RUN.replace("TOOLS", repr(os.path.dirname(RESCUE))).replace("CHANGES", changes)] if changes else [sys.executable, RESCUE]


def rescue(program, images, out, told=b"", changes="", more=()):
    """The status of a rescue, and the lines that it prints; it leaves the images as they are."""
    before = sums(images)
    ran = subprocess.run([*words_of(changes), images, out, "--program", program, *more], stdout=subprocess.PIPE, stderr=subprocess.PIPE)
    assert sums(images) == before, "the images changed"
    assert re.fullmatch(told, ran.stderr, re.DOTALL), ran.stderr
    return ran.returncode, ran.stdout.decode().split("\n")[:-1]


def found_in(out):
    """All files and links below a folder: the target of a link, the bytes of a file."""
    found = {}
    for folder, _, _ in os.walk(os.fsencode(out)):
        for name in os.listdir(folder):
            at = os.path.join(folder, name)
            path = b"/" + os.path.relpath(at, os.fsencode(out))
            if os.path.islink(at):
                found[path] = os.readlink(at)
            elif os.path.isfile(at):
                found[path] = open(at, "rb").read()
    return found


def told_in(lines):
    """What each line but the last one says of a path, by its word."""
    told = {word: {} for word in ("lost", "unlisted", "skipped", "failed")}
    for line in lines[:-1]:
        word, path, rest = line.split(" ", 2)
        told[word][path] = rest
    return told


def given_by(program, images, items):
    """The paths of files that `cat` gives."""
    words = [spelled(path_of(item, items)) for item in items if item.kind == "r"]
    asked = "".join(f"cat {word}\n" for word in words).encode()
    ran = subprocess.run([program, "resume"], input=asked, stdout=subprocess.PIPE, cwd=images, check=True)
    ends = [line for line in ran.stdout.split(b"\n")[:-1] if not line.startswith(b"bytes ")]
    assert len(ends) == len(words)
    return {word for word, end in zip(words, ends) if end.startswith(b"end ")}


def check(program, images, out, items, status, lines):
    """Whether all that came out is right, and all else is told; what came out, and what is told."""
    found, told, given = found_in(out), told_in(lines), given_by(program, images, items)
    wanted = {path_of(item, items): item for item in items if item.kind in "rl"}
    assert set(found) <= set(wanted), set(found) - set(wanted)
    unlisted = [path.rstrip("/") for path in told["unlisted"]]
    for path, item in wanted.items():
        word = spelled(path)
        below = any(word.startswith(f"{it}/") for it in unlisted)
        if path in found:
            assert found[path] == contents(item), path
            assert word not in told["lost"], word
        else:
            assert told["lost"].get(word) == str(len(item.data)) or below, word
        if item.kind == "r" and not below:
            assert (word in given) == (path in found), word
    has_pipe = any(item.kind == "p" for item in items) and not any(PIPE.startswith(f"{it}/") for it in unlisted)
    assert told["skipped"] == ({PIPE: "a file of kind p"} if has_pipe else {}) and not told["failed"], lines
    assert status == any(told.values()), (status, lines)
    counts = re.fullmatch(r"(\d+) files \(\d+ of them were there\), \d+ bytes brought; (\d+) lost, (\d+) bytes(.*)", lines[-1])
    assert counts and int(counts[1]) == len(found) and int(counts[2]) == len(told["lost"]), lines[-1]
    assert int(counts[3]) == sum(map(int, told["lost"].values())), lines[-1]
    assert counts[4] == "".join(f", {len(told[word])} {word}" for word in ("unlisted", "skipped") if told[word]), lines[-1]
    return found, told


def again(program, images, out, items, found, told, rng):
    """A run over what an earlier one left half done, or another one left there, brings the same."""
    changed = rng.sample(sorted(found), len(found) // 3)
    for path in changed:
        at, chance = os.fsencode(out) + path, rng.random()
        if os.path.islink(at) or chance < 0.3:
            os.remove(at)
        elif chance < 0.6:
            os.truncate(at, os.path.getsize(at) // 2)
        else:
            # another file of this length, which is no name of what came out
            data = bytes(byte ^ 1 for byte in found[path])
            os.remove(at)
            with open(at, "wb") as file:
                file.write(data)
    # the root has this name without a hyphen, if that is known
    with open(os.path.join(out, ".rescue-part" + "-" * ("/" not in told["unlisted"])), "wb") as file:
        file.write(b"half")
    status, lines = rescue(program, images, out)
    after, _ = check(program, images, out, items, status, lines)
    assert after == found
    there = int(re.search(r"\((\d+) of", lines[-1])[1])
    assert len(found) - len(changed) - 2 <= there <= len(found) - len([path for path in changed if found[path]]) + 2, (lines[-1], len(found), len(changed))


def by_tree(program, whole, images, out, items):
    """With the tree of the whole array each file comes out that is given by its path, and each other one is named. How many came out."""
    tree = f"{out}-tree"
    with open(tree, "wb") as file:
        subprocess.run([program, "resume"], input=b"tree\n", stdout=file, cwd=whole, check=True)
    _, lines = rescue(program, images, f"{out}-by", more=("--tree", tree))
    found, told, given = found_in(f"{out}-by"), told_in(lines), given_by(program, images, items)
    for item in items:
        path = path_of(item, items)
        if path in found:
            assert found[path] == contents(item) and item.kind in "rl" and spelled(path) not in told["lost"], path
        elif item.kind in "rl":
            assert told["lost"][spelled(path)] == str(len(item.data)), path
        if item.kind == "r":
            # of two names of a file one may lead to it, and the other not
            is_given = spelled(path) in given
            assert is_given == (path in found) or not is_given and sum(it.inode == item.inode for it in items) > 1, path
    return len(found)


def take_away(images, boundaries):
    for boundary in boundaries:
        for side in (0, 1):
            os.remove(os.path.join(images, f"member-{boundary:02}-{side}.img"))


def copied(images, to):
    shutil.copytree(images, to)
    return to


def half_commit(images):
    """Puts the images where a stop leaves them once one header of the last save was committed: the others have it prepared."""
    for name in sorted(os.listdir(images))[1:]:
        with open(os.path.join(images, name), "r+b") as file:
            heads = [struct.unpack_from("<8sQB", file.read(512)) for _ in range(2)]
            last = max(save for word, save, _ in heads if word == b"DGRAID-S")
            assert (b"DGRAID-S", last, COMMITTED) in heads, (name, heads)
            file.seek(512 * (last % 2) + 16)
            file.write(bytes([PREPARED]))


def lay_beside(images, later):
    """Lays images of a later save where their headers don't count: under another number, in the place of the other save, and cut short."""
    source = os.path.join(later, "member-00-0.img")
    shutil.copy(source, os.path.join(images, "member-05-1.img"))
    with open(source, "rb") as file:
        front, rest = file.read(1024), file.read()
    for name, header in (("member-06-0.img", front[512:] + front[:512]), ("member-07-0.img", front)):
        member = 2 * int(name[7:9])
        with open(os.path.join(images, name), "wb") as file:
            file.write(b"".join(header[at:at + 17] + bytes([member]) + header[at + 18:at + 512] for at in (0, 512)))
            file.write(rest if member == 12 else rest[:-512])


def rescue_safe(program, top, rng):
    """Rescues from a `safe` array. How many there were, and what is on it."""
    whole = os.path.join(top, "safe")
    items = save(program, whole, "little", rng, b"safe", has_pipe=False)
    subprocess.run([program, "resume"], input=b"write 0 -\nsave\nwrite 0 -\n", stdout=subprocess.DEVNULL, cwd=whole, check=True)
    later = copied(whole, os.path.join(top, "later"))
    for _ in range(2):
        subprocess.run([program, "resume"], input=b"write 0 -\nsave\n", stdout=subprocess.DEVNULL, cwd=later, check=True)
    cases = {"saved": lambda images: None, "lost": lambda images: take_away(images, (1,)), "half": half_commit,
             "beside": lambda images: (half_commit(images), lay_beside(images, later))}
    for name, change in cases.items():
        images, out = copied(whole, os.path.join(top, f"safe-{name}")), os.path.join(top, f"safe-{name}-out")
        change(images)
        for image in os.listdir(images):
            os.chmod(os.path.join(images, image), 0o644 if name == "beside" else 0o444)
        status, lines = rescue(program, images, out)
        if name in ("half", "beside"):
            before = sums(images)
            subprocess.run([program, "resume"], stdin=subprocess.DEVNULL, cwd=images, check=True)
            assert name == "half" or before != sums(images), "an opening of these images has nothing to complete"
        found, told = check(program, images, out, items, status, lines)
        assert bool(told["lost"]) == (name == "lost"), (name, told)
        assert not [it for it in os.listdir(top) if it.startswith(".")], "a folder with copies is left"
        print(f"safe, {name}: {len(found)} files and links came out, {len(told['lost'])} are lost", flush=True)
    return len(cases), items


# ---- folders that can't have all

def all_of(items):
    """What comes out of a whole array, by spelled paths."""
    return {spelled(path_of(item, items)): contents(item) for item in items if item.kind in "rl"}


def came(out):
    return {spelled(path): data for path, data in found_in(out).items()}


def without_links(program, images, out, items):
    """Links are named, with what they lead to; a second name is a copy."""
    wanted, links = all_of(items), {spelled(path_of(item, items)): spelled(item.data) for item in items if item.kind == "l"}
    status, lines = rescue(program, images, out, changes=NO_LINKS)
    assert status == 1 and came(out) == {path: data for path, data in wanted.items() if path not in links}
    assert told_in(lines)["failed"] == {path: f"{len(wanted[path])} a link to {links[path]}: Operation not permitted" for path in links}, lines
    assert lines[-1].endswith(f"0 lost, 0 bytes, {len(links)} failed"), lines[-1]
    status, lines = rescue(program, images, out)
    assert status == 0 and came(out) == wanted and len(lines) == 1, lines


def with_other_things(program, images, out, items):
    """A folder where a file is to be, a file where a folder is to be, and a link that leads out of the folder, where another one is to be."""
    wanted, elsewhere = all_of(items), f"{out}-elsewhere"
    os.makedirs(os.path.join(out, "one", "two"))
    os.makedirs(elsewhere)
    os.symlink(elsewhere, os.path.join(out, "a"))
    with open(os.path.join(out, "more0"), "w") as file:
        file.write("in the way")
    status, lines = rescue(program, images, out)
    away = {path for path in wanted if path == "/one" or path.startswith(("/a/", "/more0/"))}
    found = came(out)
    assert status == 1 and found.pop("/more0") == b"in the way" and found.pop("/a") == os.fsencode(elsewhere) and not os.listdir(elsewhere)
    assert found == {path: data for path, data in wanted.items() if path not in away}
    failed = told_in(lines)["failed"]
    inside = {spelled(path_of(item, items)) for item in items if item.kind == "d"}
    assert {path for path in failed if path not in inside} == away and failed["/a"].endswith("File exists") and failed["/one"].endswith("Is a directory"), failed
    os.removedirs(os.path.join(out, "one", "two"))
    os.remove(os.path.join(out, "a"))
    os.remove(os.path.join(out, "more0"))
    status, lines = rescue(program, images, out)
    assert status == 0 and came(out) == wanted, lines


def on_a_full_disk(program, images, out, items):
    """It ends at the first file that has no room, and a further run goes on."""
    wanted = all_of(items)
    status, lines = rescue(program, images, out, told=rb"rescue: the folder of what comes out is full: No space left on device; a further run goes on\n", changes=NO_ROOM)
    found = came(out)
    assert status == 3 and lines == [] and all(wanted[path] == data for path, data in found.items()) and len(found) < len(wanted), (status, lines)
    status, lines = rescue(program, images, out)
    assert status == 0 and came(out) == wanted, lines


def of_an_older_rescue(program, images, out, items):
    """What another rescue left there isn't taken for what this array gives, and stays where this one gives nothing."""
    wanted = all_of(items)
    rescue(program, images, out)
    less = copied(images, f"{images}-less")
    take_away(less, (2,))
    status, lines = rescue(program, less, out)
    lost = told_in(lines)["lost"]
    assert status == 1 and lost and lost == {path: f"{len(wanted[path])} older" for path in lost} and came(out) == wanted, lines


def that_has_the_images(program, images, out, items):
    """Nothing is done there, nor where there is no array."""
    for folder in (images, os.path.dirname(images)):
        status, lines = rescue(program, images, folder, told=rb".*has the images in it\n")
        assert (status, lines) == (2, []) and os.listdir(os.path.dirname(images)) == ["images"], (status, lines)
    for image in os.listdir(images):
        os.remove(os.path.join(images, image))
    status, lines = rescue(program, images, out, told=rb"no image in this folder\nrescue: .*nostate\n")
    assert (status, lines) == (2, []) and not os.path.exists(out), (status, lines)


def where_a_read_fails(program, images, out, items):
    """The member is out for the rest of a run: another one is begun, and just the file is lost whose own blocks can't be read."""
    wanted, proxy = all_of(items), f"{images}-program"
    with open(proxy, "w") as file:
        file.write(FAILING.format(program, b"/a/block"))
    os.chmod(proxy, 0o755)
    status, lines = rescue(proxy, images, out, told=rb"(member-00-0.img: read: Input/output error\n)+")
    # its other name asks for the same blocks, and here they can be read
    assert status == 1 and list(told_in(lines)["lost"]) == ["/a/block"] and came(out) == {path: data for path, data in wanted.items() if path != "/a/block"}, lines


# ---- on a terminal

def screen_of(data):
    """The lines that a terminal shows, and each state of a line that was shown in between."""
    rows, column, shown = [""], 0, []
    for part in re.findall(rb"\r\n|\r|\n|\x1b\[K|[^\r\n\x1b]+", data):
        if part == b"\x1b[K":
            rows[-1] = rows[-1][:column]
            shown.append(rows[-1])
        elif part == b"\r":
            column = 0
        elif part in (b"\n", b"\r\n"):
            rows.append("")
            column = 0
        else:
            text = part.decode()
            rows[-1] = rows[-1][:column] + text + rows[-1][column + len(text):]
            column += len(text)
    return rows, shown


def shown_on(program, images, out, columns):
    """What a terminal shows in between of a rescue; in the end it shows the lines that another rescue prints."""
    plain = f"{out}-plain"
    status, lines = rescue(program, images, plain)
    master, slave = pty.openpty()
    fcntl.ioctl(slave, termios.TIOCSWINSZ, struct.pack("HHHH", 24, columns, 0, 0))
    child = subprocess.Popen([*words_of(ALL_PROGRESS), images, out, "--program", program], stdin=slave, stdout=slave, stderr=slave)
    os.close(slave)
    data = b""
    with contextlib.suppress(OSError):
        while piece := os.read(master, 1 << 16):
            data += piece
    os.close(master)
    rows, shown = screen_of(data)
    assert child.wait() == status and rows == [*lines, ""] and len(rows) > 2, (rows, lines)
    assert max(map(len, shown)) == (columns or 80) - 1, shown
    assert found_in(out) == found_in(plain)
    return shown


def on_a_terminal(program, images, out, items):
    """Each message stands alone in its line, and how far it is shows within a large file, too."""
    told = subprocess.run([program, "resume"], input=b"settle\nhome /large\n", stdout=subprocess.PIPE, cwd=images, check=True).stdout
    take_away(images, ((int(told.removeprefix(b"settled\nhome ")) + 1) % 4,))
    shown_on(program, images, f"{out}-40", 40)
    shown = shown_on(program, images, out, 0)
    assert len({row for row in shown if "MiB of /large" in row}) > 10, shown[:20]


FOLDERS = {
    "a folder without links": without_links, "a folder with other things": with_other_things, "a full folder": on_a_full_disk,
    "a folder of an older rescue": of_an_older_rescue, "a folder that has the images": that_has_the_images, "images of which a read fails": where_a_read_fails,
    "a terminal": on_a_terminal,
}


def main():
    program = os.path.abspath(sys.argv[1])
    rng, tried = random.Random(1), 0
    with tempfile.TemporaryDirectory() as top:
        for order in ("little", "big"):
            whole = os.path.join(top, order)
            items = save(program, whole, order, rng)
            for count in range(4):
                images, out = copied(whole, os.path.join(top, f"{order}-{count}")), os.path.join(top, f"{order}-{count}-out")
                take_away(images, rng.sample(range(4), count))
                status, lines = rescue(program, images, out)
                found, told = check(program, images, out, items, status, lines)
                lost = told["lost"]
                assert count or not lost
                assert count == 3 or (0 < len(lost) < len(found) if count == 1 else found)
                again(program, images, out, items, found, told, rng)
                print(f"{order}, {count} boundaries lost: {len(found)} files and links came out, {len(lost)} are lost", flush=True)
                tried += 1
                if told["unlisted"]:
                    print(f"and by the tree of before: {by_tree(program, whole, images, out, items)}", flush=True)
        count, items_of_safe = rescue_safe(program, top, rng)
        tried += count
        for name, try_it in FOLDERS.items():
            images, out = copied(os.path.join(top, "safe-saved"), os.path.join(top, name, "images")), os.path.join(top, name, "out")
            try_it(program, images, out, items_of_safe)
            print(f"{name}: as it is to be", flush=True)
            tried += 1
    print(f"{tried} rescues, all right")


if __name__ == "__main__":
    main()
