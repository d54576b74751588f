"""The files of rows as lists of steps: commands with their input and the output that is wanted, and what is done to the members between them."""
import collections
import itertools
import re
import signal

from drills import report
from volumes import volume

Row = collections.namedtuple("Row", "name statements")
Part = collections.namedtuple("Part", "number what input wanted")


class Mistake(Exception):
    """A file of rows that can't be read."""


class Run:
    """A command of the program: its words, its input and output part by part, and the status and the lines of standard error that are wanted."""

    def __init__(self, number, text):
        words, _, status = (" " + text).partition(" -> ")
        self.number, self.what = number, "run" + words.rstrip(" ")
        self.words = [spelled(word) for word in re.findall("(?:<[^<>]*>|[^ <])+", words)]
        self.status, self.parts, self.limits = int(status or 0), [Part(number, self.what, b"", b"")], {}
        self.told, self.ignored = [], []

    def add(self, number, what, given, wanted):
        self.parts.append(Part(number, what, given, wanted))

    def add_wanted(self, data):
        last = self.parts[-1]
        self.parts[-1] = last._replace(wanted=last.wanted + data)

    def input(self):
        return b"".join(part.input for part in self.parts)

    def stages(self):
        """The parts between two limits on the length of files, each with the limit before it."""
        bounds = [0, *sorted(self.limits), len(self.parts)]
        return [(self.limits.get(at), self.parts[at:end]) for at, end in zip(bounds, bounds[1:])]


class Members:
    """What is done to image files, or seen of them."""

    def __init__(self, number, text):
        self.number, self.words = number, text.split(" ")


def spelled(text):
    """The bytes of a text: `<0a>` is a byte, `<ab x 9>` a text nine times, `<>` nothing."""
    data, at = b"", 0
    for found in re.finditer(r"<(?:([0-9a-f]{2})|([^<> ]+) x ([0-9]+)|)>", text):
        data += text[at:found.start()].encode()
        byte, again, count = found.groups()
        data += bytes.fromhex(byte) if byte else again.encode() * int(count) if again else b""
        at = found.end()
    return data + text[at:].encode()


def each_of(text):
    """The lines that a text stands for: lines have ` ; ` between them, and `[01]` is each of these characters in turn, the last such place first."""
    lines = []
    for line in text.split(" ; "):
        places = [part[1:-1] if part.startswith("[") else [part] for part in re.findall(r"\[[^\[\]]+\]|[^\[\]]+", line)]
        lines += map("".join, itertools.product(*places))
    return lines


def read_rows(path):
    """The rows of a file, one for each line of a row's table."""
    rows, statements, columns, values = [], None, [], []
    with open(path, encoding="utf-8") as file:
        lines = [(number, line.strip()) for number, line in enumerate(file, 1)]
    for number, line in [*lines, (len(lines) + 1, "row")]:
        word, _, rest = line.partition(" ")
        if word == "row":
            rows += expand(statements, columns, values)
            statements, columns, values = [(number, rest)], [], []
        elif word == "with":
            columns = rest.split(" ")
        elif word == "|":
            values.append([value.strip() for value in rest.split("|")])
        elif line and word != "#":
            if statements is None:
                raise Mistake(f"{path}:{number}: no row yet")
            statements.append((number, line))
    return rows


def expand(statements, columns, values):
    """A row as often as its table has lines, each with the values of one line."""
    if statements is None:
        return []
    rows = []
    for row in values or [[]]:
        if len(row) != len(columns):
            raise Mistake(f"line {statements[0][0]}: a table's line has {len(row)} values")
        filled = []
        for number, text in statements:
            for column, value in zip(columns, row):
                text = text.replace("{" + column + "}", value)
            filled.append((number, text))
        name = filled[0][1] + (": " + " | ".join(row) if row else "")
        rows.append(Row(name, filled[1:]))
    return rows


class Reader:
    """Makes the steps of a row from its statements."""

    def __init__(self):
        self.images, self.steps = {}, []

    def image(self, name):
        return self.images.get(name) or volume(name)

    def read(self, number, text):
        word, _, rest = text.partition(" ")
        run = self.steps[-1] if self.steps and isinstance(self.steps[-1], Run) else None
        if word == "image":
            self.make_image(rest)
        elif word == "run":
            self.steps.append(Run(number, rest))
        elif word == "members":
            self.steps.append(Members(number, rest))
        elif run is None:
            raise Mistake(f"line {number}: no command yet")
        elif word == "limit":
            run.limits[len(run.parts)] = int(rest)
        elif word == "ignore":
            run.ignored.append(signal.Signals[rest])
        elif word == "!":
            run.told += each_of(rest)
        elif word == "=>":
            run.add_wanted(replies(rest))
        elif word == "=":
            run.add_wanted(spelled(rest))
        elif word == "*":
            name, *words = rest.split(" ")
            getattr(self, "do_" + name)(run, number, *words)
        else:
            self.read_event(run, number, text)

    def read_event(self, run, number, text):
        event, _, reply = text.partition(" => ")
        given = spelled(event.replace("<end>", "")) + (b"" if event.endswith("<end>") else b"\n")
        run.add(number, event, given, replies(reply) if reply else b"")

    def make_image(self, text):
        name, _, rest = text.partition(" = ")
        base, _, edits = rest.partition(": ")
        made = self.image(base).copy()
        for edit in edits.split("; ") if edits else []:
            made.edit(edit)
        self.images[name] = made

    def write(self, run, number, what, image, blocks):
        run.add(number, what, writes(image, blocks), b"ok\n" * len(blocks))

    # short words for many events

    def do_up(self, run, number, name):
        """The blocks that aren't all zero, ascending."""
        image = self.image(name)
        self.write(run, number, f"* up {name}", image, in_order(image, "up"))

    def do_late(self, run, number, name):
        """The data of groups ascending, and then all others descending."""
        image = self.image(name)
        self.write(run, number, f"* late {name}", image, in_order(image, "late"))

    def do_blocks(self, run, number, name, *blocks):
        self.write(run, number, f"* blocks {name}", self.image(name), [int(block) for block in blocks])

    def do_all(self, run, number, name):
        """All blocks, ascending, those of zeros too."""
        image = self.image(name)
        self.write(run, number, f"* all {name}", image, range(image.f["size"]))

    def do_rest(self, run, number, name, end):
        """The blocks of zeros below an end."""
        image = self.image(name)
        written = set(image.written())
        self.write(run, number, f"* rest {name} {end}", image, [block for block in range(int(end)) if block not in written])

    def do_lose(self, run, number, *boundaries):
        """Both members of each boundary fail."""
        for boundary in boundaries:
            if boundary != "-":
                run.add(number, f"fail {boundary} 0, fail {boundary} 1", f"fail {boundary} 0\nfail {boundary} 1\n".encode(), b"ok\nok\n")

    def do_given(self, run, number, name, *paths):
        """Files that are given byte for byte."""
        image = self.image(name)
        for path in paths:
            data, l = self.data(name, path), image.spec.l
            lines = [b"bytes " + data[at:at + l].hex().encode() + b"\n" for at in range(0, len(data), l)]
            run.add(number, f"cat {path}", f"cat {path}\n".encode(), b"".join(lines) + b"end %d\n" % len(data))

    def do_reads(self, run, number, name, *blocks):
        """Blocks that are read as they stand in the image."""
        image = self.image(name)
        for block in map(int, blocks):
            run.add(number, f"read {block}", b"read %d\n" % block, b"data " + hexed(image.block(block)) + b"\n")

    def do_lines(self, run, _, name, path, count):
        """The first lines of a file, as further output."""
        data, l = self.data(name, path), self.image(name).spec.l
        for at in range(0, int(count) * l, l):
            run.add_wanted(b"bytes " + data[at:at + l].hex().encode() + b"\n")

    def do_repeat(self, run, _, count, *text):
        """The same line of output so many times."""
        run.add_wanted(replies(" ".join(text)) * int(count))

    def do_unavailable(self, run, number, *paths):
        for path in paths:
            run.add(number, f"cat {path}", f"cat {path}\n".encode(), b"unavailable\n")

    def data(self, name, path):
        return next(item.data for item in self.image(name).items if item.path == path)

    def files(self, name):
        image = self.image(name)
        return [(item.path, image.owns_written_block(item.path)) for item in image.items if item.kind == "file"]

    def do_files(self, run, number, name, answer):
        """Each file is given; or each with a written block is unavailable, and all others are given."""
        for path, is_owner in self.files(name):
            if is_owner and answer == "unavailable":
                self.do_unavailable(run, number, path)
            else:
                self.do_given(run, number, name, path)

    def do_homes(self, run, number, name, home):
        for path, is_owner in self.files(name):
            run.add(number, f"home {path}", f"home {path}\n".encode(), f"home {home if is_owner else 'none'}\n".encode())

    def nodes(self, name, path):
        """The items of a directory in order, each with its inode, letter and size as a line of a listing has them."""
        image = self.image(name)
        for item in image.items:
            above, _, last = item.path.rpartition("/")
            if (above or "/") == path:
                size = len(image.directory(item.path)) if item.kind == "dir" else len(item.data)
                yield item, f"{image.inodes[item.path]} {item.kind[0] if item.kind != 'file' else 'r'} {size} {last}"

    def do_listed(self, run, number, name, path):
        """The `ls` of a directory."""
        image, parent = self.image(name), path.rpartition("/")[0] or "/"
        lines = [f"entry {image.inodes[at]} d {len(image.directory(at))} {dots}" for at, dots in ((path, "."), (parent, ".."))]
        lines += [f"entry {node}" for _, node in self.nodes(name, path)]
        run.add(number, f"ls {path}", f"ls {path}\n".encode(), "".join(line + "\n" for line in [*lines, f"end {len(lines)}"]).encode())

    def do_tree(self, run, number, name):
        """The `tree` of a volume, depth first."""
        lines = []

        def go(path, depth):
            for item, node in self.nodes(name, path):
                lines.append(f"node {depth} {node}")
                if item.kind == "dir":
                    go(item.path, depth + 1)

        go("/", 1)
        run.add(number, "tree", b"tree\n", "".join(line + "\n" for line in [*lines, f"end {len(lines)}"]).encode())

    # images as input, and their traces

    def do_bytes(self, run, number, name, count=None):
        """The bytes of an image as input, so many of them or all."""
        data = bytes(self.image(name).bytes)
        run.add(number, f"* bytes {name}", data[:int(count)] if count else data, b"")

    def do_zeros(self, run, number, count):
        """So many zero bytes as input."""
        run.add(number, f"* zeros {count}", bytes(int(count)), b"")

    def do_writes(self, run, _, name, order, count):
        """The lines that write the blocks of an image that aren't all zero, so many, as further output."""
        blocks = in_order(self.image(name), order)
        if len(blocks) != int(count):
            raise ValueError(f"{len(blocks)} blocks")
        run.add_wanted(writes(self.image(name), blocks))

    def do_drill(self, run, _, seed, count):
        """All that a drill prints."""
        run.add_wanted(report(int(seed), int(count)))

    def do_raw(self, run, number, name, path):
        """The bytes of a file as the command `cat` writes them."""
        run.add_wanted(self.data(name, path))


def in_order(image, order):
    """The blocks that aren't all zero, in the order of a trace."""
    blocks = image.written()
    if order == "up":
        return blocks
    if order == "down":
        return blocks[::-1]
    data = [block for block in blocks if image.group_of(block) is not None]
    return data + [block for block in reversed(blocks) if image.group_of(block) is None]


def writes(image, blocks):
    return b"".join(b"write %d %s\n" % (block, hexed(image.block(block))) for block in blocks)


def hexed(data):
    return data.rstrip(b"\0").hex().encode() or b"-"


def replies(text):
    return b"".join(spelled(line) + b"\n" for line in text.split(" ; "))


def steps_of(row):
    reader = Reader()
    for number, text in row.statements:
        try:
            reader.read(number, text)
        except (AttributeError, KeyError, StopIteration, TypeError, ValueError) as error:
            raise Mistake(f"line {number}: {text}: {error!r}") from error
    return reader
