#!/usr/bin/env python3
"""A picture of an array, from what the program says of it.

    docs/pictures/picture.py ask PROGRAM FOLDER >REPLIES      asks about the settled array that is saved in a folder
    docs/pictures/picture.py draw REPLIES [LOST..] >SVG       draws it; these boundaries are drawn as lost

The replies are those of the command `status` and of the events `tree`, `home` for each file and `who` for each block, each
behind a line `$ ` with the question. A file's blocks are counted by `who`, so blocks of it that were never written count.
"""
import re
import subprocess
import sys
from collections import Counter
from xml.sax.saxutils import escape

COLUMN, GAP, LEFT, TOP = 168, 28, 24, 60
SLOTS, MEMBER, LINE, MOST = 300, 44, 15, 14
FREE, NAMING, LOST = "#f4f4f4", "#9a9a9a", "#cb181d"


# asking


def run(program, folder, words, trace=""):
    done = subprocess.run([program, *words], input=trace.encode(), cwd=folder, stdout=subprocess.PIPE, check=True)
    return done.stdout.decode().splitlines()


def paths_in(nodes):
    """The path of each entry of `tree`, with its inode and its kind."""
    names = []
    for node in nodes:
        _, depth, inode, kind, size, name = node.split(" ")
        names = names[:int(depth) - 1] + [name]
        yield "/" + "/".join(names), int(inode), kind, int(size)


def ask(program, folder):
    """Prints the questions and their replies."""
    status = run(program, folder, ["status"])
    nodes = run(program, folder, ["resume"], "tree\n")
    files = [path for path, _, kind, _ in paths_in(nodes[:-1]) if kind == "r"]
    blocks = int(status[0].split()[2])
    questions = [f"home {path}" for path in files] + [f"who {b}" for b in range(blocks)]
    replies = run(program, folder, ["resume"], "".join(question + "\n" for question in questions))
    print("\n".join(["$ status", *status, "$ tree", *nodes]))
    for question, reply in zip(questions, replies, strict=True):
        print(f"$ {question}\n{reply}")


# what the replies say


class Told:
    """The array that some replies speak of."""

    def __init__(self, path):
        replies = self.replies_in(path)
        status = replies.pop("status")
        _, self.l, self.n, self.b, self.k, self.m = status[0].split(" ")
        self.b, self.k, self.m = int(self.b), int(self.k), int(self.m)
        self.phase = status[1].split(" ")[1]
        self.states, self.used = [], []
        for line in status[2:]:
            words = line.split(" ")
            self.states.append(words[2:-1])
            self.used.append(int(words[-1]))
        self.files = [(path, inode, size) for path, inode, kind, size in paths_in(replies.pop("tree")[:-1]) if kind == "r"]
        self.homes, self.copies, self.blocks = {}, {}, Counter()
        for question, reply in replies.items():
            self.take(*question.split(" ", 1), reply[0].split(" "))

    @staticmethod
    def replies_in(path):
        replies, lines = {}, None
        with open(path) as text:
            for line in text.read().splitlines():
                if line.startswith("$ "):
                    lines = replies.setdefault(line[2:], [])
                else:
                    lines.append(line)
        return replies

    def take(self, event, about, reply):
        if event == "home" and reply[:2] != ["home", "none"]:
            self.homes[about] = int(reply[1])
            if len(reply) > 3:
                self.copies[about] = int(reply[3])
        if event == "who" and reply[0] == "inode":
            self.blocks[int(reply[1])] += 1

    def on(self, s):
        """The files on a boundary, each with whether it is the home."""
        for path, inode, size in self.files:
            if s in (self.homes.get(path), self.copies.get(path)):
                yield path, self.blocks[inode], self.homes[path] == s

    def survives(self, path, lost):
        return path not in self.homes or self.homes[path] not in lost or self.copies.get(path, self.homes[path]) not in lost


# drawing


def colour(path, files):
    """Colours that differ as much as they can."""
    return f"hsl({files.index(path) * 137.5 % 360:.0f},55%,62%)"


def text(x, y, words, size=11, anchor="start", fill="#222", **more):
    style = "".join(f' {name.replace("_", "-")}="{value}"' for name, value in more.items())
    return f'<text x="{x}" y="{y}" font-size="{size}" text-anchor="{anchor}" fill="{fill}"{style}>{escape(words)}</text>'


def rect(x, y, width, height, fill, stroke="#555", **more):
    style = "".join(f' {name.replace("_", "-")}="{value}"' for name, value in more.items())
    return f'<rect x="{x}" y="{y:.1f}" width="{width}" height="{height:.1f}" fill="{fill}" stroke="{stroke}"{style}/>'


def members(x, s, state, is_lost):
    """The two members of a boundary; one that isn't good is hatched."""
    good = {"both": (0, 1), "lost": ()}.get(state[0], (int(state[1]),) if len(state) > 1 else ())
    width = (COLUMN - 8) / 2
    parts = []
    for j in (0, 1):
        at = x + j * (width + 8)
        well = j in good and not is_lost
        parts.append(rect(at, TOP, width, MEMBER, "#dfeee0" if well else "url(#out)", "#555" if well else LOST, rx=5))
        parts.append(text(at + width / 2, TOP + 19, f"member {s:02}-{j}", 10, "middle"))
        words = "good" if well else "out" if state[0] != "filling" or is_lost else f"filling {state[2]}"
        parts.append(text(at + width / 2, TOP + 34, words, 10, "middle", fill="#222" if well else LOST))
    return parts


def slots(x, told, s, order):
    """The slots of a boundary: those of the naming, of files that are at home, and of copies."""
    top = TOP + MEMBER + 12
    scale = SLOTS / told.k
    parts = [rect(x, top, COLUMN, SLOTS, FREE)]
    here = list(told.on(s))
    naming = max(0, told.used[s] - sum(count for _, count, _ in here))
    y = top + SLOTS
    for path, count, is_home in [("", naming, True), *here]:
        height = count * scale
        y -= height
        parts.append(rect(x, y, COLUMN, height, NAMING if not path else colour(path, order), "white", stroke_width=0.5))
        if not is_home:
            parts.append(rect(x, y, COLUMN, height, "url(#copy)", "none"))
        words = path or "naming"
        if height >= 12:
            parts.append(text(x + COLUMN / 2, round(y + height / 2 + 4, 1), words if is_home else f"copy of {words}", 10, "middle"))
    parts.append(text(x + COLUMN / 2, top + SLOTS + 15, f"{told.used[s]} of {told.k} slots used", 11, "middle"))
    return parts


def names(x, told, s, order, lost):
    """The files on a boundary by name; what a loss takes away is struck."""
    y = TOP + MEMBER + SLOTS + 48
    parts = []
    here = list(told.on(s))
    for path, count, is_home in here[:MOST]:
        gone = s in lost and not told.survives(path, lost)
        parts.append(rect(x, y - 9, 9, 9, colour(path, order), "none"))
        words = f"{path if len(path) < 17 else '..' + path[-14:]} ({count})" if is_home else f"copy of {path}"
        more = {"text_decoration": "line-through"} if gone else {}
        parts.append(text(x + 14, y, words, 11, fill=LOST if gone else "#222", **more))
        y += LINE
    if len(here) > MOST:
        parts.append(text(x + 14, y, f"and {len(here) - MOST} more"))
    return parts


def summary(told, lost):
    given = [(path, size) for path, _, size in told.files if told.survives(path, lost)]
    count, volume = len(told.files), sum(size for _, _, size in told.files)
    few = "and all directories" if len(lost) < told.m else f"but {told.m} boundaries or more are lost, so directories may be, too"
    return f"Given: {len(given)} of {count} files, {sum(size for _, size in given):,} of {volume:,} bytes, {few}."


def draw(told, lost):
    order = [path for path, _, _ in told.files]
    width = 2 * LEFT + told.b * (COLUMN + GAP) - GAP
    longest = max(min(MOST + 1, len(list(told.on(s)))) for s in range(told.b))
    height = TOP + MEMBER + SLOTS + 60 + longest * LINE + 30
    words = f"{told.b} boundaries of two members, {told.k} slots of {told.l} bytes; {told.phase}; {told.m} places of a naming block"
    parts = [
        f'<svg xmlns="http://www.w3.org/2000/svg" width="{width}" height="{height}" font-family="sans-serif">',
        '<defs><pattern id="copy" width="6" height="6" patternUnits="userSpaceOnUse"><path d="M0 6L6 0" stroke="white"/></pattern>'
        '<pattern id="out" width="6" height="6" patternUnits="userSpaceOnUse"><rect width="6" height="6" fill="white"/>'
        f'<path d="M0 0L6 6" stroke="{LOST}" stroke-width="0.7"/></pattern></defs>',
        f'<rect width="{width}" height="{height}" fill="white"/>', text(LEFT, 20, words, 12),
    ]
    for s in range(told.b):
        x = LEFT + s * (COLUMN + GAP)
        is_lost = s in lost or told.states[s][0] == "lost"
        parts.append(text(x, TOP - 10, f"boundary {s}" + (" is lost" if is_lost else ""), 13, fill=LOST if is_lost else "#222"))
        body = slots(x, told, s, order)
        parts += members(x, s, told.states[s], is_lost)
        parts += [f'<g opacity="{0.25 if is_lost else 1}">', *body, "</g>", *names(x, told, s, order, lost)]
    if lost:
        parts.append(text(LEFT, height - 14, summary(told, lost), 13))
    return "\n".join([*parts, "</svg>"])


def main():
    words = sys.argv[1:]
    if len(words) == 3 and words[0] == "ask":
        ask(words[1], words[2])
    elif len(words) >= 2 and words[0] == "draw" and all(re.fullmatch("[0-9]+", word) for word in words[2:]):
        print(draw(Told(words[1]), {int(word) for word in words[2:]}))
    else:
        sys.exit(__doc__)


if __name__ == "__main__":
    main()
