#!/usr/bin/env python3
"""What a loss takes away: the program on one volume, whose boundaries are lost one after another.

    docs/study/study.py [--program PROGRAM] [--orders N] [--seed S]
    docs/study/study.py --draw                 draws the rows that are there

For B = 4, 8 and 16 boundaries and m = 1 to 4 places of a naming block the volume is written to an array and settled. Then the
boundaries are lost in N random orders, each order in an array of its own, and before the first and after each loss each file and
each directory is asked for by its path. The same is done with an array that isn't settled: there each block stands on boundary
b mod B, as on a striped mirror that would still be read block by block.

Each byte that is given is compared with the file's. The rows go to docs/study/rows.csv, the figures to docs/study/*.svg.
"""
import argparse
import csv
import os
import random
import subprocess
import tempfile

from home_folder import BLOCK, BLOCKS, Study

HERE = os.path.dirname(os.path.abspath(__file__))
PROGRAM = os.path.join(HERE, "..", "..", "crates", "dgraid", "out", "dgraid")
BOUNDARIES = (4, 8, 16)
PLACES = (1, 2, 3, 4)
COLUMNS = "b m k lost files bytes root directories".split()


def replies_of(lines):
    """The replies in some lines, one after another: the last line of each, and the lines before it."""
    before = []
    for line in lines:
        word = line.split(b" ", 1)[0]
        if word in (b"bytes", b"entry", b"node", b"block"):
            before.append(line)
        else:
            yield line, before
            before = []


def replay(program, trace):
    with tempfile.TemporaryDirectory() as folder:
        done = subprocess.run([program, "replay"], input=trace.encode(), stdout=subprocess.PIPE, cwd=folder, check=True)
    return done.stdout.split(b"\n")[:-1]


def asked(study):
    return [f"cat {path}" for path in study.files] + [f"ls {path}" for path in study.directories]


def given(study, replies):
    """What the replies to these questions give: files, their bytes, `ls /`, and directories."""
    files = volume = 0
    for path, data in study.files.items():
        end, before = next(replies)
        if end != b"unavailable":
            read = bytes.fromhex(b"".join(line[6:] for line in before).decode())
            assert end == b"end %d" % len(data) and read == data, path
            files += 1
            volume += len(data)
    answers = [next(replies)[0].startswith(b"end ") for _ in study.directories]
    return files, volume, int(answers[0]), sum(answers)


def lose(program, study, b, m, order):
    """For each k what is still given once the first k boundaries of the order are lost. With m = 0 the array isn't settled."""
    head = f"array {BLOCK} {BLOCKS} {b} {2 * BLOCKS // b} {m or 1}\n" + study.writes()
    settle = ["settle"] if m else []
    events = settle + asked(study)
    for s in order:
        events += [f"fail {s} 0", f"fail {s} 1", *asked(study)]
    lines = replay(program, head + "\n".join(events) + "\n")
    first = 1 + len(study.blocks)
    assert lines[:first] == [b"ok"] * first, "a write was refused"
    assert lines[first:first + len(settle)] == [b"settled"] * len(settle), lines[first]
    replies = replies_of(lines[first + len(settle):])
    for k in range(b + 1):
        if k:
            assert [next(replies)[0], next(replies)[0]] == [b"ok", b"ok"], "a loss was refused"
        yield k, " ".join(map(str, order[:k])), *given(study, replies)


def measure(program, study, orders, seed):
    for b in BOUNDARIES:
        rng = random.Random(f"{seed} {b}")
        drawn = [rng.sample(range(b), b) for _ in range(orders)]
        for m in (0, *PLACES):
            for order in drawn:
                for row in lose(program, study, b, m, order):
                    yield b, m, *row
            print(f"B = {b}, m = {m}: {orders} orders", flush=True)


# figures

WIDTH, HEIGHT, LEFT, TOP, GAP = 300, 200, 52, 46, 46
COLOURS = {1: "#9ecae1", 2: "#4292c6", 3: "#2171b5", 4: "#08306b"}


def mean(values):
    values = list(values)
    return sum(values) / len(values)


def curve(rows, b, m, value):
    """The mean share over the orders, for each k."""
    here = [row for row in rows if row["b"] == b and row["m"] == m]
    return [mean(value(row) for row in here if row["k"] == k) for k in range(b + 1)]


def text(x, y, words, size=11, anchor="middle", **more):
    style = "".join(f' {name}="{value}"' for name, value in more.items())
    return f'<text x="{x:.1f}" y="{y:.1f}" font-size="{size}" text-anchor="{anchor}"{style}>{words}</text>'


def line(points, colour, dash="", width=2):
    places = " ".join(f"{x:.1f},{y:.1f}" for x, y in points)
    return f'<polyline points="{places}" fill="none" stroke="{colour}" stroke-width="{width}" stroke-dasharray="{dash}"/>'


def panel(count, at, curves, unit="boundaries", shown=None):
    """One diagram: the shares over how many of so many boundaries, or disks, are lost. A curve is its shares, colour, dashes and width."""
    shown = shown or count

    def place(k, share):
        return at + WIDTH * k / shown, TOP + HEIGHT * (1 - share)

    parts = [f'<rect x="{at}" y="{TOP}" width="{WIDTH}" height="{HEIGHT}" fill="none" stroke="#888"/>']
    for share in (0, 0.25, 0.5, 0.75, 1):
        parts.append(text(at - 6, place(0, share)[1] + 4, f"{share:.0%}", anchor="end"))
        parts.append(line([place(0, share), place(shown, share)], "#ddd", width=1))
    for k in range(0, shown + 1, 1 if shown < 9 else 2):
        parts.append(text(place(k, 0)[0], TOP + HEIGHT + 16, k))
    parts.append(text(at + WIDTH / 2, TOP + HEIGHT + 34, f"lost {unit}"))
    parts.append(text(at + WIDTH / 2, TOP - 10, f"{count} {unit}", 13))
    for shares, colour, dash, width in curves:
        parts.append(line([place(k, share) for k, share in shares], colour, dash, width))
    return parts


MIRROR = ("#cb181d", "", "striped mirror")
ENTRIES = [*((COLOURS[m], "", f"settled, m = {m}") for m in PLACES), ("#fb6a4a", "5,4", "striped mirror, if it were still read"), MIRROR]


def mirror(b):
    """A striped mirror gives all, and nothing once a boundary is lost."""
    return [(0, 1), (0, 0), (b, 0)], MIRROR[0], "", 3


def curves_of(rows, b, value):
    """The curves of one B, by the places of a naming block."""
    drawn = [mirror(b), (enumerate(curve(rows, b, 0, value)), "#fb6a4a", "5,4", 2)]
    return drawn + [(enumerate(curve(rows, b, m, value)), COLOURS[m], "", 2) for m in PLACES]


def legend(y, entries):
    parts, x = [], LEFT
    for colour, dash, words in entries:
        parts += [line([(x, y), (x + 26, y)], colour, dash, 3), text(x + 32, y + 4, words, anchor="start")]
        x += 50 + 6.4 * len(words)
    return parts


def figure(title, name, curves, entries, counts=BOUNDARIES, **more):
    """A figure with a panel for each B, or each number of disks, of the curves that this has."""
    width = LEFT + len(counts) * (WIDTH + GAP)
    height = TOP + HEIGHT + 76
    parts = [f'<svg xmlns="http://www.w3.org/2000/svg" width="{width}" height="{height}" font-family="sans-serif">',
             f'<rect width="{width}" height="{height}" fill="white"/>', text(LEFT, 18, title, 14, "start")]
    for i, count in enumerate(counts):
        parts += panel(count, LEFT + i * (WIDTH + GAP), curves(count), **more)
    parts += legend(height - 16, entries) + ["</svg>"]
    with open(os.path.join(HERE, name), "w") as out:
        out.write("\n".join(parts) + "\n")


def table(rows, study):
    """The shares of files and bytes for each B, m and k, in lines of Markdown."""
    volume = sum(map(len, study.files.values()))
    for b in BOUNDARIES:
        print(f"\n| B = {b}, lost |" + "".join(f" m = {m} |" for m in PLACES) + " unsettled |\n|" + "---|" * (len(PLACES) + 2))
        for k in range(b + 1):
            cells = []
            for m in (*PLACES, 0):
                here = [row for row in rows if (row["b"], row["m"], row["k"]) == (b, m, k)]
                files, given, root = (mean(row[name] for row in here) for name in ("files", "bytes", "root"))
                cells.append(f" {files / len(study.files):.0%}, {given / volume:.0%}, {root:.0%} |")
            print(f"| {k} |" + "".join(cells))


def main():
    parser = argparse.ArgumentParser(description=__doc__, formatter_class=argparse.RawDescriptionHelpFormatter)
    parser.add_argument("--program", default=PROGRAM)
    parser.add_argument("--orders", type=int, default=10)
    parser.add_argument("--seed", type=int, default=1)
    parser.add_argument("--draw", action="store_true", help="draws the rows that are there")
    options = parser.parse_args()
    study = Study(options.seed)
    path = os.path.join(HERE, "rows.csv")
    if not options.draw:
        with open(path, "w", newline="") as out:
            writer = csv.writer(out, lineterminator="\n")
            writer.writerow(COLUMNS)
            writer.writerows(measure(os.path.abspath(options.program), study, options.orders, options.seed))
    with open(path, newline="") as rows_in:
        rows = [{name: value if name == "lost" else int(value) for name, value in row.items()} for row in csv.DictReader(rows_in)]
    count, volume = len(study.files), sum(map(len, study.files.values()))
    drawn = {
        "files": ("Files that are still given", lambda row: row["files"] / count),
        "bytes": ("Bytes that are still given", lambda row: row["bytes"] / volume),
        "directories": ("Directories that are still listed", lambda row: row["directories"] / len(study.directories)),
    }
    for name, (title, value) in drawn.items():
        figure(title, f"{name}.svg", lambda b, value=value: curves_of(rows, b, value), ENTRIES)
    table(rows, study)


if __name__ == "__main__":
    main()
