#!/usr/bin/env python3
"""What helps against losses: going on without the lost boundaries, and copies of the files that were read last.

    docs/study/remedies.py [--program PROGRAM] [--orders N] [--seed S]
    docs/study/remedies.py --draw              draws the rows that are there

The volume and the random orders of study.py, with m = 2 places of a naming block and B = 4, 8 and 16 boundaries.

Going on: after each loss the array is regrouped and settled before the next one, or it isn't, and each file and directory is
asked for. Copies: files are read by a Zipf distribution (the file of rank r with a weight of 1 / r, the ranks drawn by the
seed), 400 reads from the most to the least of them at random; then `diffuse` copies those that were read last, or doesn't, and
boundaries are lost one after another. What counts there is the share of such reads that is still answered: the weights of the
files that are given. Both: after each loss the array is regrouped and settled, the same 400 reads are made of it, and `diffuse` makes new copies.

Each byte that is given is compared with the file's. The rows go to docs/study/remedies.csv, the figures to docs/study/*.svg.
"""
import argparse
import csv
import os
import random

from home_folder import BLOCK, BLOCKS, Study
from study import BOUNDARIES, HERE, PROGRAM, asked, curve, figure, mean, mirror, replay, replies_of, MIRROR

PLACES = 2
READS = 400
COLUMNS = "b way k lost files reads directories answers".split()
COPYING = ("copied", "both")
WAYS = {"left": [], "regrouped": ["regroup", "settle"], "copied": [], "both": ["regroup", "settle"]}
STYLES = {"left": ("#4292c6", "", "lost one after another"), "regrouped": ("#08306b", "", "regrouped and settled after each loss")}
READ_STYLES = {
    "left": ("#4292c6", "", "without copies"), "copied": ("#08306b", "", "with copies of the files read last"),
    "both": ("#31a354", "", "regrouped, and copied anew, after each loss")}


class Zipf:
    """How often each file is read: as the inverse of its rank."""

    def __init__(self, paths, seed):
        self.rng = random.Random(f"{seed} reads")
        ranked = self.rng.sample(paths, len(paths))
        whole = sum(1 / rank for rank in range(1, len(paths) + 1))
        self.share = {path: 1 / rank / whole for rank, path in enumerate(ranked, 1)}

    def reads(self, count):
        return self.rng.choices(list(self.share), list(self.share.values()), k=count)


def given(study, zipf, replies):
    """What the replies to the questions give: files, the share of reads, and directories."""
    files = reads = 0
    for path, data in study.files.items():
        end, before = next(replies)
        if end.startswith(b"end "):
            assert bytes.fromhex(b"".join(line[6:] for line in before).decode()) == data, path
            files += 1
            reads += zipf.share[path]
    return files, round(reads, 4), sum(next(replies)[0].startswith(b"end ") for _ in study.directories)


def lose(program, study, zipf, b, way, warm, order):
    """For each k what is given once the first k boundaries of the order are lost."""
    reads = [f"cat {path}" for path in warm]
    before = [*reads, *(["diffuse"] if way in COPYING else [])]
    remedy = [*WAYS[way], *(before if way == "both" else [])]
    events = ["settle", *before, *asked(study)]
    for s in order:
        events += [f"fail {s} 0", f"fail {s} 1", *remedy, *asked(study)]
    head = f"array {BLOCK} {BLOCKS} {b} {2 * BLOCKS // b} {PLACES}\n" + study.writes()
    replies = replies_of(replay(program, head + "\n".join(events) + "\n"))
    for _ in range(1 + len(study.blocks)):
        assert next(replies)[0] == b"ok", "a write was refused"
    answers = [next(replies)[0].decode() for _ in range(1 + len(before))]
    assert answers[0] == "settled", answers[0]
    for k in range(b + 1):
        told = answers[-1:] if k == 0 else [next(replies)[0].decode() for _ in range(2 + len(remedy))][2:]
        told = told[:len(WAYS[way])] + told[-1:] if way == "both" and k else told
        yield k, " ".join(map(str, order[:k])), *given(study, zipf, replies), "; ".join(told)


def measure(program, study, orders, seed):
    zipf = Zipf(list(study.files), seed)
    warm = zipf.reads(READS)
    for b in BOUNDARIES:
        rng = random.Random(f"{seed} {b}")
        drawn = [rng.sample(range(b), b) for _ in range(orders)]
        for way in WAYS:
            for order in drawn:
                for row in lose(program, study, zipf, b, way, warm, order):
                    yield b, way, *row
            print(f"B = {b}, {way}: {orders} orders", flush=True)


def curves_of(rows, b, styles, value):
    here = {way: [dict(row, m=0) for row in rows if row["way"] == way] for way in styles}
    return [mirror(b)] + [(enumerate(curve(here[way], b, 0, value)), colour, dash, 2) for way, (colour, dash, _) in styles.items()]


def table(rows, names, ways, count):
    """The means of some columns for each B and k, in lines of Markdown."""
    for b in BOUNDARIES:
        print(f"\n| B = {b}, lost |" + "".join(f" {way} |" for way in ways) + "\n|" + "---|" * (len(ways) + 1))
        for k in range(b + 1):
            cells = []
            for way in ways:
                here = [row for row in rows if (row["b"], row["way"], row["k"]) == (b, way, k)]
                cells.append(" " + ", ".join(f"{mean(row[name] for row in here) / count[name]:.0%}" for name in names) + " |")
            print(f"| {k} |" + "".join(cells))


def main():
    parser = argparse.ArgumentParser(description=__doc__, formatter_class=argparse.RawDescriptionHelpFormatter)
    parser.add_argument("--program", default=PROGRAM)
    parser.add_argument("--orders", type=int, default=10)
    parser.add_argument("--seed", type=int, default=1)
    parser.add_argument("--draw", action="store_true", help="draws the rows that are there")
    options = parser.parse_args()
    study = Study(options.seed)
    path = os.path.join(HERE, "remedies.csv")
    if not options.draw:
        with open(path, "w", newline="") as out:
            writer = csv.writer(out, lineterminator="\n")
            writer.writerow(COLUMNS)
            writer.writerows(measure(os.path.abspath(options.program), study, options.orders, options.seed))
    kinds = dict.fromkeys(COLUMNS, int) | {"way": str, "lost": str, "answers": str, "reads": float}
    with open(path, newline="") as rows_in:
        rows = [{name: kinds[name](value) for name, value in row.items()} for row in csv.DictReader(rows_in)]
    count = {"files": len(study.files), "directories": len(study.directories), "reads": 1}
    figure("Files that are still given", "regrouped.svg", lambda b: curves_of(rows, b, STYLES, lambda row: row["files"] / count["files"]),
           [*STYLES.values(), MIRROR])
    figure("Reads that are still answered", "reads.svg", lambda b: curves_of(rows, b, READ_STYLES, lambda row: row["reads"]), [*READ_STYLES.values(), MIRROR])
    table(rows, ("files", "directories"), STYLES, count)
    table(rows, ("reads",), READ_STYLES, count)


if __name__ == "__main__":
    main()
