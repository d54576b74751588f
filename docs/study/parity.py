#!/usr/bin/env python3
"""What a loss takes away from groups of disks with parity, beside mirrored pairs of as many disks.

    docs/study/parity.py [--orders N] [--seed S]
    docs/study/parity.py --draw                draws the rows that are there

No program has such groups yet, so this is reckoned: which blocks a path needs is read by the soak's volume, and where blocks stand is the
soak's plan. What that gives for pairs is first compared with docs/study/rows.csv, which the program made: each row of a settled array.

Then single disks are lost in N random orders, and none is replaced. A group of n disks, of which one is for parity, is lost with its second
lost disk, and a pair with both. After each loss it is counted which files and directories have every needed block on a boundary that is
left, and whether no boundary is lost yet: a striped array without a plan gives all as long as that is so, and then nothing.

The means over the orders go to docs/study/parity.csv, the figures to docs/study/parity_*.svg.
"""
import argparse
import csv
import functools
import math
import os
import random

from home_folder import BLOCK, BLOCKS, Study
from model import Array
from study import HERE, figure, mean
from volume import Volume

LAYOUTS = {24: (2, 3, 4, 6, 8), 28: (2, 4, 7), 30: (2, 3, 5, 6)}
PLACES = (1, 2, 3, 4)
DRAWN, SHOWN = 2, 12
COLUMNS = "disks n boundaries m lost files directories striped".split()
COLOURS = {2: "#cb181d", 3: "#08306b", 4: "#2171b5", 5: "#41ab5d", 6: "#6baed6", 7: "#807dba", 8: "#fd8d3c"}


class Needs:
    """Which written blocks each file and each directory needs, and where a plan puts blocks."""

    def __init__(self, study):
        self.study = study
        self.blocks = [study.blocks.get(b, bytes(BLOCK)) for b in range(BLOCKS)]
        self.volume = Volume(tuple(self.blocks), BLOCK)
        self.files = {path: self.needed(self.volume.cat, path) for path in study.files}
        self.directories = {path: self.needed(self.volume.ls, path) for path in study.directories}

    def needed(self, read, path):
        seen = []
        read(path.encode(), seen)
        return set(seen) & self.study.blocks.keys()

    def targets(self, b, m):
        """The boundaries of each written block once the array is settled."""
        array = Array(BLOCK, BLOCKS, b, 2 * BLOCKS // b, m)
        array.blocks, array.volume = self.blocks, self.volume
        for block in self.study.blocks:
            array.sites[block] = [(block % b, None)]
        (targets, _), refusal = array.plan()
        assert refusal is None, refusal
        return targets


class Settled:
    """A settled array: which files and directories are given without some boundaries."""

    def __init__(self, needs, b, m):
        targets = needs.targets(b, m)
        self.files, self.directories = ({path: {frozenset(targets[block]) for block in blocks} for path, blocks in kind.items()}
                                        for kind in (needs.files, needs.directories))
        self.kept = {}

    def given(self, lost):
        """The paths that have each needed block on a boundary that is left."""
        if lost not in self.kept:
            self.kept[lost] = [[path for path, sites in kind.items() if not any(where <= lost for where in sites)]
                               for kind in (self.files, self.directories)]
        return self.kept[lost]


def compare(needs, settled):
    """Each row that the program made of a settled array is reckoned so, too."""
    rows = 0
    with open(os.path.join(HERE, "rows.csv"), newline="") as rows_in:
        for row in csv.DictReader(rows_in):
            if row["m"] != "0":
                files, directories = settled(int(row["b"]), int(row["m"])).given(frozenset(map(int, row["lost"].split())))
                volume = sum(len(needs.study.files[path]) for path in files)
                reckoned = [len(files), volume, int("/" in directories), len(directories)]
                assert reckoned == [int(row[name]) for name in ("files", "bytes", "root", "directories")], row
                rows += 1
    return rows


def losses(n, order):
    """The lost boundaries after each loss of a disk: disk d is one of boundary d div n."""
    out, lost = {}, frozenset()
    yield lost
    for disk in order:
        s = disk // n
        out[s] = out.get(s, 0) + 1
        if out[s] == 2:
            lost |= {s}
        yield lost


def share_without_loss(disks, n, k):
    """In how many of all choices of k disks no boundary is lost: no two of them are of one."""
    return math.comb(disks // n, k) * n ** k / math.comb(disks, k)


def measure(needs, settled, orders, seed):
    for disks, layouts in LAYOUTS.items():
        rng = random.Random(f"{seed} {disks}")
        drawn = [rng.sample(range(disks), disks) for _ in range(orders)]
        for n in layouts:
            lost = list(zip(*(losses(n, order) for order in drawn)))
            for m in (m for m in PLACES if m <= disks // n):
                array = settled(disks // n, m)
                for k, now in enumerate(lost):
                    given = [array.given(one) for one in now]
                    files = mean(len(paths) for paths, _ in given) / len(needs.files)
                    directories = mean(len(paths) for _, paths in given) / len(needs.directories)
                    striped = mean(not one for one in now)
                    assert abs(striped - share_without_loss(disks, n, k)) < 2 / math.sqrt(orders), "orders drawn unevenly"
                    yield disks, n, disks // n, m, k, *(f"{share:.4f}" for share in (files, directories, striped))


def name_of(n):
    return "pairs" if n == 2 else f"groups of {n}"


def curves_of(rows, disks, name):
    """The curves of one number of disks, and dashed those of striped arrays."""
    for n in LAYOUTS[disks]:
        here = [row for row in rows if (row["disks"], row["n"], row["m"]) == (disks, n, DRAWN)]
        yield enumerate(row["striped"] for row in here[:SHOWN + 1]), COLOURS[n], "3,4", 1
        yield enumerate(row[name] for row in here[:SHOWN + 1]), COLOURS[n], "", 2


def tables(rows):
    """The shares by layout and lost disks, and then by places of the naming, in lines of Markdown."""
    by = {(row["disks"], row["n"], row["m"], row["lost"]): row for row in rows}
    for disks, layouts in LAYOUTS.items():
        print(f"\n| {disks} disks, lost |" + "".join(f" {name_of(n)} |" for n in layouts) + "\n|" + "---|" * (len(layouts) + 1))
        for k in (*range(1, 9), 10, 12):
            cells = [by[disks, n, DRAWN, k] for n in layouts]
            print(f"| {k} |" + "".join(f" {row['files']:.0%}, {row['directories']:.0%}; {row['striped']:.0%} |" for row in cells))
    print("\n| 24 disks, lost |" + "".join(f" {name_of(n)} |" for n in LAYOUTS[24]) + "\n|" + "---|" * (len(LAYOUTS[24]) + 1))
    for k in (2, 4, 6, 8):
        cells = [[by[24, n, m, k]["files"] for m in PLACES if (24, n, m, k) in by] for n in LAYOUTS[24]]
        print(f"| {k} |" + "".join(f" {', '.join(f'{share:.0%}' for share in shares)} |" for shares in cells))


def main():
    parser = argparse.ArgumentParser(description=__doc__, formatter_class=argparse.RawDescriptionHelpFormatter)
    parser.add_argument("--orders", type=int, default=1000)
    parser.add_argument("--seed", type=int, default=1)
    parser.add_argument("--draw", action="store_true", help="draws the rows that are there")
    options = parser.parse_args()
    path = os.path.join(HERE, "parity.csv")
    if not options.draw:
        needs = Needs(Study(1))
        settled = functools.cache(functools.partial(Settled, needs))
        print(f"{compare(needs, settled)} rows of the program are reckoned so, too")
        with open(path, "w", newline="") as out:
            writer = csv.writer(out, lineterminator="\n")
            writer.writerow(COLUMNS)
            writer.writerows(measure(needs, settled, options.orders, options.seed))
    with open(path, newline="") as rows_in:
        rows = [{name: float(value) if name in COLUMNS[-3:] else int(value) for name, value in row.items()} for row in csv.DictReader(rows_in)]
    entries = [(COLOURS[n], "", name_of(n)) for n in COLOURS] + [("#888", "3,4", "the same, striped")]
    for name, title in (("files", "Files that are still given"), ("directories", "Directories that are still listed")):
        figure(f"{title}, with two places of the naming", f"parity_{name}.svg", lambda disks, name=name: curves_of(rows, disks, name), entries,
               LAYOUTS, unit="disks", shown=SHOWN)
    tables(rows)


if __name__ == "__main__":
    main()
