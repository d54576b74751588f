#!/usr/bin/env python3
"""`rt plant` of the public calls of a crate, with room for the large ones: the wrong bodies that their contracts let through.

    tools/plants.py CLONE CRATE [WORD..]           of the functions whose file, line and path contain a WORD (none: of all)

`rt plant` gives 40 plants 240 seconds together, and begins again with half of them where that is not enough; of crates whose calls take a minute each most of the
time goes into what is thrown away. Here 12 plants get half an hour. And only what the crate's lib.rt tells of is planted in, with the methods of traits. Each row is
printed as soon as it is judged, after them what `rt plant --all` prints. The crate and all below it are locked: take a clone of its own
(`tools/libraries.py hand` gives it what is proved).
"""
import os
import re
import sys

import kit

BATCH, SECONDS, MINUTES = 12, 1800, 600


def exported():
    """The names that the crate's lib.rt tells of."""
    with open("src/lib.rt") as text:
        uses = re.findall(r"pub use ([^;]+);", text.read())
    return {name for use in uses for name in re.findall(r"\w+", use)}


def main(clone, crate, *only):
    os.chdir(f"{clone}/crates/{crate}")
    plant = kit.script("rt-plant")
    plant.BATCH, plant.SECONDS = BATCH, SECONDS
    names, choose, read = exported(), plant.chosen, plant.read

    def is_public(function):
        return function.in_trait or (function.owner if function.block else function.name) in names

    def chosen(crate, source, symbols, _):
        wanted = lambda it: is_public(it) and (not only or any(word in it.shown for word in only))
        return [list(filter(wanted, found)) for found in choose(crate, source, symbols, "")]

    def told(plants, said):
        read(plants, said)
        for it in plants:
            print(f"{it.kind:<10}  {it.f.shown}: {{ {it.body} }}  ({it.why})", flush=True)

    plant.chosen, plant.read = chosen, told
    return plant.main("--max", "5000", "--minutes", str(MINUTES), "--jobs", "1", "--all")


if __name__ == "__main__":
    sys.exit(main(*sys.argv[1:]) if len(sys.argv) > 2 else __doc__)
