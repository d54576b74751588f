#!/usr/bin/env python3
"""Checks functions of a crate before the libraries below it are proved.

    tools/over_sources.py CRATE [--only F].. [--allow-holes] [--jobs N]    the flags are those of `rattle check`

It goes over the built libraries of this clone, and over the sources of each that isn't built. So it finds what a change below breaks above, long before the
change is proved; and what it says of a function holds only once those libraries are. It keeps what it checked in `crates/CRATE/out/over_sources`. With `--only`
it also goes through those functions of libraries in source that F calls. It isn't the verdict: that is `rt ci`.
"""
import os
import subprocess
import sys

import kit

TOP = os.path.dirname(os.path.dirname(os.path.abspath(__file__)))


def words_of(crate):
    """The flags of `rattle check` that name what the crate stands on."""
    below = crate.below()
    built = kit.usable(below)
    of_kit = dict.fromkeys(["core", *crate.of_kit, *(name for it in below for name in it.of_kit)])
    root = next(it for it in ("src/lib.rt", "src/main.rt") if os.path.isfile(f"{crate.folder}/{it}"))
    words = ["--crate-name", crate.name, root]
    for name in of_kit:
        words += ["--extern", f"{name}={kit.KIT}/rlibs/{name}.rlib"]
    words += ["-L", f"dependency={kit.KIT}/rlibs"]
    for it in below:
        if it.name in built:
            words += ["--extern", f"{it.name}={it.rlib}", "-L", f"dependency={os.path.dirname(it.rlib)}"]
        else:
            uses = dict.fromkeys(["core", *it.of_kit, *(dep.name for dep in it.deps)])
            words += ["--lib", f"{it.name}:{','.join(uses)}={it.folder}/src/lib.rt"]
    print("over sources:", *(it.name for it in below if it.name not in built), flush=True)
    return words


def main():
    if len(sys.argv) < 2 or sys.argv[1].startswith("-"):
        sys.exit(__doc__)
    rt = kit.script("rt")
    os.chdir(TOP)
    crate = rt.rtlib.Crate(f"{TOP}/crates/{sys.argv[1]}", TOP, {})
    words = words_of(crate)
    words += ["--antt-project", f"{kit.KIT}/rattle/logic/antt-project.json", "--logic-built", f"{kit.KIT}/logic_built"]
    words += ["--incremental", f"{crate.folder}/out/over_sources", "--links", f"{crate.name}="]
    os.chdir(crate.folder)
    sys.exit(subprocess.run([f"{kit.KIT}/bin/rattle", "check", *words, *sys.argv[2:]]).returncode)


main()
