#!/usr/bin/env python3
"""Looks at the text of every crate as `rt ci` does before it proves anything: the layout, links, words and names that it refuses. It takes seconds.

    tools/looks.py [FOLDER]   of the repository in FOLDER, or of this one

`rt check` looks at none of it, and the gate refuses a crate, and all that stands on it, for one line in another layout (`rt fmt` mends that).
"""
import os
import sys
import tempfile

import kit

TOP = os.path.dirname(os.path.dirname(os.path.abspath(__file__)))


def refusal_of(rt, top, name):
    """Why the gate would refuse the text of a crate, or None."""
    folder = f"{top}/crates/{name}"
    with tempfile.TemporaryFile("a+", errors="replace") as said:
        if rt.rtlib.fmt(folder, "--check", said):
            said.seek(0)
            return said.read().strip()
    crate = rt.rtlib.Crate(folder, top, {})
    try:
        rt.rtlib.stop_on_links(folder)
        rt.rtlib.stop_on_text(crate, "verdict")
        rt.stop_on_words(crate)
    except SystemExit as why:
        return str(why.code)
    return None


def main():
    top = os.path.abspath(sys.argv[1]) if len(sys.argv) > 1 else TOP
    rt = kit.script("rt")
    found = [(name, why) for name in sorted(os.listdir(f"{top}/crates")) if (why := refusal_of(rt, top, name))]
    for name, why in found:
        print(f"{name}: {why}")
    print(f"{len(found)} crates are refused by their text")
    sys.exit(bool(found))


if __name__ == "__main__":
    main()
