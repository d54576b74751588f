"""Refused lines of growing length, for each kind of refusal whose line can grow, and the instructions that a byte of them takes.

Each line stands behind the line of an array of blocks of 4096 bytes, so that a line may have 12,393 bytes. The instructions are those of a replay of
the two lines, by valgrind; those of a byte are the difference of two lengths, divided by that of the lengths. A byte of the
second half may take 1.3 times what one of the first takes, and 4 instructions more; else the exit status is 1. Not here are `size`, whose
line stands behind 2^40 bytes, and `limits`, whose line has at most 55.
"""
import os
import subprocess
import sys
import tempfile

from taken import instructions

ARRAY = b"array 4096 2 2 2 1\n"
LENGTHS = (2000, 6000, 10000)
BLOCK_LENGTHS = (2000, 5000, 8000)
PATH_LENGTHS = (1000, 2500, 4000)
LONGEST = 2 * 4096 + 4201


def filled(front, unit, end=b"\n"):
    """Lines that begin and end so, with so many of these bytes between that they have about so many."""
    return lambda n: front + unit * ((n - len(front)) // len(unit)) + end


CASES = (
    ("cut", LENGTHS, filled(b"write 0 ", b"a", b"")),
    ("cut", LENGTHS, filled(b"", b" ", b"")),
    ("word", LENGTHS, filled(b"", b"x")),
    ("word", LENGTHS, filled(b"x", b" ")),
    ("word", LENGTHS, filled(b"", b" ")),
    ("order", LENGTHS, filled(b"array", b" 1")),
    ("form", LENGTHS, filled(b"read", b" 1")),
    ("form", LENGTHS, filled(b"read 0", b" ")),
    ("form", LENGTHS, filled(b"cat /", b" /")),
    ("form", LENGTHS, filled(b"settle", b" 1")),
    ("number", LENGTHS, filled(b"read ", b"1")),
    ("number", LENGTHS, filled(b"read ", b"0")),
    ("number", LENGTHS, filled(b"read 1", b"x")),
    ("number", LENGTHS, filled(b"write x ", b"00")),
    ("hex", BLOCK_LENGTHS, filled(b"write 0 ", b"11", b"1g\n")),
    ("hex", BLOCK_LENGTHS, filled(b"write 0 ", b"11", b"1\n")),
    ("path", LENGTHS, filled(b"cat /", b"a")),
    ("path", LENGTHS, filled(b"cat ", b"/a")),
    ("path", PATH_LENGTHS, filled(b"cat /", b"\\x00")),
    ("path", LENGTHS, filled(b"cat /a", b"/")),
)


def told(program, folder, trace):
    """What a replay of it prints last."""
    with open(trace, "rb") as stdin:
        ran = subprocess.run([program, "replay"], stdin=stdin, stdout=subprocess.PIPE, cwd=folder)
    return ran.stdout.decode().split("\n")[-2]


def count(program, folder, kind, line):
    """The instructions of a replay that is refused so."""
    trace = os.path.join(folder, "trace")
    with open(trace, "wb") as out:
        out.write(ARRAY + line)
    if told(program, folder, trace) != f"line 2 {kind}":
        sys.exit(f"a line of {len(line)} bytes, {line[:20]!r}, isn't refused as {kind}: {told(program, folder, trace)!r}")
    return instructions(program, ["replay"], trace, folder, 2)


def main():
    program = sys.argv[1]
    grew = False
    with tempfile.TemporaryDirectory() as folder:
        for kind, lengths, line_of in CASES:
            lines = [line_of(n) for n in lengths]
            counts = [count(program, folder, kind, line) for line in lines]
            first, second = (
                (counts[i + 1] - counts[i]) / (len(lines[i + 1]) - len(lines[i])) for i in (0, 1)
            )
            print(f"{kind}, {lines[0][:12].decode()!r}..: {first:.1f} and {second:.1f} instructions a byte", flush=True)
            grew = grew or second > 1.3 * first + 4
        long = count(program, folder, "long", b"write 0 " + b"0" * LONGEST)
        cut = count(program, folder, "cut", b"write 0 " + b"0" * 2000)
        print(f"long: {(long - cut) / (LONGEST - 2000):.1f} instructions a byte")
    sys.exit(grew)


if __name__ == "__main__":
    main()
