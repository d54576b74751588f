"""Moves all blocks of arrays of 2^12, 2^16 and 2^20 blocks on four boundaries to their targets, and prints what a move takes.

One sixteenth of the blocks are kept, with two targets each, and the others are of files of 16 blocks; written in their order, three of
four of the latter and each of the former have a placement that is missing. The time of a move is the difference of runs with moves and
without, divided by the moves, by the least of the runs, made by turns. It is measured on members that keep no bytes, so that only the array's own
work is in it, and on members in memory. On the former it may grow by a factor of 1.3 from the least array to each; else the
exit status is 1. With the word `count`, the instructions of a move are counted too, on members that keep no bytes.
"""
import re
import sys

from taken import least, more

ROUNDS = 9
SIZES = (12, 16, 20)
BOUNDARIES = 4


def runs_of(bits, keeps_bytes, spread):
    """The words of the runs without moves and with them: so many arrays that each size has as many moves in all."""
    times = max(1, 1 << spread >> bits)
    room = 600 * ((1 << bits) * 2 // BOUNDARIES + 1) + 1024 if keeps_bytes else 0
    return times, [((task, bits, times, room),) for task in ("write", "tend")]


def moves_in(printed):
    """How many moves a run made of each array."""
    found = re.fullmatch(r"(\d+) placements were met, 0 are left\n", printed)
    if not found or found.group(1) == "0":
        sys.exit(f"the program printed {printed!r}")
    return int(found.group(1))


def measure(program, keeps_bytes):
    """Prints the time of a move for each array, and gives the greatest ratio to that of the least one."""
    each = []
    for bits in SIZES:
        times, runs = runs_of(bits, keeps_bytes, SIZES[-1])
        (without, with_moves), (_, printed) = least(program, runs, ROUNDS)
        moves = moves_in(printed)
        each.append((with_moves - without) / times / moves)
        kept = "in memory" if keeps_bytes else "that keep no bytes"
        print(f"2^{bits} blocks, {moves:,} moves, on members {kept}: {each[-1] * 1e9:.0f} ns a move", flush=True)
    ratios = [one / each[0] for one in each[1:]]
    print("ratios to 2^12: " + ", ".join(f"{ratio:.2f}" for ratio in ratios))
    return max(ratios)


def count(program):
    """Prints the instructions of a move for each array."""
    each = []
    for bits in SIZES:
        times, runs = runs_of(bits, False, bits)
        (_, (words,)) = runs
        _, (printed,) = least(program, [(words,)], 1)
        moves = moves_in(printed)
        each.append(more(program, runs) / times / moves)
        print(f"2^{bits} blocks: {each[-1]:.0f} instructions a move", flush=True)
    print("ratios to 2^12: " + ", ".join(f"{one / each[0]:.2f}" for one in each[1:]))


def main():
    program = sys.argv[1]
    if "count" in sys.argv[2:]:
        count(program)
    ratio = measure(program, False)
    measure(program, True)
    sys.exit(ratio > 1.3)


if __name__ == "__main__":
    main()
