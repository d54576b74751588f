"""Replays of writes on an array whose pages have two places beside a plain one, by the program of crates/stop_bench.

Arrays of 64 MiB over racks in memory get writes of whole blocks by a fixed generator, each to both members of a boundary. A round makes both
arrays without writes and with them, by turns. For each size of a block it prints the median of the rounds' ratios: of the whole replays, and of
the writes alone. The exit status is 1 where a whole replay in blocks of 512 bytes takes more than 1.5 times as long.
"""
import statistics
import sys

from taken import seconds

ROUNDS = 11
KINDS = ("plain", "double")
# bytes of a block, the bits of how many there are, and the writes
ARRAYS = ((512, 17, 600_000), (4096, 14, 150_000))
MOST = 1.5


def replay(program, kind, size, bits, writes):
    """The processor's seconds of a replay, each of whose writes is to be stored."""
    taken, printed = seconds(program, ["replay", kind, size, bits, writes])
    if printed != f"{writes} writes were stored\n":
        sys.exit(f"the program printed {printed!r}")
    return taken


def one_round(program, size, bits, writes):
    """The ratios of a round: of whole replays, and of the writes alone. Beside them the seconds of each whole replay."""
    without, whole = ([replay(program, kind, size, bits, count) for kind in KINDS] for count in (0, writes))
    plain, double = (a - b for a, b in zip(whole, without))
    return whole[1] / whole[0], double / plain, whole


def measure(program, size, bits, writes):
    """Prints the medians for a size of a block, and gives that of whole replays."""
    rounds = [one_round(program, size, bits, writes) for _ in range(ROUNDS)]
    ratio, alone = (statistics.median(one[which] for one in rounds) for which in (0, 1))
    plain, double = (statistics.median(one[2][which] for one in rounds) for which in (0, 1))
    print(
        f"blocks of {size} bytes, {writes:,} writes: {plain:.3f} s plain, {double:.3f} s double; "
        f"ratio {ratio:.2f}, of the writes alone {alone:.2f}",
        flush=True,
    )
    return ratio


if __name__ == "__main__":
    ratios = [measure(sys.argv[1], *array) for array in ARRAYS]
    sys.exit(ratios[0] > MOST)
