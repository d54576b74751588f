"""The memory of a map, and the time of evictions, by the program of crates/store_bench.

A map may take 8 bytes a block and boundary, 16 bytes a block beside them, and 5 bytes a slot. Evictions are measured as what writing
the second half of 2^n blocks adds, where the first half has two sites each and no slot is free: each such write evicts one. The time
of an eviction may grow by a factor of 1.3 from the least array to the largest. The exit status is 1 where one of these isn't so.
"""
import os
import subprocess
import sys
import time

ROUNDS = 7
MAPS = ((1 << 20, 2, 1 << 20), (1 << 17, 16, 1 << 17))
BITS = (14, 16, 18)


def run(program, *words):
    """The processor's seconds of a run, in the program and in the system, and its peak memory in bytes."""
    peak, ended = 0, 0
    child = subprocess.Popen([program, *map(str, words)], stdout=subprocess.DEVNULL)
    while not ended:
        try:
            with open(f"/proc/{child.pid}/status") as status:
                for line in status:
                    if line.startswith("VmHWM:"):
                        peak = max(peak, int(line.split()[1]) * 1024)
        except FileNotFoundError:
            pass
        time.sleep(0.0005)
        ended, status, usage = os.wait4(child.pid, os.WNOHANG)
    if status != 0:
        sys.exit(f"the program ended with wait status {status}")
    return usage.ru_utime, peak


def maps(program):
    """Prints the memory of each map beyond that of the least one, and tells whether it is within the bound."""
    least = max(run(program, "map", 1, 2, 1)[1] for _ in range(ROUNDS))
    fits = True
    for blocks, boundaries, slots in MAPS:
        taken = max(run(program, "map", blocks, boundaries, slots)[1] for _ in range(ROUNDS)) - least
        most = blocks * (8 * boundaries + 16) + 5 * boundaries * slots
        print(f"N = {blocks}, B = {boundaries}, K = {slots}: {taken / (1 << 20):.1f} MiB of at most {most / (1 << 20):.1f} MiB")
        fits = fits and taken <= most
    return fits


def evictions(program):
    """Prints the time of an eviction for each array, and tells whether it grows by less than the factor."""
    each = []
    for bits in BITS:
        rounds = ROUNDS << (BITS[-1] - bits)
        taken = sum(run(program, "evict", bits)[0] - run(program, "spread", bits)[0] for _ in range(rounds))
        each.append(taken / rounds / (1 << (bits - 1)))
        print(f"2^{bits} blocks: {each[-1] * 1e9:.0f} ns a write that evicts", flush=True)
    print(f"ratio of 2^{BITS[-1]} to 2^{BITS[0]}: {each[-1] / each[0]:.2f}")
    return each[-1] <= 1.3 * each[0]


if __name__ == "__main__":
    fits = maps(sys.argv[1])
    is_linear = evictions(sys.argv[1])
    sys.exit(not (fits and is_linear))
