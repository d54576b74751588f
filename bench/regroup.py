"""Makes what is left of arrays of 2^12, 2^16 and 2^20 blocks without one of four boundaries, and prints what that takes.

The time of one is the difference of runs with more and with four, divided by how many more, each in the least of 31 runs: the first ones take
memory from the system, and the later ones have it at hand, whatever the size. With `count` the instructions are counted, too, by valgrind. The
exit status is 1 where what a block takes grows by more than a factor of 1.3 from 2^12 to 2^20.
"""
import os
import re
import subprocess
import sys

ROUNDS = 31
FIRST = 4
SIZES = (12, 16, 20)
MOST = 1.3


def check(line, status, blocks):
    """Ends where the program didn't print how many blocks are cut."""
    wanted = f"{blocks // 8} blocks are cut\n"
    if status != 0 or line != wanted:
        sys.exit(f"the program ended with wait status {status} and printed {line!r} in place of {wanted!r}")


def seconds(program, blocks, times):
    """The processor's seconds in the program."""
    child = subprocess.Popen([program, str(blocks), str(times)], stdout=subprocess.PIPE)
    line = child.stdout.read().decode()
    _, status, usage = os.wait4(child.pid, 0)
    check(line, status, blocks)
    return usage.ru_utime + usage.ru_stime


def instructions(program, blocks, times):
    """The instructions of the program."""
    ran = subprocess.run(
        ["valgrind", "--tool=callgrind", "--callgrind-out-file=/dev/null", program, str(blocks), str(times)],
        capture_output=True, text=True, check=False)
    check(ran.stdout, ran.returncode, blocks)
    return int(re.search(r"Collected : (\d+)", ran.stderr)[1])


def time_of(program, blocks):
    """The seconds of one."""
    more = max(4, (1 << 23) // blocks)
    few, often = (min(seconds(program, blocks, count) for _ in range(ROUNDS)) for count in (FIRST, FIRST + more))
    return (often - few) / more


def count_of(program, blocks):
    """The instructions of one."""
    return (instructions(program, blocks, 3) - instructions(program, blocks, 1)) / 2


def main():
    program = sys.argv[1]
    measures = [("ns", 1e9, time_of)]
    if "count" in sys.argv[2:]:
        measures.append(("instructions", 1, count_of))
    grew = False
    for unit, scale, measure in measures:
        by_block = []
        for bits in SIZES:
            by_block.append(measure(program, 1 << bits) / (1 << bits))
            print(f"2^{bits} blocks: {by_block[-1] * scale:.0f} {unit} a block", flush=True)
        print(f"{unit} a block at 2^20 to those at 2^12: {by_block[2] / by_block[0]:.2f}")
        grew = grew or by_block[2] > MOST * by_block[0]
    sys.exit(grew)


main()
