"""Makes plans of arrays of 2^12, 2^16 and 2^20 blocks, with files of one block and of 64, and prints what that takes.

Each block is one of a file. The time of a plan is the difference of runs with more plans and with one, divided by the plans, in the
least of three runs. The exit status is 1 where the time per block and per bit of their number grows by more than a factor of 2 from
2^12 to 2^20.
"""
import os
import subprocess
import sys

ROUNDS = 3
SIZES = (12, 16, 20)


def run(program, blocks, in_file, times):
    """The processor's seconds in the program, where it prints how many files have homes."""
    child = subprocess.Popen([program, str(blocks), str(in_file), str(times)], stdout=subprocess.PIPE)
    line = child.stdout.read().decode()
    _, status, usage = os.wait4(child.pid, 0)
    wanted = f"{blocks // in_file} files have homes\n"
    if status != 0 or line != wanted:
        sys.exit(f"the program ended with wait status {status} and printed {line!r} in place of {wanted!r}")
    return usage.ru_utime + usage.ru_stime


def measure(program, blocks, in_file):
    """The seconds of a plan."""
    times = 1 + max(2, (1 << 20) // blocks)
    once, often = (min(run(program, blocks, in_file, count) for _ in range(ROUNDS)) for count in (1, times))
    return (often - once) / (times - 1)


def main():
    program = sys.argv[1]
    grew = False
    for in_file in (1, 64):
        by_bit = []
        for bits in SIZES:
            blocks = 1 << bits
            each = measure(program, blocks, in_file)
            print(f"2^{bits} blocks, {in_file} a file: {each * 1e3:.2f} ms a plan, {each / blocks * 1e9:.0f} ns a block", flush=True)
            by_bit.append(each / blocks / bits)
        print(f"time per block and bit at 2^20 to that at 2^12: {by_bit[2] / by_bit[0]:.2f}")
        grew = grew or by_bit[2] > 2 * by_bit[0]
    sys.exit(grew)


main()
