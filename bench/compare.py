"""The programs of an earlier checkout and of a later one on the same input, by turns.

A scan and a check of a volume of 2^16 fragments, a replay of 200,000 random writes and reads over 2^17 blocks, and the writes of a volume
with a file of 4 MiB and eight reads of it. For each it prints the least processor's times in the program and their ratio. The exit
status is 1 where a ratio is more than 1.05.
"""
import os
import random
import subprocess
import sys
import tempfile

import cat
import check
import replay
import scan
from volumes import Volume

ROUNDS = 11
FRAGMENTS = 1 << 16
BITS = 17


def seconds(program, words, stdin_path, folder):
    """The processor's seconds in the program."""
    with open(stdin_path, "rb") as stdin:
        child = subprocess.Popen([program, *words], stdin=stdin, stdout=subprocess.DEVNULL, cwd=folder)
        _, status, usage = os.wait4(child.pid, 0)
    if status != 0:
        sys.exit(f"{program} ended with wait status {status}")
    return usage.ru_utime


def compare(name, crate, words, stdin_path, folder):
    """Prints the least times of both programs and their ratio, which it gives."""
    programs = [os.path.join(crates, crate, "out", crate) for crates in sys.argv[1:3]]
    rounds = [[seconds(program, words, stdin_path, folder) for program in programs] for _ in range(ROUNDS)]
    earlier, later = (min(one[which] for one in rounds) for which in (0, 1))
    print(f"{name}: {earlier:.3f} s earlier, {later:.3f} s later, ratio {later / earlier:.3f}", flush=True)
    return later / earlier


def main():
    ratios = []
    with tempfile.TemporaryDirectory() as folder:
        stdin_path = os.path.join(folder, "stdin")
        for name, volume_of, times in (("scan", scan.full_volume, 20), ("check", check.sound_volume, 60)):
            volume_of(FRAGMENTS).write(stdin_path, FRAGMENTS)
            ratios.append(compare(name, "volume_bench", [name, str(times)], stdin_path, folder))
        replay.write_trace(stdin_path, 1 << BITS, 200000, 1)
        ratios.append(compare("replay", "dgraid", ["replay"], stdin_path, folder))
        volume = Volume(cat.FRAGMENT, 1 << BITS, [random.Random(1).randbytes(cat.FILE_BYTES)])
        cat.write_trace(stdin_path, 1 << BITS, volume, cat.READS)
        ratios.append(compare("cat", "dgraid", ["replay"], stdin_path, folder))
    sys.exit(max(ratios) > 1.05)


if __name__ == "__main__":
    main()
