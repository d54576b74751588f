"""An earlier program and a later one by turns: random events, the writes of a volume, its `settle`, its `save`, and an opening.

Each round is done with either program, in a folder of its own. The trace of bench/replay.py of 200,000 events over 2^10 blocks is replayed. Then an array of
four boundaries is made, with all of them in use and no cut block: the volume of bench/check.py of 2^16 fragments of 512 bytes is written in the order `late`
of bench/settle.py, settled and saved twice, and the array is opened by `status`. What is compared is the second save. Printed are, of the processor's seconds and of those by the clock, the ratios of the later program to the earlier one: of the
medians, of the least, and the middle of the pairs' own. The one that begins a round alternates. The exit status is 1 where a ratio of the medians of the
processor's seconds is more than 1.03. Arrays stand in a temporary folder (TMPDIR says where).

Usage: bench/turns.py EARLIER LATER [ROUNDS], two programs.
"""
import os
import shutil
import statistics
import subprocess
import sys
import tempfile
import time

import replay
from check import FRAGMENT, sound_volume
from save import opening
from session import Session, load
from settle import BOUNDARIES, written_blocks

BITS = 16
EVENTS, EVENT_BITS, SEED = 200000, 10, 1
ROUNDS = 21
MOST = 1.03
WHAT = ("events", "writes", "settle", "save", "opening")


def replayed(program, folder, trace):
    """The seconds of a replay of a trace, whose replies are thrown away: by the clock, and of the processor."""
    os.makedirs(folder)
    clock = time.monotonic()
    with open(trace, "rb") as stdin:
        child = subprocess.Popen([program, "replay"], stdin=stdin, stdout=subprocess.DEVNULL, cwd=folder)
        _, status, usage = os.wait4(child.pid, 0)
    clock = time.monotonic() - clock
    if status != 0:
        sys.exit(f"{program} ended with wait status {status}")
    shutil.rmtree(folder)
    return clock, usage.ru_utime + usage.ru_stime


def measure(program, folder, trace, lines):
    """What each took of a program: the seconds by the clock, where they mean something, and those of the processor."""
    events = replayed(program, folder, trace)
    session = Session(program, folder, (FRAGMENT, 1 << BITS, BOUNDARIES, (1 << BITS) // 2, 2))
    writes = session.all_well(lines)
    settle = session.expect("settle", "settled")
    session.expect("save", "saved 1")
    save = session.expect("save", "saved 2")
    session.end()
    opened = opening(program, folder, "settled")
    shutil.rmtree(folder)
    return events, (None, writes), settle, save, opened


def ratios(earlier, later):
    """The ratios of the medians, of the least, and the middle of the pairs' own."""
    pairs = statistics.median(two / one for one, two in zip(earlier, later))
    return statistics.median(later) / statistics.median(earlier), min(later) / min(earlier), pairs


def main():
    programs = [os.path.abspath(program) for program in sys.argv[1:3]]
    rounds = int(sys.argv[3]) if len(sys.argv) > 3 else ROUNDS
    volume = sound_volume(1 << BITS)
    lines = [f"write {block} {volume.image[block].hex()}\n" for block in written_blocks(volume, "late")]
    taken = ([], [])
    with tempfile.TemporaryDirectory() as folder:
        trace = os.path.join(folder, "trace")
        replay.write_trace(trace, 1 << EVENT_BITS, EVENTS, SEED)
        for number in range(rounds):
            for which in (0, 1) if number % 2 == 0 else (1, 0):
                taken[which].append(measure(programs[which], os.path.join(folder, "array"), trace, lines))
    worst = 0
    for place, name in enumerate(WHAT):
        for kind, seconds in ((1, "of the processor"), (0, "by the clock")):
            earlier, later = ([one[place][kind] for one in side] for side in taken)
            if earlier[0] is None:
                continue
            median, least, pairs = ratios(earlier, later)
            print(f"{name}, {seconds}: median {median:.3f}, least {least:.3f}, pairs {pairs:.3f}; {statistics.median(earlier):.4f} s before; {rounds} rounds", flush=True)
            if kind == 1:
                worst = max(worst, median)
    print(load())
    sys.exit(worst > MOST)


if __name__ == "__main__":
    main()
