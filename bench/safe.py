"""A `safe` array, whose pages have two places each, beside a plain one, by turns of one program.

Each round is done over either kind, in a folder of its own. The trace of bench/replay.py of 200,000 events over 2^10 blocks of 1024 bytes is replayed. Then the
volume of bench/check.py of 2^16 fragments of 512 bytes is written in the order `late` of bench/settle.py to an array of four boundaries, settled, and saved: for the first
time, once more, and behind a write of one block; and the array is opened by `status`. The same is done with a part of these events over blocks of 4096 bytes.
Printed are the medians of the processor's seconds, and of those by the clock, the middle of the ratios of the rounds, and the calls that write and their bytes, as the
system counts them; and at the end the bytes of an image, and those that it takes on the disk. The kind that begins a round alternates. Arrays stand in a temporary
folder (TMPDIR says where).

Usage: bench/safe.py PROGRAM [ROUNDS].
"""
import os
import random
import shutil
import statistics
import sys
import tempfile

import replay
from check import FRAGMENT, sound_volume
from save import opening
from session import Session, load
from settle import BOUNDARIES, written_blocks
from turns import replayed

KINDS = ("array", "safe")
BITS = 16
EVENTS, EVENT_BITS, SEED = 200000, 10, 1
LARGE, LARGE_BITS, LARGE_WRITES = 4096, 12, 20000
ROUNDS = 11
# the names of what is measured
EVENT, WRITES, SETTLE, SAVE, AGAIN, CHANGED, OPENING = (
    "200,000 events", "writes of the volume", "settle", "first save", "save once more", "save behind a write", "opening")
LARGE_WRITE = f"{LARGE_WRITES:,} writes of {LARGE} bytes"


def written(pid):
    """The calls of a process that wrote something so far, and their bytes."""
    with open(f"/proc/{pid}/io") as io:
        counts = dict(line.split(": ") for line in io)
    return int(counts["syscw"]), int(counts["wchar"])


def event(session, line, last):
    """What an event took: the seconds by the clock and of the processor, the calls that wrote, and their bytes. The reply is one of the calls."""
    calls, count = written(session.child.pid)
    clock, processor = session.expect(line, last)
    after = written(session.child.pid)
    return clock, processor, after[0] - calls - 1, after[1] - count - len(last) - 1


def writes(session, lines):
    """What writes took, in the same form; each has a reply `ok`."""
    calls, count = written(session.child.pid)
    processor = session.all_well(lines)
    after = written(session.child.pid)
    return None, processor, after[0] - calls - len(lines), after[1] - count - 3 * len(lines)


def measure(program, kind, folder, trace, lines, large):
    """What each took over one kind of array, and the bytes of an image: its length, and those on the disk."""
    taken = {EVENT: (*replayed(program, folder, trace), None, None)}
    session = Session(program, folder, (LARGE, 1 << LARGE_BITS, BOUNDARIES, (1 << LARGE_BITS) // 2, 2), kind)
    taken[LARGE_WRITE] = writes(session, large)
    session.end()
    shutil.rmtree(folder)
    session = Session(program, folder, (FRAGMENT, 1 << BITS, BOUNDARIES, (1 << BITS) // 2, 2), kind)
    taken[WRITES] = writes(session, lines)
    taken[SETTLE] = event(session, "settle", "settled")
    taken[SAVE] = event(session, "save", "saved 1")
    taken[AGAIN] = event(session, "save", "saved 2")
    writes(session, lines[:1])
    taken[CHANGED] = event(session, "save", "saved 3")
    session.expect("settle", "settled")
    session.expect("save", "saved 4")
    session.end()
    taken[OPENING] = (*opening(program, folder, "settled"), None, None)
    image = os.stat(os.path.join(folder, "member-00-0.img"))
    shutil.rmtree(folder)
    return taken, (image.st_size, 512 * image.st_blocks)


def tell(name, plain, safe):
    """Prints what something took over both kinds."""
    words = []
    for place, word, unit in ((1, "of the processor", "s"), (0, "by the clock", "s"), (2, "calls", ""), (3, "bytes", "")):
        pairs = [(one[place], other[place]) for one, other in zip(plain, safe)]
        if None in pairs[0]:
            continue
        one, other = (statistics.median(pair[which] for pair in pairs) for which in (0, 1))
        shown = [f"{value:.4f}" if unit else f"{value:,.0f}" for value in (one, other)]
        words.append(f"{word} {shown[0]} {shown[1]}, {statistics.median(b / a for a, b in pairs):.2f}")
    print(f"{name}: {'; '.join(words)}", flush=True)


def main():
    program = os.path.abspath(sys.argv[1])
    rounds = int(sys.argv[2]) if len(sys.argv) > 2 else ROUNDS
    volume, rng = sound_volume(1 << BITS), random.Random(SEED)
    lines = [f"write {block} {volume.image[block].hex()}\n" for block in written_blocks(volume, "late")]
    large = [f"write {rng.randrange(1 << LARGE_BITS)} {rng.randbytes(LARGE).hex()}\n" for _ in range(LARGE_WRITES)]
    taken, sizes = {kind: [] for kind in KINDS}, {}
    with tempfile.TemporaryDirectory() as folder:
        traces = {kind: os.path.join(folder, kind) for kind in KINDS}
        for kind in KINDS:
            replay.write_trace(traces[kind], 1 << EVENT_BITS, EVENTS, SEED, kind)
        for number in range(rounds):
            for kind in KINDS if number % 2 == 0 else KINDS[::-1]:
                one, sizes[kind] = measure(program, kind, os.path.join(folder, "images"), traces[kind], lines, large)
                taken[kind].append(one)
    print(f"plain, safe, and the middle of the ratios of {rounds} rounds; {load()}")
    for name in (EVENT, LARGE_WRITE, WRITES, SETTLE, SAVE, AGAIN, CHANGED, OPENING):
        tell(name, *([one[name] for one in taken[kind]] for kind in KINDS))
    print("an image: " + ", ".join(f"{kind} {sizes[kind][0]:,} bytes, {sizes[kind][1]:,} on the disk" for kind in KINDS))


if __name__ == "__main__":
    main()
