"""Audits volumes of 2^12, 2^16 and 2^20 fragments of 512 bytes, sound and with 1, 100 and 10,000 faults, and prints what that takes.

The volumes are those of `check.py`; a fault is a fragment of a file that is marked as free. An audit makes the table of claims by itself, so it is
compared with a scan and a check of the sound volume (the task `fresh`), by turns; the reading of the image isn't in either. The exit status is 1
where an audit takes more than 1.5 times as long, or doesn't find what was put in. Words after the program are the numbers of faults.
"""
import os
import statistics
import sys
import tempfile

from check import sound_volume
from programs import SIZES, run

ROUNDS = 7
FAULTS = (0, 1, 100, 10_000)
MOST = 1.5


def seconds(program, image, task, times, wanted):
    """The seconds of a task: runs with many of it beside one with one."""
    once, often = (run(program, (task, count), wanted, image) for count in (1, 1 + times))
    return (often.seconds - once.seconds) / times, often.peak


TOLD = r"(\d+) malformations, 0 unnamed, (\d+) unclaimed\n"


def told(program, image):
    """How many malformations an audit finds, and how many fragments belong to nothing."""
    return map(int, run(program, ("audit", 1), TOLD, image).found.groups())


def ratio(program, sound, image, faults, times):
    """What an audit of an image takes beside a scan and a check of the sound one: the median of the ratios by turns, and the seconds and the peak."""
    none, loose = told(program, sound)
    bad, left = told(program, image)
    # A used fragment that nothing claims is no fault once it is marked as free.
    if none or bad + loose - left != faults:
        sys.exit(f"{faults} faults were put in, and {bad} malformations found, with {left} of {loose} fragments that belong to nothing")
    found = []
    for _ in range(ROUNDS):
        fresh, low = seconds(program, sound, "fresh", times, r"Sound\n")
        audit, high = seconds(program, image, "audit", times, rf"{bad} malformations, 0 unnamed, {left} unclaimed\n")
        found.append((audit / fresh, audit, high - low))
    return (statistics.median(it) for it in zip(*found))


def main(program, *numbers):
    worst = 0
    with tempfile.TemporaryDirectory() as folder:
        sound, image = (os.path.join(folder, name) for name in ("sound", "image"))
        for bits in SIZES:
            volume = sound_volume(1 << bits)
            volume.write(sound, 1 << bits)
            for asked in map(int, numbers or FAULTS):
                faults = volume.mark_free(asked)
                volume.write(image, 1 << bits)
                by_check, each, more = ratio(program, sound, image, faults, max(2, (1 << 19 >> bits)))
                print(
                    f"2^{bits} fragments, {faults:,} faults: {each * 1e3:.2f} ms an audit, {each / (1 << bits) * 1e9:.0f} ns a fragment, "
                    f"{by_check:.3f} of a scan and a check; {more / (1 << 20):.1f} MiB more",
                    flush=True,
                )
                worst = max(worst, by_check)
    print(f"at most {worst:.3f} of a scan and a check")
    sys.exit(worst > MOST)


if __name__ == "__main__":
    main(*sys.argv[1:])
