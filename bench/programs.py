"""Runs of programs that print one line, and what they take: those of crates/volume_bench on the images of volumes, and others."""
import collections
import os
import re
import subprocess
import sys
import tempfile
import time

ROUNDS = 3
SIZES = (12, 16, 20)

# The processor's seconds in a program and in the system for it, its peak memory in bytes, and the match of its line with what is wanted.
Ran = collections.namedtuple("Ran", "seconds system peak found")


def peak_of(pid):
    """The peak memory of a running process in bytes, 0 where it has ended."""
    with open(f"/proc/{pid}/status") as status:
        for line in status:
            if line.startswith("VmHWM:"):
                return int(line.split()[1]) * 1024
    return 0


def run(program, words, wanted, image=os.devnull):
    """A run with these words, and an image as its input."""
    peak, ended = 0, 0
    with open(image, "rb") as stdin:
        child = subprocess.Popen([program, *map(str, words)], stdin=stdin, stdout=subprocess.PIPE)
        while not ended:
            peak = max(peak, peak_of(child.pid))
            time.sleep(0.002)
            ended, status, usage = os.wait4(child.pid, os.WNOHANG)
        line = child.stdout.read().decode()
    found = re.fullmatch(wanted, line)
    if status != 0 or not found:
        sys.exit(f"the program ended with wait status {status} and printed {line!r}")
    return Ran(usage.ru_utime, usage.ru_stime, peak, found)


def measure(program, image, task, fragments, wanted, wanted_without):
    """The seconds of a task, the bytes that it takes beyond a run without it, and a match of what it prints."""
    times = 1 + max(2, (1 << 19) // fragments)
    asked = ((0, wanted_without), (1, wanted), (times, wanted))
    without, once, often = ([run(program, (task, count), line, image) for _ in range(ROUNDS)] for count, line in asked)
    each = (min(one.seconds for one in often) - min(one.seconds for one in once)) / (times - 1)
    memory = max(one.peak for one in often) - max(one.peak for one in without)
    return each, memory, often[0].found


def compare(task, volume_of, wanted, wanted_without):
    """Prints what a task takes on volumes of these sizes. The exit status is 1 where it grows by more than n log n, twice over."""
    program = sys.argv[1]
    by_bit = []
    with tempfile.TemporaryDirectory() as folder:
        image = os.path.join(folder, "image")
        for bits in SIZES:
            fragments = 1 << bits
            volume = volume_of(fragments)
            volume.write(image, fragments)
            about = volume.about()
            del volume
            each, memory, found = measure(program, image, task, fragments, wanted, wanted_without)
            print(
                f"2^{bits} fragments, {about}; {found.group().strip()}: {each * 1e3:.2f} ms a {task}, "
                f"{each / fragments * 1e9:.0f} ns a fragment; {memory / (1 << 20):.1f} MiB more than without a {task}",
                flush=True,
            )
            by_bit.append(each / fragments / bits)
    print(f"time per fragment and bit at 2^20 to that at 2^12: {by_bit[2] / by_bit[0]:.2f}")
    sys.exit(by_bit[2] > 2 * by_bit[0])
