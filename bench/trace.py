"""Makes the traces of images of 16, 64 and 256 MiB by the command `trace`, in the order `late`, and prints what that takes.

The volumes are those of bench/check.py, with fragments of 512 bytes; the array has four boundaries with slots for twice the blocks. The
trace goes to a pipe once, where it is compared with the lines that the volume's blocks make, and then to nowhere. A turn makes 256 MiB of each
image's traces, and of three turns the least mean counts. The time per MiB of an image, of the processor in the program, may grow by a factor
of 1.3 from 16 to 256 MiB; else the exit status is 1. At last the peak memory is told of an image of 256 MiB whose superblock is refused (zeros), as
a file and through a pipe. The images stand in a temporary folder (TMPDIR says where).
"""
import collections
import hashlib
import os
import subprocess
import sys
import tempfile
import time

from check import FRAGMENT, sound_volume
from replay import peak_of
from settle import BOUNDARIES, written_blocks

ROUNDS = 3
SIZES = (16, 64, 256)
MOST_RATIO = 1.3
REFUSED = 8

# The seconds by the clock, of the processor in the program and in the system, and the peak memory in KiB.
Taken = collections.namedtuple("Taken", "clock seconds system peak")


def watched(child):
    """Waits for a process: how it ended, what it took, and its peak memory in KiB."""
    peak, ended = 0, 0
    while not ended:
        peak = max(peak, peak_of(child.pid))
        time.sleep(0.001)
        ended, status, usage = os.wait4(child.pid, os.WNOHANG)
    return status, usage, peak


def refused_peaks(program, folder):
    """The peak memory in KiB of traces of an image whose superblock is refused, which is a file and which comes through a pipe."""
    path, peaks = os.path.join(folder, "refused"), []
    with open(path, "wb") as image:
        image.truncate(SIZES[-1] << 20)
    words = [program, "trace", "late", str(BOUNDARIES), "64", "2"]
    for piped in [False, True]:
        with open(path, "rb") as image:
            sender = subprocess.Popen(["cat", path], stdout=subprocess.PIPE) if piped else None
            child = subprocess.Popen(words, stdin=sender.stdout if piped else image, stdout=subprocess.DEVNULL)
            if piped:
                sender.stdout.close()
            status, _, peak = watched(child)
            if piped:
                sender.wait()
        if os.waitstatus_to_exitcode(status) != REFUSED:
            sys.exit(f"the image of zeros isn't refused: wait status {status}")
        peaks.append(peak)
    return peaks


class Image:
    """The image of a volume of so many MiB, and the digest of its trace."""

    def __init__(self, folder, mib):
        self.mib = mib
        self.path = os.path.join(folder, f"{mib}")
        fragments = mib << 20 >> FRAGMENT.bit_length() - 1
        self.words = ["trace", "late", BOUNDARIES, fragments // 2, 2]
        volume = sound_volume(fragments)
        volume.write(self.path, fragments)
        digest = hashlib.sha256(f"array {FRAGMENT} {fragments} {BOUNDARIES} {fragments // 2} 2\n".encode())
        blocks = written_blocks(volume, "late")
        for block in blocks:
            data = volume.image[block].rstrip(b"\0")
            digest.update(f"write {block} {data.hex()}\n".encode())
        self.lines, self.digest = len(blocks) + 1, digest.digest()

    def start(self, program, stdout):
        with open(self.path, "rb") as stdin:
            return subprocess.Popen([program, *map(str, self.words)], stdin=stdin, stdout=stdout)

    def check(self, program):
        """Compares a trace with the wanted one."""
        child = self.start(program, subprocess.PIPE)
        digest = hashlib.sha256()
        while piece := child.stdout.read(1 << 20):
            digest.update(piece)
        if child.wait() != 0 or digest.digest() != self.digest:
            sys.exit(f"the trace of {self.mib} MiB isn't as expected; status {child.returncode}")

    def trace(self, program):
        """One run: what it takes."""
        start = time.monotonic()
        status, usage, peak = watched(self.start(program, subprocess.DEVNULL))
        if status != 0:
            sys.exit(f"the program ended with wait status {status}")
        return Taken(time.monotonic() - start, usage.ru_utime, usage.ru_stime, peak)

    def turn(self, program):
        """The means of so many runs that their images have together what the largest has."""
        runs = [self.trace(program) for _ in range(SIZES[-1] // self.mib)]
        return Taken(*(sum(parts) / len(runs) for parts in zip(*runs)))


def main():
    program = sys.argv[1]
    with tempfile.TemporaryDirectory() as folder:
        images = [Image(folder, mib) for mib in SIZES]
        for image in images:
            image.check(program)
        turns = [[image.turn(program) for image in images] for _ in range(ROUNDS)]
        refused = refused_peaks(program, folder)
    per_mib = []
    for image, taken in zip(images, zip(*turns)):
        least = Taken(*map(min, zip(*taken)))
        per_mib.append(least.seconds / image.mib)
        print(
            f"{image.mib} MiB, {image.lines:,} lines: {least.clock * 1e3:,.0f} ms by the clock, {least.seconds * 1e3:,.0f} in the program, "
            f"{least.system * 1e3:,.0f} in the system; MiB of the image a second: {image.mib / least.clock:,.0f} by the clock, "
            f"{image.mib / least.seconds:,.0f} in the program; peak memory {least.peak / 1024:,.1f} MiB"
        )
    print(f"{SIZES[-1]} MiB, the superblock refused: peak memory {refused[0] / 1024:,.1f} MiB of a file, {refused[1] / 1024:,.1f} through a pipe")
    ratio = per_mib[-1] / per_mib[0]
    print(f"time per MiB at {SIZES[-1]} MiB to that at {SIZES[0]}: {ratio:.2f}")
    sys.exit(ratio > MOST_RATIO)


if __name__ == "__main__":
    main()
