"""Saves arrays of 2^12, 2^16 and 2^20 blocks and opens them by `status`, and prints the time per block and the MB a second.

The arrays have blocks of 512 bytes on four boundaries (m = 2, slots for twice the blocks). Each is saved and opened twice: with all blocks written
and no volume on them, and with a settled volume of bench/check.py, whose claims an opening reads again. A save's time is that of one event, from
sending it to its reply; an opening's is that of a run of the program beyond a run on an array of 64 blocks. The MB a second are those of the bodies: on all
members for a save, of the one that is read for an opening. From 2^16 to 2^20 the processor's time per block may grow by a factor of 1.5 at most; that
of an opening of a volume, by block and bit of the number, since it sorts claims. Else the exit status is 1. (What an array of 2^12 needs fits into the
processor's caches, so it takes less time a block, by the same instructions.) With the word `count`, the instructions that valgrind counts of a save and of an
opening of loose arrays of 2^12 to 2^18 blocks are printed instead, and may grow by a factor of 1.02 at most. The image files stand in a temporary folder
(TMPDIR says where): about 1.5 GB.
"""
import os
import subprocess
import sys
import tempfile
import time

from check import FRAGMENT, sound_volume
from session import Session, load
from taken import instructions

SIZES = (12, 16, 20)
LEAST = 6
BOUNDARIES = 4
ROUNDS = 5
OPENINGS = 25
COUNTED = (12, 14, 16, 18)
LABEL_LENGTH_AT = 40


def shape_of(bits):
    return FRAGMENT, 1 << bits, BOUNDARIES, (1 << bits) // 2, 2


def body_length(folder):
    """The length of the body that a member's label tells."""
    with open(os.path.join(folder, "member-00-0.img"), "rb") as image:
        image.seek(LABEL_LENGTH_AT)
        return int.from_bytes(image.read(4), "little")


def lines_of(bits, is_volume):
    """The writes before the save."""
    if not is_volume:
        return (f"write {block} 01\n" for block in range(1 << bits))
    volume = sound_volume(1 << bits)
    return (f"write {block} {data.hex()}\n" for block, data in sorted(volume.image.items()) if any(data))


def opening(program, folder, wanted):
    """The seconds of `status`: by the clock, and of the processor."""
    clock = time.monotonic()
    child = subprocess.Popen([program, "status"], stdout=subprocess.PIPE, cwd=folder)
    lines = child.stdout.read().decode().split("\n")
    _, status, usage = os.wait4(child.pid, 0)
    clock = time.monotonic() - clock
    if status != 0 or lines[1] != f"phase {wanted}":
        sys.exit(f"status ended with wait status {status} and {lines[:2]}")
    return clock, usage.ru_utime + usage.ru_stime


class Array:
    """An array that is saved, and what each save and opening took: the seconds by the clock and of the processor."""

    def __init__(self, program, folder, bits, is_volume):
        self.program, self.bits, self.phase = program, bits, "settled" if is_volume else "loose"
        self.folder = os.path.join(folder, f"{bits}-{self.phase}")
        self.saves, self.openings = [], []
        session = Session(program, self.folder, shape_of(bits))
        session.all_well(lines_of(bits, is_volume))
        if is_volume:
            session.expect("settle", "settled")
        for number in range(1, ROUNDS + 1):
            self.saves.append(session.expect("save", f"saved {number}"))
        session.end()
        self.body = body_length(self.folder)

    def open(self):
        self.openings.append(opening(self.program, self.folder, self.phase))

    def least(self, taken):
        return [min(one[kind] for one in taken) for kind in (0, 1)]

    def each(self, least):
        """Prints the least seconds per block of a save and of an opening, and answers those of the processor."""
        opened = [one - other for one, other in zip(self.least(self.openings), least)]
        found = []
        for word, seconds, size in (("save", self.least(self.saves), 2 * BOUNDARIES * self.body), ("opening", opened, self.body)):
            clock, processor = (one / (1 << self.bits) for one in seconds)
            print(
                f"2^{self.bits} blocks, {self.phase}, {word} of {size / 1e6:,.2f} MB: {clock * 1e9:.0f} ns a block by the clock, "
                f"{processor * 1e9:.0f} ns of the processor, {size / seconds[0] / 1e6:,.0f} MB/s by the clock; {load()}"
            )
            found.append(processor)
        return found


def measure(program, folder, is_volume):
    """Whether the time per block of a save or of an opening grows by more than it may."""
    least, *arrays = [Array(program, folder, bits, is_volume and bits != LEAST) for bits in (LEAST, *SIZES)]
    for _ in range(OPENINGS):
        for array in (least, *arrays):
            array.open()
    found = {bits: array.each(least.least(least.openings)) for bits, array in zip(SIZES, arrays)}
    return [grows(arrays[0].phase, found, small, large) for small, large in ((SIZES[0], SIZES[1]), (SIZES[1], SIZES[2]))][-1]


def grows(phase, found, small, large):
    """Prints by how much a save's and an opening's time per block grow, and answers whether that is more than they may."""
    save, opened = (one / other for one, other in zip(found[large], found[small]))
    by_bit = opened * small / large
    print(
        f"{phase}, time per block at 2^{large} to that at 2^{small}: save {save:.2f}, opening {opened:.2f}, "
        f"by the bits of the number {by_bit:.2f}", flush=True,
    )
    return save > 1.5 or (by_bit if phase == "settled" else opened) > 1.5


def of_saves(program, folder, bits, saves):
    """The instructions of a replay that fills an array and saves it so many times."""
    place, trace = os.path.join(folder, f"{bits}-{saves}"), os.path.join(folder, "trace")
    os.mkdir(place)
    with open(trace, "w") as out:
        out.write("array {} {} {} {} {}\n".format(*shape_of(bits)))
        out.writelines(lines_of(bits, False))
        out.write("save\n" * saves)
    return instructions(program, ["replay"], trace, place)


def count(program, folder):
    """Prints the instructions per block of a save and of an opening, and answers whether they grow."""
    of_saves(program, folder, LEAST, 1)
    least = instructions(program, ["status"], folder=os.path.join(folder, f"{LEAST}-1"))
    if least is None:
        sys.exit("there is no valgrind")
    found = []
    for bits in COUNTED:
        one, two = (of_saves(program, folder, bits, saves) for saves in (1, 2))
        opened = instructions(program, ["status"], folder=os.path.join(folder, f"{bits}-1")) - least
        found.append([each / (1 << bits) for each in (two - one, opened)])
        print(f"2^{bits} blocks, loose: {found[-1][0]:.1f} instructions a block of a save, {found[-1][1]:.1f} of an opening", flush=True)
    return any(large / small > 1.02 for small, large in zip(found[0], found[-1]))


def main():
    program = os.path.abspath(sys.argv[1])
    if "count" in sys.argv[2:]:
        with tempfile.TemporaryDirectory() as folder:
            sys.exit(count(program, folder))
    grew = []
    for is_volume in (False, True):
        with tempfile.TemporaryDirectory() as folder:
            grew.append(measure(program, folder, is_volume))
    sys.exit(any(grew))


if __name__ == "__main__":
    main()
