"""What an opening of image files gives by the rules, read plainly: the body of a member, and the array that the members say.

Labels are read by tests/soak/saved.py, and an opened array is its model. Nothing here is taken from the program.
"""
import os
import sys
from collections import namedtuple
from functools import lru_cache

sys.path.insert(0, os.path.join(os.path.dirname(os.path.abspath(__file__)), "..", "soak"))
from model import GOOD, OUT, Array  # noqa: E402
from saved import numbers, read_label  # noqa: E402
from volume import Volume  # noqa: E402

PHASES = ("loose", "settled", "worn")
MOST_RECENT = 16
# good: a truth per member; sites: pairs of boundary and slot per block; pending: a truth per block; homes and copies: pairs of inode and
# boundary; recent: inodes
State = namedtuple("State", "phase good sites pending homes copies recent")


class NoBody(Exception):
    """Bytes that are no body."""


class Reader:
    def __init__(self, data):
        self.data, self.at = data, 0

    def number(self, count):
        if self.at + count > len(self.data):
            raise NoBody
        self.at += count
        return int.from_bytes(self.data[self.at - count:self.at], "little")

    def one_of(self, *allowed):
        value = self.number(1)
        if value not in allowed:
            raise NoBody
        return value

    def pairs(self, most, b):
        """Inodes that rise, each with a boundary."""
        count = self.number(4)
        if count > most:
            raise NoBody
        found = []
        for _ in range(count):
            inode, boundary = self.number(4), self.number(1)
            if boundary >= b or found and inode <= found[-1][0]:
                raise NoBody
            found.append((inode, boundary))
        return found


def sites_in(reader, shape):
    """The sites and the pending marks of the blocks."""
    _, n, b, k, _ = shape
    sites, pending, taken = [], [], set()
    for _ in range(n):
        count = reader.number(1)
        pending.append(reader.one_of(0, 1) == 1)
        row = []
        for _ in range(count):
            site = reader.number(1), reader.number(4)
            if site[0] >= b or site[1] > k or site in taken or any(site[0] == other[0] for other in row):
                raise NoBody
            taken.add(site)
            row.append(site)
        sites.append(row)
    return sites, pending


@lru_cache(maxsize=64)
def decode(body, shape, form):
    """The state that a body of this format says, or None. Who changes its lists copies them first."""
    _, n, b, _, _ = shape
    reader = Reader(body)
    try:
        phase = PHASES[reader.one_of(0, 1, 2)]
        for _ in range(3):
            reader.one_of(0)
        good = [reader.one_of(0, 1) == 0 for _ in range(2 * b)]
        sites, pending = sites_in(reader, shape)
        homes = reader.pairs(n, b)
        copies, recent = [], []
        if form == b"2":
            copies = reader.pairs(len(homes), b)
            recent = [reader.number(4) for _ in range(reader.one_of(*range(MOST_RECENT + 1)))]
    except NoBody:
        return None
    home_of = dict(homes)
    well = all(phase == "settled" and home_of.get(inode, boundary) != boundary for inode, boundary in copies)
    if reader.at < len(body) or not well or len(set(recent)) < len(recent):
        return None
    return State(phase, good, sites, pending, homes, copies, recent)


def encode(state, form):
    """The bytes of a state in a format, whether or not they are a body."""
    body = bytes([PHASES.index(state.phase), 0, 0, 0]) + bytes(not good for good in state.good)
    for row, pending in zip(state.sites, state.pending):
        body += bytes([len(row), pending]) + b"".join(bytes([boundary]) + numbers(slot) for boundary, slot in row)
    for pairs in (state.homes, state.copies)[:1 if form == b"1" else 2]:
        body += numbers(len(pairs)) + b"".join(numbers(inode) + bytes([boundary]) for inode, boundary in pairs)
    return body + (bytes([len(state.recent)]) + numbers(*state.recent) if form == b"2" else b"")


class Opened(Array):
    """An opened array, and the member whose body was read. It isn't sure what a block holds where the good members that have it don't agree."""

    is_sure, source = True, None


def values_of(array, images, block):
    """What the good members say that a block holds: the bytes of each slot of it."""
    found = []
    for boundary, slot in array.sites[block]:
        for side, member in enumerate(array.members[boundary]):
            if member == GOOD:
                at = 512 + slot * array.l
                found.append(images[2 * boundary + side][at:at + array.l])
    return found


def is_in_order(array):
    """The facts of a settled array: a sound volume, each block in its place, and homes of just the files with a written block."""
    if array.volume.first_malformation() or set(array.files()) != set(array.homes):
        return False
    for block in array.written():
        want, on = array.want(block), set(array.boundaries_of(block))
        if want == "kept":
            if on != {(block + i) % array.b for i in range(array.m)}:
                return False
        elif want != "stray" and on != {places[want] for places in (array.homes, array.copies) if want in places}:
            return False
    return True


def array_of(state, label, members, images):
    """The array that a state says, with these members good."""
    array = Opened(*label.shape)
    array.saves = label.sequence
    array.sites = [list(row) for row in state.sites]
    array.pending = {block for block, pending in enumerate(state.pending) if pending}
    array.homes, array.copies, array.recent = dict(state.homes), dict(state.copies), list(state.recent)
    for member, is_good in enumerate(members):
        array.members[member // 2][member % 2] = GOOD if is_good else OUT
    for block in array.written():
        values = values_of(array, images, block)
        array.is_sure &= len(set(values)) <= 1
        array.blocks[block] = values[0] if values else bytes(array.l)
    array.volume = Volume(tuple(array.blocks), array.l)
    array.worn = bool(array.lost())
    if not array.worn:
        array.pending -= array.volume.system_blocks() | array.volume.claims.keys()
    array.settled = state.phase == "settled" and not array.worn and is_in_order(array)
    if not array.settled:
        array.copies = {}
    return array


def opened_from(found):
    """What an opening of members gives: `nostate`, `unclean`, or the array. Each of `found` has its own label, or None, and its image."""
    labels = {member: label for member, (label, _) in found.items() if label and member // 2 < label.shape[2]}
    newest = max((label.sequence for label in labels.values()), default=None)
    counted = {member: label for member, label in labels.items() if label.sequence == newest}
    if not all(label.sealed for label in counted.values()):
        return "unclean"
    for member, label in sorted(counted.items()):
        state = decode(label.body(found[member][1]), label.shape, label.form)
        if state:
            good = [other in counted and counted[other].key == label.key and state.good[other] for other in range(2 * label.shape[2])]
            array = array_of(state, label, good, {other: image for other, (_, image) in found.items()})
            array.source = member
            return array
    return "nostate"


def opened(folder):
    """What an opening of the images in a folder gives."""
    return opened_from({member: read_label(folder, member) for member in range(32)})
