"""Arrays of groups of disks, and sessions on them that are made at random."""
import random

from model import CALLS, new_groups, opened_groups
from reading import CHUNK, FIELDS, number_of
from sessions import GROUPS, ROOM, Session

KINDS = ("write", "read", "find", "extend", "drop", "mend", "blank")
WEIGHTS = (36, 36, 3, 5, 8, 11, 1)
LONGEST = 10000
# calls of an opening of which no disk has a header
LOOKS = 128


def some_size(rng, width):
    """The length of a member: often at the end of a chunk or of a stripe."""
    stripe = CHUNK * (width - 1)
    near = rng.choice((0, CHUNK, 2 * CHUNK, stripe, 2 * stripe, 3 * stripe, 17 * CHUNK)) + rng.randint(-2, 2)
    return min(8000, max(0, rng.choice((near, rng.randint(0, 8000)))))


def some_range(rng, size, width):
    """A place and a count in a member, or a little past it."""
    edge = CHUNK * rng.choice((1, width - 1))
    place = rng.choice((rng.randint(0, size), rng.randint(0, size) // edge * edge))
    count = rng.choice((rng.randint(0, 40), edge, 2 * edge, rng.randint(0, size), size - place))
    return place, count if rng.random() < 0.03 else min(count, size - place)


def operation(rng, group):
    """An operation on a group, by which mostly at most one disk is out then."""
    size, what = len(group.data), rng.choices(KINDS, WEIGHTS)[0]
    if group.lost and rng.random() < 0.6:
        what = "blank"
    elif what == "drop" and group.out and rng.random() < 0.95:
        what = "mend"
    if what == "blank":
        words = [some_size(rng, group.width)]
    elif what == "extend":
        words = [max(0, min(size + rng.choice((0, 1, 100, 600, 3000)), LONGEST) - (rng.random() < 0.03))]
    elif what == "drop":
        words = [rng.randrange(group.width)]
    elif what == "mend":
        words = [rng.choice([*group.out] * 9 + [*range(group.width)])]
    elif what == "find":
        words = []
    else:
        place, count = some_range(rng, size, group.width)
        words = [place, count if what == "read" else rng.randbytes(count).hex()]
    return " ".join(map(str, (what, group.number, *words)))


def operations(rng, groups, count):
    """Operations one after another, as if no call failed."""
    done = []
    for _ in range(count):
        group = groups[rng.randrange(GROUPS)]
        done.append(operation(rng, group))
        what, _, *words = done[-1].split(" ")
        CALLS[what](group, set(), words, None)
    return done


class Array:
    """The disks of an array, those among them that are away, and its groups as they were left."""

    def __init__(self, seed):
        self.rng, self.images, self.kept = random.Random(seed), {}, {}
        # what a session has in place of a disk
        self.instead = {}

    def fails(self, first, low, high):
        """The numbers of some calls that are to fail, mostly of one at most."""
        return sorted({first + self.rng.randint(low, high) for _ in range(self.rng.choice((0, 0, 1, 1, 2)))})

    def first(self, count):
        """A session on a new rack."""
        self.images, self.kept = {}, {}
        width = self.rng.randint(3, 8)
        groups = new_groups(width, 16)
        blanks = [f"blank {number} {some_size(self.rng, width)}" for number in range(GROUPS)]
        for group, line in zip(groups, blanks):
            CALLS["blank"](group, set(), line.split(" ")[2:], None)
        fails = self.fails(0, 0, 60) if self.rng.random() < 0.2 else []
        return Session(width, {}, fails, blanks + operations(self.rng, groups, count - GROUPS), {})

    def take_away(self):
        """Some disks are away, mostly one of a group at most, or have another byte in the header."""
        self.instead = {}
        for group in range(GROUPS):
            numbers = [number for number in self.images if number // 8 == number_of(group, 0) // 8]
            if numbers and self.rng.random() < 0.35:
                number = self.rng.choice(numbers)
                image = bytearray(self.images[number])
                image[self.rng.choice((self.rng.randrange(CHUNK), self.rng.randrange(FIELDS.size)))] ^= self.rng.randrange(1, 256)
                self.instead[number] = self.rng.choice((None, None, None, bytes(image)))

    def next(self, count):
        """A session on the disks, without those that are away."""
        self.take_away()
        images = {number: self.instead.get(number, image) for number, image in self.images.items()}
        images = {number: image for number, image in images.items() if image}
        width, groups = opened_groups(images, set(), self.kept)
        if not width:
            return self.first(count)
        first = 2 * len(images)
        low = self.rng.choice((0, LOOKS + len(images)))
        return Session(0, images, self.fails(first, low, LOOKS + len(images) + 8 * count), operations(self.rng, groups, count), self.kept)

    def ended(self, groups, disks):
        """A session has left these groups and disks. A disk that was away is back as it was, unless it was made anew."""
        for number, image in self.instead.items():
            if disks.get(number) == image:
                disks[number] = self.images[number]
        self.images = disks
        self.kept = {**self.kept, **{group.number: group for group in groups if group.served}}
