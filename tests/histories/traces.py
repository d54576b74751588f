"""Random traces over small arrays: the first one, which makes the array, and further ones for an array that was opened."""
import functools
import os
import random
import sys

HERE = os.path.dirname(os.path.abspath(__file__))
sys.path.append(os.path.join(HERE, "..", "soak"))
from image import Image, Item, make_geometry  # noqa: E402
from volume import ROOT  # noqa: E402

PATHS = ["/", "/a", "/b", "/d", "/d/c", "/e", "/d/none"]
VOLUME_BLOCKS = 64
VOLUMES = 12
# These events write nothing, so they leave every byte of the images.
READING = frozenset("read who pending cat ls tree home lostfiles drop mend fail".split())


def items_of(rng):
    """A few files, a directory and a link."""
    sizes = [0, 1, 300, 512, 513, 1500, 4096]
    items = [
        Item(3, ROOT, b"a", "r", rng.randbytes(rng.choice(sizes))), Item(4, ROOT, b"d", "d"), Item(5, 4, b"c", "r", rng.randbytes(rng.choice(sizes))),
        Item(6, ROOT, b"b", "r", rng.randbytes(rng.choice(sizes))), Item(7, ROOT, b"e", "l", rng.randbytes(rng.choice([5, 100])).replace(b"\0", b"x")),
    ]
    return [item for item in items if item.inode in (3, 4, 5) or rng.random() < 0.5]


@functools.cache
def volume(number):
    """The blocks of a small volume."""
    rng = random.Random(f"volume {number}")
    places = {"sblkno": 19, "cblkno": 22, "iblkno": 23, "dblkno": 31, "cgsize": 200, "csaddr": 31, "cssize": 16}
    made = Image(make_geometry(rng.choice(["little", "big"]), 512, 8, 1, VOLUME_BLOCKS, 32, **places), VOLUME_BLOCKS, used_at=100, free_at=104)
    made.add_all(items_of(rng))
    return [bytes(block) for block in made.blocks]


def shape_of(rng, has_volume):
    """The numbers of an array, often with no slot to spare."""
    n = VOLUME_BLOCKS + rng.choice([0, 0, 5]) if has_volume else rng.randrange(1, 33)
    b = rng.choice([2, 2, 3, 3, 4])
    least = rng.randrange(2, b + 1)
    k = -(-n // least) + rng.choice([0, 0, 1, rng.randrange(1, 9)])
    length = 512 if has_volume else rng.choice([512, 512, 1024])
    return length, n, b, k, rng.randrange(1, least + 1)


def hexed(data):
    return data.rstrip(b"\0").hex() or "-"


def volume_writes(rng):
    """The blocks of a volume in some order."""
    blocks = [(block, data) for block, data in enumerate(volume(rng.randrange(VOLUMES))) if any(data)]
    rng.shuffle(blocks)
    return [f"write {block} {hexed(data)}" for block, data in blocks]


def random_write(rng, length, n):
    block = rng.randrange(n + (rng.random() < 0.02))
    return f"write {block} {hexed(rng.randbytes(rng.choice([1, 1, 2, 8, length])) if rng.random() < 0.95 else b'')}"


def other_event(rng, n, b):
    """An event that isn't a write of a block, nor a save."""
    block, boundary, side, path = rng.randrange(n), rng.randrange(b), rng.randrange(2), rng.choice(PATHS)
    kind = rng.random()
    if kind < 0.6:
        return rng.choice([
            f"read {block}", f"read {block}", f"who {block}", "pending", f"cat {path}", f"cat {path}", f"ls {path}", f"home {path}", "tree", "lostfiles",
            f"drop {boundary} {side}", f"mend {boundary} {side}",
        ])
    if kind < 0.8:
        return rng.choice(["settle", "settle", f"tend {rng.choice([0, 1, 3, 99])}", "diffuse"])
    if kind < 0.97:
        return rng.choice([f"fail {boundary} {side}", f"replace {boundary} {side}", f"rebuild {boundary} {rng.choice([0, 1, 5, 99])}"])
    return "regroup"


def refill(rng, b):
    """A member fails, and is replaced and refilled."""
    s, j = rng.randrange(b), rng.randrange(2)
    return [f"fail {s} {j}", f"replace {s} {j}", *rng.choice([["rebuild %d 99" % s], ["rebuild %d 2" % s, "save", "rebuild %d 99" % s], []])]


def copies(rng):
    """Files are read in a settled array, and copied."""
    return ["settle", *(f"cat {path}" for path in rng.sample(PATHS, 3)), "diffuse"]


def mixed(rng, shape, count):
    """Some events in any order."""
    length, n, b, _, _ = shape
    lines = []
    while len(lines) < count:
        kind = rng.random()
        if kind < 0.4:
            lines.append(random_write(rng, length, n) if rng.random() < 0.9 else f"write {rng.randrange(n)} -")
        elif kind < 0.9:
            lines.append(other_event(rng, n, b))
        else:
            lines += refill(rng, b) if rng.random() < 0.5 else copies(rng)
    return lines


def with_saves(rng, lines, often):
    out = []
    for line in lines:
        out.append(line)
        if rng.random() < often:
            out.append("save")
            if rng.random() < 0.3:
                out += ["save"] * (rng.random() < 0.5)
    return out + ["save"] * (rng.random() < 0.8)


def first_trace(rng, word="array"):
    """The lines of a replay, and whether there is a volume."""
    has_volume = rng.random() < 0.35
    shape = shape_of(rng, has_volume)
    lines = volume_writes(rng) if has_volume else []
    lines += copies(rng) if has_volume and rng.random() < 0.6 else []
    lines += mixed(rng, shape, rng.choice([0, 2, 6, 12]) if has_volume else rng.randrange(1, 25))
    return [f"{word} {' '.join(map(str, shape))}", *with_saves(rng, lines, 0.05)]


def short_trace(rng, shape):
    """A save of much the same state, often without a member; so two that begin with one array may differ in their members alone."""
    _, n, b, _, _ = shape
    lines = [f"fail {rng.randrange(b)} {rng.randrange(2)}" for _ in range(rng.choice([0, 1, 1, 2]))]
    return [*lines, "save", *(f"read {rng.randrange(n)}" for _ in range(rng.randrange(3)))]


def further_trace(rng, array):
    """The lines of a resume on an array."""
    shape = array.l, array.n, array.boundaries, array.k, array.m
    kind = rng.random()
    if kind < 0.15:
        return [line for line in mixed(rng, shape, rng.randrange(12)) if line.split(" ")[0] in READING]
    if kind < 0.35:
        return short_trace(rng, shape)
    lines = mixed(rng, shape, rng.randrange(1, 16))
    if array.n >= VOLUME_BLOCKS and array.l == 512 and rng.random() < 0.4:
        lines[:0] = rng.choice([volume_writes(rng), copies(rng), volume_writes(rng) + copies(rng)])
    return with_saves(rng, lines, 0.08)


def reads_of_all(array):
    return [f"read {block}" for block in range(array.n)]
