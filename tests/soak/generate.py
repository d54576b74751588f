"""Random traces over small hostile volumes, with the replies of the model.

A trace writes the blocks of an image in a random order, reads and asks in between, changes the image, breaks single fields
of it and mends them again, settles, and lets members fail. Boundaries are lost, and where enough are left the array goes on without them;
else the trace ends soon, since nothing can be written any more.
"""
import random

from image import GROUP_PLACES, INODE_PLACES, Image, Item, MODES, NoRoom, directory_bytes, make_geometry
from lines import FIRST, damaged, refusal
from model import GOOD, OUT, Filling, array_of_line, spelled, unspelled
from volume import FIELDS, ROOT, SUPER_AT, Refused, group_start, inode_places, read_chunk, roles, up

LONGEST_FILE = 40_000
# how often an event of an array that keeps a checkpoint is a save
SAVES = 0.03
NAMES = [b"a", b"b", b"c", b"file", b"sub", b"x y", b"\\", b"\x01\xff", b"N" * 255, b"...", b"-", b"e\xcc\x81"]


def random_geometry(rng, l, n):
    """A geometry that passes its tests, or nothing where the numbers drawn don't."""
    frag = rng.choice([8, 8, 4]) if l == 1024 else 8
    inopb = frag * l // 128
    size = rng.choice([n, n, n - rng.randrange(8)])
    ncg = rng.choice([1, 1, 2, 2, 3])
    fpg = up(size, ncg)
    ipg = inopb * rng.choice([1, 1, 1, 2])
    sblkno = up(9568, l) + rng.choice([0, 0, 1, 2])
    cblkno = sblkno + up(1376, l) + rng.choice([0, 0, 1])
    cgsize = rng.choice([frag * l, 100 + up(ipg, 8) + up(fpg, 8) + rng.randrange(80)])
    iblkno = cblkno + up(cgsize, l) + rng.choice([0, 0, 2])
    dblkno = iblkno + ipg // inopb * frag + rng.choice([0, 0, 1, 3])
    csaddr = rng.choice([dblkno, dblkno, rng.randrange(size), 0])
    fields = {
        "sblkno": sblkno, "cblkno": cblkno, "iblkno": iblkno, "dblkno": dblkno, "cgsize": cgsize, "size": size,
        "csaddr": csaddr, "cssize": rng.choice([16 * ncg, 0, 1, l + 1]), "maxsymlinklen": rng.choice([60, 60, 1, 20]),
    }
    cgoffset, cgmask = rng.choice([(0, 0xFFFFFFFF), (rng.randrange(1, 6), 0xFFFFFFFE), (1, 0), (rng.randrange(1 << 20), 0xFFFFFFFF)])
    order = rng.choice(["little", "big"])
    return make_geometry(order, l, frag, ncg, fpg, ipg, cgoffset, cgmask, **fields)


def is_possible(g):
    """Whether each group has room for its own blocks and some data."""
    return all(group_start(g, c) + g.dblkno + 3 <= min(g.fpg * (c + 1), g.size) for c in range(g.ncg)) and g.csaddr + up(
        g.cssize, g.fsize) <= g.size and 0 < (g.ncg - 1) * g.fpg + 1 <= g.size and (g.ncg - 1) * g.fpg < g.size


def random_items(rng, g):
    """Directories, files and links of a small tree."""
    inodes = rng.sample(range(3, min(g.ncg * g.ipg, 70)), rng.randrange(1, 14))
    if g.ncg > 1:
        inodes += rng.sample(range(g.ipg, 2 * g.ipg), 3)
    directories, items = [ROOT], []
    for inode in dict.fromkeys(inodes):
        kind = rng.choice("rrrrrrdddlls" + "pcb" * (rng.random() < 0.2))
        parent = rng.choice(directories)
        taken = {item.name for item in items if item.parent == parent}
        name = rng.choice([name for name in [*NAMES, b"%d" % inode] if name not in taken])
        items.append(random_item(rng, g, inode, parent, name, kind))
        if kind == "d":
            directories.append(inode)
    return items


def random_item(rng, g, inode, parent, name, kind):
    if kind == "l":
        length = rng.choice([5, g.maxsymlinklen - 1, g.maxsymlinklen, 300, g.fsize + 1])
        return Item(inode, parent, name, kind, bytes(rng.randrange(1, 256) for _ in range(length)))
    if kind != "r":
        return Item(inode, parent, name, kind)
    style = rng.random()
    if style < 0.75:
        size = rng.choice([0, 5, g.fsize, 3 * g.fsize - 1, g.bsize, g.bsize + 1, 2 * g.bsize, rng.randrange(4 * g.bsize)])
        holes = [n for n in range(4) if rng.random() < 0.1]
    elif style < 0.95:
        size = rng.randrange(12 * g.bsize, 16 * g.bsize)
        holes = rng.sample(range(14), rng.randrange(8, 14))
    else:
        size = (12 + g.nindir + rng.randrange(2)) * g.bsize + rng.randrange(1, g.bsize)
        holes = set(range(size // g.bsize + 1)) - {size // g.bsize, rng.randrange(14)}
    data = bytearray(size)
    for n in range(up(size, g.bsize)):
        for at in range(n * g.bsize, min((n + 1) * g.bsize, size), g.fsize) if n not in holes else ():
            data[at:at + 3] = rng.randbytes(3)[:size - at]
    return Item(inode, parent, name, kind, bytes(data), holes=holes)


def random_image(rng, g, n):
    """An image of a volume and its paths; with fewer items where there is no room."""
    while True:
        items = random_items(rng, g)
        used_at = 100 if g.cgsize < g.bsize else rng.choice([100, 256, 1000])
        free_at = used_at + up(g.ipg, 8)
        items = items[:rng.randrange(1, len(items) + 1)]
        try:
            made = Image(g, n, rng.choice([min, max, rng.choice]), used_at, free_at)
            made.add_all(items)
        except NoRoom:
            continue
        return made, paths_of(items)


def paths_of(items):
    paths = {ROOT: b""}
    for item in items:
        paths[item.inode] = paths.get(item.parent, b"") + b"/" + item.name
    return [path for path in paths.values() if path and len(path) < 1000]


class Trace:
    """A trace that is being made, with the replies so far."""

    def __init__(self, seed, word):
        self.rng = rng = random.Random(seed)
        self.lines, self.replies, self.tail = [], [], ""
        l, n = rng.choice([512, 1024]), rng.randrange(64, 257)
        b = rng.choice([2, 2, 3, 3, 4, 4, 5, 8, 16])
        # so many boundaries at least are to have room for the volume
        least = rng.randrange(2, b + 1) if rng.random() < 0.6 else b
        k = up(n, least) + rng.choice([0, 0, rng.randrange(1, 9), rng.randrange(n)])
        m = rng.randrange(1, least + 1) if rng.random() < 0.5 else rng.choice([1, min(least, 2), min(least, 3)])
        self.lines.append(f"{word} {l} {n} {b} {k} {m}")
        self.array = array_of_line(self.lines[0])
        self.replies.append(["ok"])
        self.queue = []
        self.often, self.over = 0.012 if least < b else 0.001, False
        self.new_geometry()

    def new_geometry(self):
        array = self.array
        while True:
            g = random_geometry(self.rng, array.l, array.n)
            if is_possible(g):
                self.g = g
                return self.new_goal()

    def new_goal(self):
        """Another image to be written, block by block."""
        made, self.paths = random_image(self.rng, self.g, self.array.n)
        self.goal = [bytes(block) for block in made.blocks]
        self.inodes = list(made.inodes)
        self.queue_goal()

    def queue_goal(self):
        rng = self.rng
        self.queue = [b for b, data in enumerate(self.goal) if data != self.array.blocks[b]]
        order = rng.random()
        if order < 0.6:
            rng.shuffle(self.queue)
        elif order < 0.8:
            self.queue.reverse()

    def do(self, line):
        self.lines.append(line)
        self.replies.append(self.array.do(line))

    def write(self, block, data):
        digits = data.hex() if self.rng.random() < 0.1 else data.rstrip(b"\0").hex()
        self.do(f"write {block} {digits or '-'}")

    # single broken fields

    def hostile_number(self):
        rng, n = self.rng, self.array.n
        return rng.choice([
            0, 1, 2, 3, rng.randrange(n), rng.randrange(n), rng.randrange(n), n, self.g.size, self.g.frag, (1 << 32) - 1,
            rng.randrange(1 << 32), self.g.bsize, self.g.fsize, self.g.dblkno, self.free_place(), self.free_place(),
        ])

    def free_place(self):
        """A multiple of frag whose block nobody claims, mostly."""
        frag, claims = self.g.frag, self.array.volume.claims
        places = [b for b in range(0, self.g.size, frag) if b not in claims and isinstance(roles(self.g)[b], int)]
        return self.rng.choice(places or [0])

    def patch(self, block, at, data):
        """A block's bytes with a change, which is written."""
        block, at = block + at // self.array.l, at % self.array.l
        if block < self.array.n:
            whole = bytearray(self.array.blocks[block])
            whole[at:at + len(data)] = data[:max(0, self.array.l - at)]
            self.write(block, bytes(whole))

    def number(self, value, count=4):
        return (value % (1 << 8 * count)).to_bytes(count, self.g.order)

    def break_something(self):
        breaks = [
            self.break_inode, self.break_inode, self.break_inode, self.break_pointer, self.break_pointer, self.break_entry,
            self.break_entry, self.break_group, self.break_super, self.break_block, self.move_block, self.break_directory,
            self.break_directory, self.break_directory, self.break_shape,
        ]
        self.rng.choice(breaks)()

    def break_inode(self):
        rng, g = self.rng, self.g
        i = rng.choice([*self.inodes, *self.inodes, ROOT, rng.randrange(g.ncg * g.ipg)])
        block, at = inode_places(g)[i]
        name = rng.choice(["mode", "mode", "size", "size", "size", *range(15), 0, 0, 12, 12])
        offset, count = INODE_PLACES[name]
        if name == "mode":
            value = rng.choice([0, *MODES.values(), 0o30000, rng.randrange(1 << 16)])
        elif name == "size":
            value = rng.choice([
                0, 1, 511, 512, 1024, g.fsize, g.bsize - 512, g.bsize, g.bsize + 512, 12 * g.bsize, 12 * g.bsize + 1,
                rng.randrange(14 * g.bsize), (1 << 32) - 512, 1 << 32, 1 << 63, g.maxsymlinklen, g.maxsymlinklen - 1,
            ])
        else:
            value = self.hostile_number()
        self.patch(block, at + offset, self.number(value, count))

    def break_pointer(self):
        """A pointer of an indirect block, or a claimed block that becomes one."""
        rng, claims = self.rng, self.array.volume.claims
        above = [f for f, on in claims.items() if any(level for level, _ in on)]
        if above:
            place = 4 * rng.choice([0, 0, 1, 2, 3, rng.randrange(self.array.l // 4)])
            self.patch(rng.choice(above), place, self.number(rng.choice([*above, self.hostile_number()])))
        else:
            self.patch(*self.inode_slot(rng.choice([12, 13, 14])))

    def inode_slot(self, slot):
        block, at = inode_places(self.g)[self.rng.choice([*self.inodes, ROOT])]
        return block, at + 40 + 4 * slot, self.number(self.hostile_number())

    def break_entry(self):
        """A field of an entry of a directory."""
        rng, volume = self.rng, self.array.volume
        directories = [inode for inode in volume.inodes.values() if inode.mode & 0o170000 == 0o040000]
        if not directories:
            return
        address = rng.choice(directories).slots[0]
        if not 0 < address < self.array.n:
            return
        data, at = self.array.blocks[address], 0
        for _ in range(rng.randrange(6)):
            length = int.from_bytes(data[at + 4:at + 6], self.g.order)
            if 8 <= length < 512 - at:
                at += length
        field = rng.randrange(6)
        if field < 3:
            named = rng.choice([0, 1, 2, *self.inodes, *self.inodes, self.hostile_number()])
            self.patch(address, at, self.number(named))
        elif field == 3:
            self.patch(address, at + 4, self.number(rng.choice([0, 4, 8, 12, 16, 500, 512, 513, rng.randrange(1 << 16)]), 2))
        elif field == 4:
            self.patch(address, at + 6, bytes([rng.choice([0, 4, 8, 10, 3])]))
        else:
            self.patch(address, at + 7, rng.choice([b"\0", b"\1.", b"\2..", b"\1a", b"\1b", b"\1/", b"\2a\0", b"\xff"]))

    def break_shape(self):
        """A directory with a hole, a short last block across two blocks, or a pointer behind its file's end."""
        rng, volume = self.rng, self.array.volume
        above = [f for f, on in volume.claims.items() if any(level for level, _ in on)]
        if above and rng.random() < 0.4:
            return self.patch(rng.choice(above), self.array.l - 4, self.number(self.free_place()))
        i, inode = rng.choice([*volume.inodes.items()] or [(0, None)])
        if i and i in volume.directories:
            block, at = inode_places(volume.geometry)[i]
            return self.patch(block, at + 8, self.number(inode.size + self.g.bsize, 8))
        if i and 0 < inode.size < self.g.bsize and inode.slots[0]:
            block, at = inode_places(volume.geometry)[i]
            self.patch(block, at + 40, self.number(inode.slots[0] // self.g.frag * self.g.frag + self.g.frag - 1))

    def break_directory(self):
        """A directory whose chunk is whole, but whose entries say something else."""
        rng, volume = self.rng, self.array.volume
        number, inode = rng.choice([*volume.directories.items()] or [(None, None)])
        if number is None or inode.size != 512 or not 0 < inode.slots[0] < self.array.n:
            return
        order = volume.geometry.order
        entries = [list(entry) for entry in read_chunk(self.array.blocks[inode.slots[0]][:512], order) or []]
        if not entries:
            return
        changed, other = rng.choice(entries), rng.choice(entries)
        kind = rng.randrange(8)
        if kind == 0:
            changed[2] = other[2]
        elif kind == 1:
            changed[:2] = other[:2]
        elif kind == 2:
            changed[:2] = rng.choice([*volume.directories]), 4
        elif kind == 3:
            entries.append([rng.choice([ROOT, number, *volume.directories]), 4, rng.choice([b"again", b"..", b"."])])
        elif kind == 4:
            changed[:2] = rng.choice([ROOT, 1, 0, self.hostile_number()]), rng.choice([0, 4, 8])
        elif kind == 5:
            entries.remove(changed)
        elif kind == 6:
            rng.shuffle(entries)
        else:
            entries.append([rng.choice([*volume.inodes]), 0, b"more"])
        data = directory_bytes(order, entries) if entries else b""
        if len(data) == 512:
            self.patch(inode.slots[0], 0, data)

    def probe(self):
        """A sound volume, one thing that is broken in it, and what is said of that."""
        self.queue_goal()
        while self.queue:
            self.write_next()
        self.do(self.rng.choice(["settle", "tend 0", "tend 3", "pending"]))
        for _ in range(self.rng.choice([1, 1, 1, 2])):
            self.break_something()
        self.do("settle")
        for _ in range(self.rng.randrange(6)):
            self.ask()
        self.queue_goal()

    def break_group(self):
        rng, g = self.rng, self.g
        c = rng.randrange(g.ncg)
        block = group_start(g, c) + g.cblkno
        if rng.random() < 0.4:
            self.patch(block, rng.choice([*GROUP_PLACES.values()]), self.number(self.hostile_number()))
        else:
            self.patch(block, rng.randrange(100, g.cgsize), bytes([rng.choice([0, 0xFF, rng.randrange(256)])]))

    def break_super(self):
        rng = self.rng
        name = rng.choice([*FIELDS, "magic", "swap"])
        block, at = SUPER_AT // self.array.l, SUPER_AT % self.array.l
        if name == "swap":
            self.patch(block, at + 1372, rng.choice([b"\x54\x19\x01\0", b"\0\x01\x19\x54"]))
        elif name == "magic":
            self.patch(block, at + 1372, self.number(self.hostile_number()))
        else:
            old = getattr(self.g, name)
            value = rng.choice([old, old + 1, old - 1, old * 2, old // 2, self.hostile_number()])
            self.patch(block, at + FIELDS[name], self.number(value))

    def break_block(self):
        rng, array = self.rng, self.array
        block = rng.choice([rng.randrange(array.n), *array.volume.claims])
        data = rng.choice([b"", rng.randbytes(8), array.blocks[rng.randrange(array.n)], rng.randbytes(array.l)])
        self.write(block, data)

    def move_block(self):
        """What stands in one place comes to stand in another."""
        a, b = (self.rng.randrange(self.array.n) for _ in range(2))
        self.write(a, self.goal[b])

    # events that ask

    def some_path(self):
        rng = self.rng
        path = rng.choice([*self.paths, *self.paths, b"/", b"/nothing", b"/a/b/c", b"/d/.", b"/.."])
        if rng.random() < 0.15:
            path = (path if path != b"/" else b"") + rng.choice([b"/..", b"/.", b"/x", b"/a/a"])
        return "/".join(spelled(name) for name in path.split(b"/"))

    def is_short(self, path):
        """Whether the file at a path isn't too long to be printed."""
        try:
            _, inode = self.array.volume.look(unspelled(path), [])
        except Refused:
            return True
        return inode.size <= LONGEST_FILE or inode.size >= 1 << 32

    def some_block(self):
        rng, array = self.rng, self.array
        written, claims = array.written(), list(array.volume.claims)
        return rng.choice([rng.randrange(array.n), rng.choice(written or [0]), rng.choice(claims or [0]), rng.choice([*array.cut] or [0])])

    def ask(self):
        rng, array = self.rng, self.array
        word = rng.choice("read read cat cat cat cat ls ls who who who who pending tree home lostfiles audit".split())
        if word in ("cat", "ls", "home"):
            path = self.some_path()
            if word != "cat" or self.is_short(path):
                self.do(f"{word} {path}")
        elif word in ("read", "who"):
            self.do(f"{word} {array.n + rng.randrange(3) if rng.random() < 0.03 else self.some_block()}")
        else:
            self.do(word)

    # events that act

    def write_next(self):
        while self.queue:
            block = self.queue.pop()
            if self.goal[block] != self.array.blocks[block] or self.rng.random() < 0.1:
                return self.write(block, self.goal[block])

    def some_boundary(self):
        """The number of a boundary, mostly of one that is in use."""
        rng, array = self.rng, self.array
        return rng.choice(array.live) if rng.random() < 0.95 else rng.randrange(array.boundaries + 1)

    def fail_one(self):
        """A member that isn't the last good one of its boundary."""
        rng, array = self.rng, self.array
        place, j = rng.randrange(array.b), rng.randrange(2)
        if array.members[place][1 - j] == GOOD:
            self.do(f"fail {array.live[place]} {j}")

    def refill(self):
        rng, members = self.rng, [*zip(self.array.live, self.array.members)]
        out = [(s, j) for s, pair in members for j in (0, 1) if pair[j] == OUT]
        filling = [s for s, pair in members if any(isinstance(member, Filling) for member in pair)]
        if out and rng.random() < 0.5:
            self.do("replace {} {}".format(*rng.choice(out)))
        elif rng.random() < 0.08:
            self.do(f"replace {self.some_boundary()} {rng.randrange(3)}")
        else:
            self.do(f"rebuild {rng.choice([*filling * 3, self.some_boundary()])} {rng.choice([0, 1, 2, 5, 10, 99, 1000])}")

    def act(self):
        rng = self.rng
        kind = rng.random()
        if kind < 0.3:
            self.do("settle")
            if self.array.settled:
                self.use()
        elif kind < 0.42:
            self.do(f"tend {rng.choice([0, 1, 2, 5, 1000])}")
        elif kind < 0.55:
            self.do("diffuse")
        elif kind < 0.7:
            self.fail_one()
        elif kind < 0.9:
            self.refill()
        elif kind < 0.95:
            for block in rng.sample(range(self.array.n), 5):
                self.do(f"write {block} -") if not self.array.sites[block] else None
        else:
            s, j = self.some_boundary(), rng.randrange(3)
            self.do(rng.choice([f"fail {s} 2", f"write {self.array.n} 00", "rebuild 99 1", "regroup", "save", f"drop {s} {j}", f"mend {s} {j}"]))

    def use(self):
        """Events that a settled array answers."""
        for _ in range(self.rng.randrange(12)):
            self.rng.choice([self.ask, self.ask, self.ask, self.refill, self.fail_one, lambda: self.do("diffuse")])()

    def step(self):
        rng = self.rng
        kind = rng.random()
        if self.array.is_double and rng.random() < SAVES:
            self.do("save")
        if rng.random() < self.often:
            self.go_without()
        elif self.queue and kind < 0.75:
            self.write_next()
        elif kind < 0.12 or self.queue and kind < 0.78:
            self.break_something()
        elif kind < 0.55 or self.queue and kind < 0.92:
            self.ask()
        elif self.queue or kind < 0.85:
            self.act()
        elif kind < 0.91:
            self.queue_goal()
        elif kind < 0.95:
            self.probe()
        elif kind < 0.99:
            self.new_goal()
        else:
            self.new_geometry()

    # losses

    def settle_all(self):
        """The image is written to its end and settled, and some files are read and copied."""
        self.queue_goal()
        while self.queue:
            self.write_next()
        self.do("settle")
        self.use()
        self.do("diffuse")

    def lose_one(self):
        """Both members of a boundary fail, at times with a refill between, and what is left is asked for."""
        rng, array, j = self.rng, self.array, self.rng.randrange(2)
        homes = [array.live[place] for place in array.homes.values()]
        s = rng.choice(homes) if homes and rng.random() < 0.5 else self.some_boundary()
        self.do(f"fail {s} {j}")
        if rng.random() < 0.2:
            self.do(f"replace {s} {j}")
            self.do(f"rebuild {s} {rng.choice([0, 3, 1000])}")
        self.do(f"fail {s} {1 - j}")
        self.do(f"fail {s} {j}")
        for _ in range(rng.randrange(6)):
            self.ask()

    def go_without(self):
        """Boundaries are lost, and the array goes on without them, or can't."""
        rng = self.rng
        if rng.random() < 0.6:
            self.settle_all()
        for _ in range(rng.choice([1, 1, 1, 2])):
            self.lose_one()
        self.do("regroup")
        if self.array.is_double:
            self.do("save")
        self.over = bool(self.array.lost())
        if rng.random() < 0.7:
            self.do("settle")
            self.do("lostfiles")
        for _ in range(rng.randrange(12)):
            rng.choice([self.ask, self.ask, self.act, self.use, self.read_cut, self.write_cut])()

    def read_cut(self):
        if self.array.cut:
            self.do(f"{self.rng.choice(['read', 'who'])} {self.rng.choice([*self.array.cut])}")

    def write_cut(self):
        if self.array.cut:
            block = self.rng.choice([*self.array.cut])
            self.write(block, self.goal[block])

    def lose(self):
        """Boundaries are lost at the end, and what is left is asked for."""
        rng = self.rng
        if not self.over and rng.random() < 0.8:
            self.settle_all()
        for _ in range(rng.choice([1, 1, 2, 3])):
            self.lose_one()
        if rng.random() < 0.5:
            self.do("regroup")
        for path in rng.sample(self.paths, min(8, len(self.paths))):
            path = "/".join(spelled(name) for name in path.split(b"/"))
            for word in ("cat", "ls", "home"):
                if word != "cat" or self.is_short(path):
                    self.do(f"{word} {path}")
        for _ in range(rng.randrange(10)):
            rng.choice([self.ask, self.ask, self.act, self.break_something])()

    def end(self):
        """A last line that is damaged; an event where it is still one."""
        word = self.rng.choice(self.lines).split(" ")[0]
        line = damaged(self.rng, self.rng.choice([line for line in self.lines if line.startswith(word)]), self.array.l)
        kind = refusal(line, len(self.lines) + 1, self.array.l)
        if kind:
            self.tail = line
            self.replies.append([f"line {len(self.lines) + 1} {kind}"])


class Case:
    """A trace: its events, a last line that is refused or the empty text, and the model's replies."""

    def __init__(self, lines, tail, replies):
        self.lines, self.tail, self.replies = lines, tail, replies

    def without(self, first, end):
        """The same trace without some events, answered anew."""
        lines = self.lines[:first] + self.lines[end:]
        kind = [f"line {len(lines) + 1} {self.replies[-1][0].split(' ')[2]}"] if self.tail else None
        return Case(lines, self.tail, replay(lines) + ([kind] if kind else []))

    def events(self):
        return len(self.lines) + bool(self.tail)


def make(seed, events, word="array"):
    """A trace of about so many events, whose first line has this word."""
    rng = random.Random(-seed - 1)
    if rng.random() < 0.002:
        return Case([], "", [["line 1 cut"]])
    if rng.random() < 0.02:
        tail = damaged(rng, rng.choice([f"{word} 512 64 2 64 2", "read 1"]), 512)
        kind = refusal(tail, 1, 512)
        if kind:
            return Case([], tail, [[f"line 1 {kind}"]])
    trace = Trace(seed, word)
    while len(trace.lines) < events * 0.8 and not trace.over:
        trace.step()
    trace.lose()
    if rng.random() < 0.4:
        trace.end()
    return Case(trace.lines, trace.tail, trace.replies)


def read_case(text):
    """The trace in a text."""
    lines = text.split("\n")
    tail = lines.pop()
    lines, l = list(lines), int(lines[0].split(" ")[1]) if lines and lines[0].split(" ")[0] in FIRST else 512
    for place, line in enumerate([line + "\n" for line in lines] + [tail] * bool(tail), 1):
        kind = refusal(line, place, l)
        if kind:
            return Case(lines[:place - 1], line, replay(lines[:place - 1]) + [[f"line {place} {kind}"]])
    return Case(lines, "", replay(lines))


def replay(lines):
    """The model's replies to some lines, the first of which makes the array."""
    if not lines:
        return []
    array = array_of_line(lines[0])
    return [["ok"], *(array.do(line) for line in lines[1:])]
