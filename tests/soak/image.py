"""Images of small volumes, in either order of bytes: the blocks of a file system with given directories, files and links."""
from volume import (
    CHUNK, DIRECT, FIELDS, GROUP_MAGIC, KINDS, MAGIC, ROOT, SUPER_AT, SUPER_BYTES, Geometry, group_end, group_start, inode_places, roles, up,
)

MODES = {kind: mode for mode, (kind, _) in KINDS.items()}
TYPES = {kind: number for kind, number in KINDS.values()}
INODE_PLACES = {"mode": (0, 2), "links": (2, 2), "size": (8, 8), **{slot: (40 + 4 * slot, 4) for slot in range(15)}}
GROUP_PLACES = {"magic": 4, "number": 12, "blocks": 20, "used_at": 92, "free_at": 96}


class NoRoom(Exception):
    """An image that its volume has no room for."""


class Item:
    """A directory, a file, a link or a node: its inode, its directory's, its name and its bytes (blocks of holes are None)."""

    def __init__(self, inode, parent, name, kind, data=b"", size=None, holes=()):
        self.inode, self.parent, self.name, self.kind = inode, parent, name, kind
        self.data, self.holes = data, frozenset(holes)
        self.size = len(data) if size is None else size


def make_geometry(order, l, frag, ncg, fpg, ipg, cgoffset=0, cgmask=0xFFFFFFFF, **fields):
    """A geometry with the places that a builder gives, but for those that are named."""
    bsize = frag * l
    places = {"sblkno": up(up(16384, l), frag) * frag}
    places["cblkno"] = fields.get("sblkno", places["sblkno"]) + up(up(8192, l), frag) * frag
    places["iblkno"] = fields.get("cblkno", places["cblkno"]) + frag
    places["dblkno"] = fields.get("iblkno", places["iblkno"]) + ipg // (bsize // 128) * frag
    places.update(fields)
    whole = {
        "order": order, "cgoffset": cgoffset, "cgmask": cgmask, "size": ncg * fpg, "ncg": ncg, "bsize": bsize, "fsize": l,
        "frag": frag, "nindir": bsize // 4, "inopb": bsize // 128, "csaddr": places["dblkno"], "cssize": 16 * ncg,
        "cgsize": bsize, "ipg": ipg, "fpg": fpg, "maxsymlinklen": 60, "inodefmt": 2,
    }
    return Geometry(**{**whole, **places})


def entry_bytes(order, inode, kind, name, length=None):
    least = up(8 + len(name) + 1, 4) * 4
    head = inode.to_bytes(4, order) + (length or least).to_bytes(2, order) + bytes([kind, len(name)])
    return (head + name).ljust(length or least, b"\0")


def directory_bytes(order, entries):
    """The chunks of a directory: each entry an inode, a type and a name; the last one of a chunk goes to its end."""
    chunks, row, room = [], [], CHUNK
    for entry in entries:
        least = len(entry_bytes(order, *entry))
        if least > room:
            chunks.append((row, room))
            row, room = [], CHUNK
        row.append(entry)
        room -= least
    chunks.append((row, room))
    data = b""
    for row, room in chunks:
        parts = [entry_bytes(order, *entry) for entry in row[:-1]]
        last = entry_bytes(order, *row[-1])
        data += b"".join(parts) + entry_bytes(order, *row[-1], len(last) + room)
    return data


class Image:
    """The blocks of a volume, and where things stand in it. `choose` picks one of some free places."""

    def __init__(self, g, blocks, choose=min, used_at=256, free_at=None):
        self.g, self.choose = g, choose
        self.blocks = [bytearray(g.fsize) for _ in range(blocks)]
        self.used_at, self.free_at = used_at, free_at or used_at + up(up(g.ipg, 8), 4) * 4
        self.free = {b for b, role in enumerate(roles(g)) if isinstance(role, int)}
        self.inodes = {}

    def put(self, block, at, data):
        """Bytes from a place of a block on, over several blocks."""
        block, at = block + at // self.g.fsize, at % self.g.fsize
        while data:
            piece, data = data[:self.g.fsize - at], data[self.g.fsize - at:]
            self.blocks[block][at:at + len(piece)] = piece
            block, at = block + 1, 0

    def put_number(self, block, at, value, count=4):
        self.put(block, at, value.to_bytes(count, self.g.order))

    def allocate(self, count):
        """Some fragments in a row inside one block, all data of one group."""
        frag, kinds = self.g.frag, roles(self.g)
        places = [
            b for b in sorted(self.free)
            if b % frag + count <= frag and all(f in self.free and kinds[f] == kinds[b] for f in range(b, b + count))
        ]
        if not places:
            raise NoRoom
        place = self.choose(places)
        self.free -= set(range(place, place + count))
        return place

    def add(self, item, data=None):
        """An inode with its blocks."""
        g, data, slots = self.g, item.data if data is None else data, [0] * 15
        size = max(item.size, len(data))
        if item.kind in "drl" and not (item.kind == "l" and size < g.maxsymlinklen):
            for n in range(up(size, g.bsize)):
                if n not in item.holes and n * g.bsize < len(data):
                    self.add_block(slots, n, data[n * g.bsize:(n + 1) * g.bsize])
        self.inodes[item.inode] = slots
        block, at = inode_places(g)[item.inode]
        self.put_number(block, at, MODES[item.kind] | (0o755 if item.kind == "d" else 0o644), 2)
        self.put_number(block, at + 2, 1, 2)
        self.put_number(block, at + 8, size, 8)
        for slot, address in enumerate(slots):
            self.put_number(block, at + 40 + 4 * slot, address)
        if item.kind == "l" and size < g.maxsymlinklen:
            self.put(block, at + 40, data)

    def add_block(self, slots, n, data):
        """A file block with the indirect blocks above it that aren't there yet."""
        g = self.g
        if n < DIRECT:
            slots[n] = self.allocate(up(len(data), g.fsize))
            self.put(slots[n], 0, data)
            return
        n, level = n - DIRECT, 1
        while n >= g.nindir ** level:
            n, level = n - g.nindir ** level, level + 1
        slot = DIRECT + level - 1
        if not slots[slot]:
            slots[slot] = self.allocate(g.frag)
        above = slots[slot]
        while level:
            level -= 1
            index, n = divmod(n, g.nindir ** level)
            here = self.number(above, 4 * index)
            if not here:
                here = self.allocate(g.frag)
                self.put_number(above, 4 * index, here)
            above = here
        self.put(above, 0, data)

    def number(self, block, at):
        block, at = block + at // self.g.fsize, at % self.g.fsize
        return int.from_bytes(self.blocks[block][at:at + 4], self.g.order)

    def add_all(self, items):
        """The root and all items, and then the maps and the superblock."""
        names = {ROOT: [(ROOT, TYPES["d"], b"."), (ROOT, TYPES["d"], b"..")]}
        for item in items:
            if item.kind == "d":
                names[item.inode] = [(item.inode, TYPES["d"], b"."), (item.parent, TYPES["d"], b"..")]
        for item in items:
            if item.parent is not None:
                names[item.parent].append((item.inode, TYPES[item.kind], item.name))
        root = Item(ROOT, None, b"", "d")
        for item in sorted([root, *items], key=lambda item: item.inode):
            data = directory_bytes(self.g.order, names[item.inode]) if item.kind == "d" else None
            self.add(item, data)
        self.put_groups()
        self.put_superblock()

    def put_groups(self):
        g = self.g
        for c in range(g.ncg):
            block, first = group_start(g, c) + g.cblkno, g.fpg * c
            values = {
                "magic": GROUP_MAGIC, "number": c, "blocks": group_end(g, c) - first, "used_at": self.used_at,
                "free_at": self.free_at,
            }
            for name, value in values.items():
                self.put_number(block, GROUP_PLACES[name], value)
            used = [i for i in range(c * g.ipg, (c + 1) * g.ipg) if i < ROOT or i in self.inodes]
            self.put_bits(block, self.used_at, [i - c * g.ipg for i in used])
            self.put_bits(block, self.free_at, [b - first for b in self.free if first <= b < group_end(g, c)])

    def put_bits(self, block, at, bits):
        for bit in bits:
            byte = at + bit // 8
            self.blocks[block + byte // self.g.fsize][byte % self.g.fsize] |= 1 << bit % 8

    def put_superblock(self):
        g = self.g
        first, at = SUPER_AT // g.fsize, SUPER_AT % g.fsize
        for name, offset in FIELDS.items():
            self.put_number(first, at + offset, getattr(g, name))
        self.put_number(first, at + SUPER_BYTES - 4, MAGIC)
