"""Volumes as bytes: the fields of UFS1 at their offsets, the image of some files, and single fields of it that are changed."""
import collections

SUPER_AT, SUPER_BYTES, MAGIC, GROUP_MAGIC = 8192, 1376, 0x00011954, 0x00090255
SUPER = {
    "sblkno": 8, "cblkno": 12, "iblkno": 16, "dblkno": 20, "cgoffset": 24, "cgmask": 28, "size": 36, "ncg": 44, "bsize": 48,
    "fsize": 52, "frag": 56, "nindir": 116, "inopb": 120, "csaddr": 152, "cssize": 156, "cgsize": 160, "ipg": 184, "fpg": 188,
    "maxsymlinklen": 1320, "inodefmt": 1324, "magic": 1372,
}
GROUP = {"magic": 4, "cgx": 12, "ndblk": 20, "iusedoff": 92, "freeoff": 96}
INODE_BYTES, INODE = 128, {"mode": (0, 2), "links": (2, 2), "size": (8, 8)}
ENTRY = {"inode": (0, 4), "reclen": (4, 2), "type": (6, 1), "namlen": (7, 1)}
CHUNK, ROOT, DIRECT, SLOTS_AT, SHORT_LINK = 512, 2, 12, 40, 60
MODES = {"dir": 0o040755, "file": 0o100644, "link": 0o120644}
TYPES = {"dir": 4, "file": 8, "link": 10}

Spec = collections.namedtuple("Spec", "l frag ncg fpg ipg cgoffset cgmask order")
Item = collections.namedtuple("Item", "path kind data sparse", defaults=[b"", False])


def rounded(value, step):
    """The least multiple of the step that isn't smaller."""
    return -(-value // step) * step


class Volume:
    """The image of some files by a spec, and where its parts stand in it."""

    def __init__(self, spec, items):
        self.spec, self.items, self.f = spec, items, self.fields(spec)
        self.bytes = bytearray(self.f["size"] * spec.l)
        self.free = [self.group_of(fragment) for fragment in range(self.f["size"])]
        self.fragments, self.lowest = collections.defaultdict(list), collections.defaultdict(int)
        self.add_all()
        self.put_groups()
        for name, value in self.f.items():
            self.put(SUPER_AT + SUPER[name], value)

    @staticmethod
    def fields(spec):
        bsize = spec.frag * spec.l
        sblkno = rounded(-(-16384 // spec.l), spec.frag)
        cblkno = sblkno + rounded(-(-8192 // spec.l), spec.frag)
        iblkno, inopb = cblkno + spec.frag, bsize // INODE_BYTES
        dblkno = iblkno + spec.ipg // inopb * spec.frag
        return {
            "sblkno": sblkno, "cblkno": cblkno, "iblkno": iblkno, "dblkno": dblkno, "cgoffset": spec.cgoffset,
            "cgmask": spec.cgmask, "size": spec.ncg * spec.fpg, "ncg": spec.ncg, "bsize": bsize, "fsize": spec.l,
            "frag": spec.frag, "nindir": bsize // 4, "inopb": inopb, "csaddr": dblkno, "cssize": 16 * spec.ncg, "cgsize": bsize,
            "ipg": spec.ipg, "fpg": spec.fpg, "maxsymlinklen": 60, "inodefmt": 2, "magic": MAGIC,
        }

    # places

    def start(self, group):
        return self.spec.fpg * group + self.spec.cgoffset * (group & ~self.spec.cgmask & 0xFFFFFFFF)

    def group_of(self, fragment):
        """The group of which a fragment is data, or None for the file system's own."""
        group, f = fragment // self.spec.fpg, self.f
        inside = fragment - self.start(group)
        summary = range(f["csaddr"], f["csaddr"] + -(-f["cssize"] // self.spec.l))
        if f["sblkno"] <= inside < f["dblkno"] or group == 0 and inside < f["sblkno"] or fragment in summary:
            return None
        return group

    def inode_at(self, inode):
        group, inside = divmod(inode, self.spec.ipg)
        block, place = divmod(inside, self.f["inopb"])
        return (self.start(group) + self.f["iblkno"] + self.spec.frag * block) * self.spec.l + INODE_BYTES * place

    def group_at(self, group):
        return (self.start(group) + self.f["cblkno"]) * self.spec.l

    def put(self, at, value, count=4):
        self.bytes[at:at + count] = value.to_bytes(count, self.spec.order)

    def number(self, at, count=4):
        return int.from_bytes(self.bytes[at:at + count], self.spec.order)

    def put_bit(self, at, bit, is_set):
        mask = 1 << bit % 8
        self.bytes[at + bit // 8] = self.bytes[at + bit // 8] & ~mask | (mask if is_set else 0)

    def block(self, number):
        return bytes(self.bytes[number * self.spec.l:(number + 1) * self.spec.l])

    def written(self):
        """The blocks that aren't all zero, ascending."""
        return [number for number in range(self.f["size"]) if any(self.block(number))]

    # files

    def allocate(self, count):
        """The lowest free place of so many fragments, inside one block of the file system and one group's data."""
        frag = self.spec.frag
        step = frag if count == frag else 1
        for at in range(self.lowest[count], len(self.free) - count + 1, step):
            if at % frag + count <= frag and self.free[at] is not None and len(set(self.free[at:at + count])) == 1:
                self.free[at:at + count] = [None] * count
                self.lowest[count] = at
                return at
        raise ValueError("the files don't fit")

    def add_all(self):
        self.inodes = {item.path: number + ROOT + 1 for number, item in enumerate(self.items)}
        self.inodes["/"] = ROOT
        for path, inode in sorted(self.inodes.items(), key=lambda pair: pair[1]):
            item = Item("/", "dir") if path == "/" else self.items[inode - ROOT - 1]
            self.add(inode, item, self.directory(path) if item.kind == "dir" else item.data)

    def directory(self, path):
        parent = path.rpartition("/")[0] or "/"
        entries = [(b".", self.inodes[path], 4), (b"..", self.inodes[parent], 4)]
        for item in self.items:
            above, _, name = item.path.rpartition("/")
            if (above or "/") == path:
                entries.append((name.encode(), self.inodes[item.path], TYPES[item.kind]))
        return entries_bytes(entries, self.spec.order)

    def add(self, inode, item, data):
        """An inode and its blocks, each indirect block just before the first block that goes through it."""
        at, bsize = self.inode_at(inode), self.f["bsize"]
        for name, value in (("mode", MODES[item.kind]), ("links", 1), ("size", len(data))):
            self.put(at + INODE[name][0], value, INODE[name][1])
        if item.kind == "link" and len(data) < SHORT_LINK:
            self.bytes[at + SLOTS_AT:at + SLOTS_AT + len(data)] = data
            return
        for number in range(-(-len(data) // bsize)):
            piece = data[number * bsize:(number + 1) * bsize]
            if not (item.sparse and len(piece) == bsize and not any(piece)):
                self.add_block(item.path, at + SLOTS_AT, number, piece)

    def add_block(self, path, slots, number, piece):
        nindir, l = self.f["nindir"], self.spec.l
        pointer, index, level = slots + 4 * number, 0, 0
        if number >= DIRECT:
            index, level = number - DIRECT, 1
            while index >= nindir ** level:
                index, level = index - nindir ** level, level + 1
            pointer = slots + 4 * (DIRECT + level - 1)
        while level:
            if not self.number(pointer):
                self.take(path, pointer, self.spec.frag)
            level -= 1
            step, index = divmod(index, nindir ** level)
            pointer = self.number(pointer) * l + 4 * step
        count = self.spec.frag if number >= DIRECT else -(-len(piece) // l)
        self.take(path, pointer, count)
        place = self.number(pointer) * l
        self.bytes[place:place + len(piece)] = piece

    def take(self, path, pointer, count):
        place = self.allocate(count)
        self.put(pointer, place)
        self.fragments[path] += range(place, place + count)

    def put_groups(self):
        spec = self.spec
        used_at = 256
        free_at = used_at + rounded(-(-spec.ipg // 8), 4)
        for group in range(spec.ncg):
            at = self.group_at(group)
            values = {"magic": GROUP_MAGIC, "cgx": group, "ndblk": spec.fpg, "iusedoff": used_at, "freeoff": free_at}
            for name, value in values.items():
                self.put(at + GROUP[name], value)
            for bit in range(spec.ipg):
                self.put_bit(at + used_at, bit, group * spec.ipg + bit <= len(self.items) + ROOT)
            for bit in range(spec.fpg):
                self.put_bit(at + free_at, bit, self.free[group * spec.fpg + bit] is not None)

    def owns_written_block(self, path):
        return any(any(self.block(fragment)) for fragment in self.fragments[path])

    # changes

    def copy(self):
        made = Volume.__new__(Volume)
        made.__dict__.update(self.__dict__)
        made.bytes = bytearray(self.bytes)
        return made

    def edit(self, text):
        """One change, as `inode 3 slot 1 = 96`; the words are told in the README of this folder."""
        left, _, value = text.partition(" = ")
        word, *words = left.split(" ")
        getattr(self, "edit_" + word)(value, *words)

    def edit_super(self, value, name):
        self.put(SUPER_AT + SUPER[name], int(value, 0))

    def edit_group(self, value, group, name, bit=None):
        at, group = self.group_at(int(group)), int(group)
        if name == "free":
            self.put_bit(at + self.number(at + GROUP["freeoff"]), int(bit) - group * self.spec.fpg, int(value))
        elif name == "used":
            self.put_bit(at + self.number(at + GROUP["iusedoff"]), int(bit) - group * self.spec.ipg, int(value))
        else:
            self.put(at + GROUP[name], int(value, 0))

    def edit_inode(self, value, inode, name, slot=None):
        at = self.inode_at(int(inode))
        if name == "slot":
            self.put(at + SLOTS_AT + 4 * int(slot), int(value, 0))
        elif name == "text":
            self.bytes[at + SLOTS_AT:at + SLOTS_AT + len(value)] = value.encode()
        else:
            self.put(at + INODE[name][0], int(value, 0), INODE[name][1])

    def edit_pointer(self, value, fragment, index):
        self.put(int(fragment) * self.spec.l + 4 * int(index), int(value, 0))

    def edit_entry(self, value, fragment, name, field):
        """A field of the entry of that name in the chunk at the start of a fragment."""
        at = int(fragment) * self.spec.l
        while self.bytes[at + 8:at + 8 + self.bytes[at + 7]] != name.encode():
            at += self.number(at + 4, 2)
        if field == "name":
            self.bytes[at + 8:at + 8 + len(value)] = value.encode()
        else:
            self.put(at + ENTRY[field][0], int(value, 0), ENTRY[field][1])

    def edit_entries(self, value, fragment):
        """All entries of a chunk, each a name, an inode and a type."""
        entries = []
        for text in value.split(", "):
            name, inode, kind = text.split(" ")
            entries.append((name.encode(), int(inode), int(kind)))
        at = int(fragment) * self.spec.l
        self.bytes[at:at + CHUNK] = entries_bytes(entries, self.spec.order)

    def edit_bytes(self, value, fragment, at):
        data, at = bytes.fromhex(value), int(fragment) * self.spec.l + int(at)
        self.bytes[at:at + len(data)] = data


def entries_bytes(entries, order):
    """The chunks of a directory: an entry crosses none, and the last one of each goes to its end."""
    chunks, lengths = [[]], []
    for name, inode, kind in entries:
        least = rounded(8 + len(name) + 1, 4)
        if sum(length for _, length in chunks[-1]) + least > CHUNK:
            chunks.append([])
        chunks[-1].append(((name, inode, kind), least))
    data = b""
    for chunk in chunks:
        lengths = [length for _, length in chunk]
        lengths[-1] += CHUNK - sum(lengths)
        for ((name, inode, kind), _), length in zip(chunk, lengths):
            head = inode.to_bytes(4, order) + length.to_bytes(2, order) + bytes([kind, len(name)])
            data += (head + name).ljust(length, b"\0")
    return data
