"""A slow, plain reading of UFS1 over a flat list of blocks: what the definitions of the volume say, and no more.

Nothing is kept between two volumes, and nothing is read in a clever order. A reading by path collects the blocks that it
consults, in order, in the list `seen`; a refusal is the exception `Refused` with the words of the reply.
"""
import struct
from collections import Counter, namedtuple
from functools import cached_property, lru_cache

SUPER_AT = 8192
SUPER_BYTES = 1376
MAGIC = 0x00011954
GROUP_MAGIC = 0x00090255
ROOT = 2
DIRECT = 12
CHUNK = 512
MANY = 1 << 32

FIELDS = {
    "sblkno": 8, "cblkno": 12, "iblkno": 16, "dblkno": 20, "cgoffset": 24, "cgmask": 28, "size": 36, "ncg": 44,
    "bsize": 48, "fsize": 52, "frag": 56, "nindir": 116, "inopb": 120, "csaddr": 152, "cssize": 156, "cgsize": 160,
    "ipg": 184, "fpg": 188, "maxsymlinklen": 1320, "inodefmt": 1324,
}
Geometry = namedtuple("Geometry", ["order", *FIELDS])
Inode = namedtuple("Inode", ["mode", "size", "slots"])
Entry = namedtuple("Entry", ["inode", "type", "name"])
Group = namedtuple("Group", ["used_at", "free_at", "blocks"])

# the letter and the entry type of each kind of inode
KINDS = {
    0o010000: ("p", 1), 0o020000: ("c", 2), 0o040000: ("d", 4), 0o060000: ("b", 6),
    0o100000: ("r", 8), 0o120000: ("l", 10), 0o140000: ("s", 12),
}
BAD_KINDS = (
    "groupmagic groupmap type filesize past wild wildin align alignin run twice pastin free unused hole chunk entry "
    "entrytype dots names dirtwice rootnamed"
).split()


class Refused(Exception):
    """A reading that ends in a refusal: its reply's words."""


def up(number, step):
    """How many steps hold so many."""
    return -(-number // step)


def number_at(data, at, count, order):
    return int.from_bytes(data[at:at + count].ljust(count, b"\0"), order)


def letter(inode):
    return KINDS.get(inode.mode & 0o170000, ("u", None))[0]


def entry_type(inode):
    return KINDS.get(inode.mode & 0o170000, ("u", None))[1]


@lru_cache(maxsize=1 << 14)
def numbers_in(data, order):
    """The numbers of four bytes each in some bytes."""
    return struct.unpack(("<" if order == "little" else ">") + f"{len(data) // 4}I", data)


@lru_cache(maxsize=1 << 12)
def inodes_in(data, order):
    """The inodes in a block, each of 128 bytes, by their places; None stands for an unallocated one."""
    inodes = {}
    for at in range(0, len(data), 128):
        mode = number_at(data, at, 2, order)
        slots = numbers_in(data[at + 40:at + 100], order)
        inodes[at] = Inode(mode, number_at(data, at + 8, 8, order), slots) if mode else None
    return inodes


# the geometry and the roles of blocks


def group_start(g, c):
    return g.fpg * c + g.cgoffset * (c & ~g.cgmask & 0xFFFFFFFF)


def group_end(g, c):
    return min(g.fpg * (c + 1), g.size)


def has_layout(g):
    return (
        100 <= g.cgsize <= g.bsize
        and 9568 <= g.sblkno * g.fsize
        and g.cblkno >= g.sblkno + up(SUPER_BYTES, g.fsize)
        and g.iblkno >= g.cblkno + up(g.cgsize, g.fsize)
        and g.dblkno >= g.iblkno + g.ipg // g.inopb * g.frag
        and all(group_start(g, c) + g.dblkno <= group_end(g, c) for c in range(g.ncg))
    )


TESTS = (
    ("format", lambda g, l, n: g.inodefmt == 2 and 1 <= g.maxsymlinklen <= 60),
    ("bsize", lambda g, l, n: g.bsize in (4096, 8192, 16384, 32768, 65536)),
    ("fsize", lambda g, l, n: g.fsize == l),
    ("frag", lambda g, l, n: g.frag in (1, 2, 4, 8) and g.bsize == g.frag * g.fsize),
    ("nindir", lambda g, l, n: g.nindir == g.bsize // 4),
    ("inopb", lambda g, l, n: g.inopb == g.bsize // 128),
    ("size", lambda g, l, n: 1 <= g.size <= n),
    ("groups", lambda g, l, n: g.ncg >= 1 and g.fpg >= 1 and (g.ncg - 1) * g.fpg < g.size <= g.ncg * g.fpg),
    ("inodes", lambda g, l, n: g.ipg >= 1 and g.ipg % g.inopb == 0 and g.ncg * g.ipg < MANY),
    ("layout", lambda g, l, n: has_layout(g)),
    ("summary", lambda g, l, n: g.csaddr + up(g.cssize, g.fsize) <= g.size),
)


@lru_cache(maxsize=1 << 10)
def read_geometry(data, l, n):
    """The geometry in the bytes of a superblock, or the name of the first test that fails."""
    order = {MAGIC: "little", 0x54190100: "big"}.get(number_at(data, 1372, 4, "little"))
    if order is None:
        return None, "magic"
    g = Geometry(order, *(number_at(data, at, 4, order) for at in FIELDS.values()))
    for kind, holds in TESTS:
        if not holds(g, l, n):
            return None, kind
    return g, None


def role_of(g, b):
    """`outside`, the kind of a block of the file system itself, or the number of the group whose data it is."""
    if b >= g.size:
        return "outside"
    if b * g.fsize < SUPER_AT + SUPER_BYTES and SUPER_AT < (b + 1) * g.fsize:
        return "super"
    if b < group_start(g, 0) + g.sblkno:
        return "boot"
    for kind, first, end in (("copy", g.sblkno, g.cblkno), ("group", g.cblkno, g.iblkno), ("inodes", g.iblkno, g.dblkno)):
        if any(group_start(g, c) + first <= b < group_start(g, c) + end for c in range(g.ncg)):
            return kind
    if g.csaddr <= b < g.csaddr + up(g.cssize, g.fsize):
        return "summary"
    return next(c for c in range(g.ncg) if g.fpg * c <= b < group_end(g, c))


@lru_cache(maxsize=64)
def roles(g):
    """The roles of the blocks below the geometry's size."""
    return [role_of(g, b) for b in range(g.size)]


@lru_cache(maxsize=64)
def system_of(g):
    """The blocks of the file system itself."""
    return frozenset(b for b, role in enumerate(roles(g)) if role in ("super", "boot", "copy", "group", "inodes", "summary"))


@lru_cache(maxsize=64)
def inode_places(g):
    """The block of each inode, and its byte in it."""
    places = []
    for i in range(g.ncg * g.ipg):
        c, rest = divmod(i, g.ipg)
        byte = rest % g.inopb * 128
        block = group_start(g, c) + g.iblkno + g.frag * (rest // g.inopb) + byte // g.fsize
        places.append((block, byte % g.fsize))
    return places


# directories


def read_chunk(data, order):
    """The entries of a chunk of 512 bytes, unused ones among them, or None where one is refused."""
    entries = []
    at = 0
    while at < CHUNK:
        if CHUNK - at < 8:
            return None
        inode = number_at(data, at, 4, order)
        length = number_at(data, at + 4, 2, order)
        name = data[at + 8:at + 8 + data[at + 7]]
        if length < 8 or length % 4 or at + length > CHUNK:
            return None
        if inode:
            if length < up(8 + data[at + 7] + 1, 4) * 4 or not name or b"\0" in name or b"/" in name:
                return None
            entries.append(Entry(inode, data[at + 6], name))
        at += length
    return entries


class Volume:
    """A volume on a list of blocks of `l` bytes each."""

    def __init__(self, blocks, l):
        self.blocks = blocks
        self.l = l

    def bytes_of(self, first, count, seen=None):
        """The bytes of some blocks in a row, which are consulted; those past the end are zero."""
        there = range(first, min(first + count, len(self.blocks)))
        if seen is not None:
            seen.extend(there)
        return b"".join(self.blocks[b] for b in there).ljust(count * self.l, b"\0")

    def superblock(self, seen=None):
        first = SUPER_AT // self.l
        data = self.bytes_of(first, up(SUPER_AT + SUPER_BYTES, self.l) - first, seen)
        return read_geometry(data[SUPER_AT - first * self.l:], self.l, len(self.blocks))

    @cached_property
    def geometry(self):
        return self.superblock()[0]

    def geometry_by(self, seen):
        g, kind = self.superblock(seen)
        if g is None:
            raise Refused(f"bad {kind}")
        return g

    # blocks

    def role(self, b):
        g = self.geometry
        return roles(g)[b] if b < g.size else "outside"

    def system_blocks(self):
        return system_of(self.geometry) if self.geometry else frozenset()

    def is_system(self, b):
        return b in self.system_blocks()

    def is_wild(self, address, count):
        """Whether these fragments aren't all data of one group."""
        g = self.geometry
        if address + count > g.size:
            return True
        kinds = set(roles(g)[address:address + count])
        return len(kinds) != 1 or not isinstance(kinds.pop(), int)

    # groups

    def group(self, c):
        """What a group's block says, or the kind of its refusal."""
        g = self.geometry
        data = self.bytes_of(group_start(g, c) + g.cblkno, g.frag)
        magic, number, blocks, used_at, free_at = (number_at(data, at, 4, g.order) for at in (4, 12, 20, 92, 96))
        if magic != GROUP_MAGIC or number != c:
            return "groupmagic"
        if blocks != group_end(g, c) - g.fpg * c:
            return "groupmap"
        if used_at + up(g.ipg, 8) > g.cgsize or free_at + up(blocks, 8) > g.cgsize:
            return "groupmap"
        return Group(data[used_at:used_at + up(g.ipg, 8)], data[free_at:free_at + up(blocks, 8)], blocks)

    @cached_property
    def groups(self):
        return [self.group(c) for c in range(self.geometry.ncg)]

    def is_marked_free(self, b):
        g = self.geometry
        if g is None or b >= g.size:
            return False
        group, bit = self.groups[b // g.fpg], b % g.fpg
        return isinstance(group, Group) and bool(group.free_at[bit // 8] >> bit % 8 & 1)

    def is_marked_unused(self, i):
        group, bit = self.groups[i // self.geometry.ipg], i % self.geometry.ipg
        return isinstance(group, Group) and not group.used_at[bit // 8] >> bit % 8 & 1

    # inodes

    def inode(self, i, seen=None):
        """The inode of that number, or None where it is unallocated."""
        g = self.geometry
        block, byte = inode_places(g)[i]
        if seen is not None:
            seen.append(block)
        return inodes_in(self.blocks[block], g.order)[byte]

    @cached_property
    def inodes(self):
        """All allocated inodes, by number."""
        g = self.geometry
        if g is None:
            return {}
        blocks = {block: inodes_in(self.blocks[block], g.order) for block, _ in inode_places(g)}
        found = ((i, blocks[block][byte]) for i, (block, byte) in enumerate(inode_places(g)) if i >= ROOT)
        return {i: inode for i, inode in found if inode}

    def named_inode(self, i, seen):
        """The inode that an entry names."""
        g = self.geometry
        inode = self.inode(i, seen) if ROOT <= i < g.ncg * g.ipg else None
        if inode is None:
            raise Refused("bad entry")
        return inode

    def has_pointers(self, inode):
        kind = letter(inode)
        return kind in "rd" or kind == "l" and inode.size >= self.geometry.maxsymlinklen

    def block_count(self, inode):
        return up(inode.size, self.geometry.bsize)

    def span(self, inode, slot):
        """How many fragments a slot claims where it isn't 0."""
        g = self.geometry
        is_short = slot < DIRECT and slot * g.bsize < inode.size < (slot + 1) * g.bsize
        return up(inode.size % g.bsize, g.fsize) if is_short else g.frag

    def reach(self, level):
        """How many file blocks a pointer at that level reaches, and the first one that the inode's slot of it does."""
        per = self.geometry.nindir
        return per ** level, DIRECT + sum(per ** lower for lower in range(1, level))

    def pointers(self, fragment):
        return numbers_in(self.blocks[fragment], self.geometry.order)

    def file_block(self, inode, n, seen=None):
        """The address and the fragments of a file block; None in a hole."""
        g = self.geometry
        if n < DIRECT:
            address, count, level = inode.slots[n], self.span(inode, n), 0
        else:
            level = next(k for k in (1, 2, 3) if n < self.reach(k)[1] + self.reach(k)[0])
            n -= self.reach(level)[1]
            address, count = inode.slots[DIRECT + level - 1], g.frag
        while True:
            if address == 0:
                return None
            if self.is_wild(address, count):
                raise Refused("bad wild")
            if level == 0:
                return address, count
            level -= 1
            index, n = divmod(n, self.reach(level)[0])
            data = self.bytes_of(address, g.frag, seen)
            address, count = number_at(data, 4 * index, 4, g.order), g.frag

    # claims

    @cached_property
    def claims(self):
        """For each claimed fragment its claims: pairs of a level and a source."""
        claims = {}
        g = self.geometry
        if g is None:
            return claims
        holders = {i: inode for i, inode in self.inodes.items() if self.has_pointers(inode)}

        def claim(address, count, level, source):
            if address and not self.is_wild(address, count):
                for fragment in range(address, address + count):
                    claims.setdefault(fragment, set()).add((level, source))

        for level in (3, 2, 1, 0):
            for i, inode in holders.items():
                for slot in (range(DIRECT) if level == 0 else [DIRECT + level - 1]):
                    claim(inode.slots[slot], self.span(inode, slot), level, ("slot", i, slot))
            for fragment in [f for f in claims if any(on == level + 1 for on, _ in claims[f])]:
                pointers = self.pointers(fragment)
                for at, address in enumerate(pointers) if any(pointers) else ():
                    claim(address, g.frag, level, ("pointer", fragment, level + 1, at))
        return claims

    def chain(self, b):
        """The fragments from b upwards, and the claims on the last one: it has none or several, or a slot claims it."""
        fragments = [b]
        while True:
            on = self.claims.get(fragments[-1], set())
            if len(on) != 1:
                return fragments, on
            level, source = next(iter(on))
            if source[0] == "slot":
                return fragments, on
            fragments.append(source[1])

    def owner(self, b):
        """The inode at the top of the chain from b, where each fragment on it has one claim."""
        _, on = self.chain(b)
        return next(iter(on))[1][1] if len(on) == 1 else None

    def indirect_fragments(self):
        """The fragments with a claim above level 0, ascending, each with one such level."""
        return sorted((f, max(level for level, _ in on)) for f, on in self.claims.items() if any(level for level, _ in on))

    def first_reached(self, f):
        """The first file block of its owner that a fragment's first pointer reaches, and how many blocks each pointer does."""
        level, source = next(iter(self.claims[f]))
        if source[0] == "slot":
            address, first = self.inodes[source[1]].slots[source[2]], self.reach(level)[1]
        else:
            above, each = self.first_reached(source[1])
            address, first = self.pointers(source[1])[source[3]], above + source[3] * each
        each = self.reach(level - 1)[0]
        return first + (f - address) * (self.l // 4) * each, each

    # directories and paths

    def chunks(self, inode, seen=None):
        """The used entries of a directory, one chunk after another."""
        g = self.geometry
        if inode.size >= MANY:
            raise Refused("bad filesize")
        if inode.size % CHUNK:
            raise Refused("bad chunk")
        for n in range(self.block_count(inode)):
            place = self.file_block(inode, n, seen)
            if place is None:
                raise Refused("bad hole")
            data = self.bytes_of(*place, seen)
            for at in range(0, min(g.bsize, inode.size - n * g.bsize), CHUNK):
                entries = read_chunk(data[at:at + CHUNK], g.order)
                if entries is None:
                    raise Refused("bad chunk")
                yield entries

    def entries(self, inode, seen=None):
        return [entry for chunk in self.chunks(inode, seen) for entry in chunk]

    def look(self, path, seen):
        """The number and the inode at a path."""
        self.geometry_by(seen)
        number, inode = ROOT, self.named_inode(ROOT, seen)
        for name in [name for name in path.split(b"/") if name]:
            if letter(inode) != "d":
                raise Refused("notdir")
            found = (entry.inode for chunk in self.chunks(inode, seen) for entry in chunk if entry.name == name)
            number = next(found, None)
            if number is None:
                raise Refused("notfound")
            inode = self.named_inode(number, seen)
        return number, inode

    def regular(self, path, seen):
        number, inode = self.look(path, seen)
        if letter(inode) != "r":
            raise Refused("notregular")
        return number, inode

    def cat(self, path, seen):
        """The bytes of the file at a path."""
        _, inode = self.regular(path, seen)
        if inode.size >= MANY:
            raise Refused("bad filesize")
        g = self.geometry
        parts = []
        for n in range(self.block_count(inode)):
            place = self.file_block(inode, n, seen)
            parts.append(bytes(g.bsize) if place is None else self.bytes_of(*place, seen).ljust(g.bsize, b"\0"))
        return b"".join(parts)[:inode.size]

    def ls(self, path, seen):
        """The used entries of the directory at a path, each with its inode."""
        _, inode = self.look(path, seen)
        if letter(inode) != "d":
            raise Refused("notdir")
        entries = self.entries(inode, seen)
        return [(entry, self.named_inode(entry.inode, seen)) for entry in entries]

    def tree(self, seen):
        """All entries but `.` and `..`, depth first, each with its depth and its inode."""
        self.geometry_by(seen)
        root = self.named_inode(ROOT, seen)
        if letter(root) != "d":
            raise Refused("notdir")
        return self.tree_below(root, 1, seen)

    def tree_below(self, directory, depth, seen):
        lines = []
        for entry in self.entries(directory, seen):
            if entry.name not in (b".", b".."):
                inode = self.named_inode(entry.inode, seen)
                lines.append((depth, entry, inode))
                if letter(inode) == "d":
                    lines += self.tree_below(inode, depth + 1, seen)
        return lines

    def parents(self):
        """Each inode that a directory names by an entry other than `.` and `..`, with the least such directory."""
        named = {}
        for i, inode in self.inodes.items():
            if letter(inode) == "d":
                try:
                    entries = self.entries(inode)
                except Refused:
                    continue
                for entry in entries:
                    if entry.name not in (b".", b".."):
                        named.setdefault(entry.inode, i)
        return named

    # malformations

    def first_malformation(self):
        """The first kind that is there, with its least number; None of a sound volume."""
        if self.geometry is None:
            return self.superblock()[1], 0
        for kind in BAD_KINDS:
            number = min(getattr(self, "bad_" + kind)(), default=None)
            if number is not None:
                return kind, number
        return None

    def bad_groupmagic(self):
        return [c for c, group in enumerate(self.groups) if group == "groupmagic"]

    def bad_groupmap(self):
        return [c for c, group in enumerate(self.groups) if group == "groupmap"]

    def bad_type(self):
        return [i for i, inode in self.inodes.items() if letter(inode) == "u"]

    @cached_property
    def holders(self):
        return {i: inode for i, inode in self.inodes.items() if self.has_pointers(inode)}

    def slots(self):
        """Each slot that isn't 0 of an inode with pointers, with what it would claim."""
        for i, inode in self.holders.items():
            for slot, address in enumerate(inode.slots):
                if address:
                    yield i, slot, address, self.span(inode, slot)

    def inner(self):
        """Each pointer that isn't 0 in a fragment with a claim above level 0."""
        for fragment, _ in self.indirect_fragments():
            for at, address in enumerate(self.pointers(fragment)):
                if address:
                    yield fragment, at, address

    def bad_filesize(self):
        return [i for i, inode in self.holders.items() if inode.size >= MANY]

    def bad_past(self):
        first = [*range(DIRECT), *(self.reach(level)[1] for level in (1, 2, 3))]
        return [i for i, slot, _, _ in self.slots() if first[slot] >= self.block_count(self.inodes[i])]

    def bad_wild(self):
        return [i for i, _, address, count in self.slots() if self.is_wild(address, count)]

    def bad_wildin(self):
        return [f for f, _, address in self.inner() if self.is_wild(address, self.geometry.frag)]

    def bad_align(self):
        frag = self.geometry.frag
        return [i for i, _, address, count in self.slots() if count == frag and address % frag]

    def bad_alignin(self):
        return [f for f, _, address in self.inner() if address % self.geometry.frag]

    def bad_run(self):
        frag = self.geometry.frag
        return [i for i, _, address, count in self.slots() if count < frag < address % frag + count]

    def bad_twice(self):
        return [f for f, on in self.claims.items() if len(on) > 1]

    def bad_pastin(self):
        bad = []
        for f, at, _ in self.inner():
            first, each = self.first_reached(f)
            if first + at * each >= self.block_count(self.inodes[self.owner(f)]):
                bad.append(f)
        return bad

    def bad_free(self):
        return [f for f in self.claims if self.is_marked_free(f)]

    def bad_unused(self):
        return [i for i in self.inodes if self.is_marked_unused(i)]

    @cached_property
    def directories(self):
        return {i: inode for i, inode in self.inodes.items() if letter(inode) == "d"}

    def refused(self, words):
        """The directories whose entries are refused so."""
        bad = []
        for i, inode in self.directories.items():
            try:
                self.entries(inode)
            except Refused as refusal:
                if str(refusal) == words:
                    bad.append(i)
        return bad

    def bad_hole(self):
        return [i for i, inode in self.directories.items() if self.has_hole(inode)]

    def has_hole(self, inode):
        return any(self.file_block(inode, n) is None for n in range(self.block_count(inode)))

    def bad_chunk(self):
        return self.refused("bad chunk")

    @cached_property
    def named(self):
        """The used entries of each directory, where none is refused."""
        return {i: self.entries(inode) for i, inode in self.directories.items()}

    def plain(self):
        """Each entry of a directory that isn't `.` or `..`."""
        for i, entries in self.named.items():
            for entry in entries:
                if entry.name not in (b".", b".."):
                    yield i, entry

    def bad_entry(self):
        return [i for i, entries in self.named.items() if any(entry.inode not in self.inodes for entry in entries)]

    def bad_entrytype(self):
        return [
            i for i, entries in self.named.items()
            if any(entry.type not in (0, entry_type(self.inodes[entry.inode])) for entry in entries)
        ]

    def bad_dots(self):
        return [i for i in self.directories if not self.has_dots(i)]

    def has_dots(self, i):
        entries = self.named[i]
        if len(entries) < 2 or entries[0][::2] != (i, b".") or entries[1].name != b"..":
            return False
        above = entries[1].inode
        if i == ROOT:
            return above == ROOT
        least = min((d for d, entry in self.plain() if entry.inode == i), default=above)
        return above in self.directories and above == least

    def bad_names(self):
        return [i for i, entries in self.named.items() if len({entry.name for entry in entries}) < len(entries)]

    def bad_dirtwice(self):
        count = Counter(entry.inode for _, entry in self.plain())
        return [i for i in self.directories if count[i] > 1]

    def bad_rootnamed(self):
        return [i for i, entry in self.plain() if entry.inode == ROOT]
