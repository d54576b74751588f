"""Volumes for the benchmarks: UFS1 with files in the root or in directories of it, as blocks that aren't zero.

The fields and their places are those of `fs.h`, `dinode.h` and `dir.h` of 4.4BSD. A file block has eight fragments.
"""
import struct

FRAGMENTS = 8
CHUNK = 512
REGULAR, DIRECTORY = 0o100644, 0o040755


def inode(mode, size, slots):
    """The 128 bytes of an inode with these 15 slots."""
    one = bytearray(128)
    struct.pack_into("<H", one, 0, mode)
    struct.pack_into("<Q", one, 8, size)
    struct.pack_into("<15I", one, 40, *slots)
    return one


def entry(number, length, kind, name):
    return struct.pack("<IHBB", number, length, kind, len(name)) + name.ljust(length - 8, b"\0")


def chunks_of(entries):
    """The chunks of a directory, given by inode, type and name of each entry; the last entry of a chunk goes to its end."""
    chunks, chunk = [], []
    room = CHUNK
    for number, kind, name in entries:
        length = (8 + len(name) + 1 + 3) // 4 * 4
        if length > room:
            chunks.append((chunk, room))
            chunk, room = [], CHUNK
        chunk.append((number, length, kind, name))
        room -= length
    chunks.append((chunk, room))
    for chunk, room in chunks:
        number, length, kind, name = chunk[-1]
        chunk[-1] = (number, length + room, kind, name)
    return b"".join(entry(*one) for chunk, _ in chunks for one in chunk)


def bits(marked, count):
    """A map of so many bits, of which these are set."""
    one = bytearray((count + 7) // 8)
    for at in marked:
        one[at // 8] |= 1 << at % 8
    return one


class Volume:
    """A volume of so many fragments of so many bytes, with files `f0`, `f1` and so on with these bytes.

    They are in the root, or by turns of `in_directory` in directories `d0`, `d1` and so on of the root. A group has at most 128 * 128
    fragments, so that its maps fit into its block.
    """

    def __init__(self, fragment, fragments, files, in_directory=0):
        self.image = {}
        self.fragment = fragment
        self.fragments = fragments
        self.block = FRAGMENTS * fragment
        self.pointers = self.block // 4
        self.group_size = min(fragments, 1 << 14)
        self.groups = -(-fragments // self.group_size)
        listings, contents = self.tree(files, in_directory)
        self.files, self.directories = len(contents), len(listings)
        self.used = 2 + len(listings) + len(contents)
        in_block = self.block // 128
        each = -(-self.used // self.groups)
        self.inodes = -(-each // in_block) * in_block
        self.first = 16384 // fragment
        self.inodes_at = self.first + 4 * FRAGMENTS
        self.data_at = self.inodes_at + self.inodes // in_block * FRAGMENTS
        self.summary_at = self.data_at
        self.free = self.data_at + FRAGMENTS
        self.put(8192 // fragment, self.superblock())
        modes = [DIRECTORY] * len(listings) + [REGULAR] * len(contents)
        table = bytearray(128 * self.inodes * self.groups)
        for number, (mode, data) in enumerate(zip(modes, listings + contents), 2):
            table[128 * number:128 * number + 128] = inode(mode, len(data), self.slots(data))
        for c in range(self.groups):
            self.put(self.group_size * c + self.inodes_at, table[128 * self.inodes * c:128 * self.inodes * (c + 1)])
            self.put(self.group_size * c + self.first + 2 * FRAGMENTS, self.group(c))

    def about(self):
        return f"groups: {self.groups:,}, files: {self.files:,}, directories: {self.directories:,}"

    def tree(self, files, in_directory):
        """The bytes of the directories and the files, in the order of their inodes from 2 on."""
        turns = -(-len(files) // in_directory) if in_directory else 0
        named = [(3 + turns + i, 8, b"f%d" % i) for i in range(len(files))]
        own = [(3 + i, 4, b"d%d" % i) for i in range(turns)] if turns else named
        listings = [chunks_of([(2, 4, b"."), (2, 4, b"..")] + own)]
        for i in range(turns):
            inside = named[i * in_directory:(i + 1) * in_directory]
            listings.append(chunks_of([(3 + i, 4, b"."), (2, 4, b"..")] + inside))
        return listings, files

    def superblock(self):
        first = self.first
        fields = {8: first, 12: first + 2 * FRAGMENTS, 16: self.inodes_at, 20: self.data_at, 36: self.fragments, 44: self.groups}
        fields.update({48: self.block, 52: self.fragment, 56: FRAGMENTS, 116: self.pointers, 120: self.block // 128})
        fields.update({152: self.summary_at, 156: self.fragment, 160: self.block, 184: self.inodes, 188: self.group_size})
        fields.update({1320: 60, 1324: 2, 1372: 0x00011954})
        block = bytearray(1376)
        for place, value in fields.items():
            struct.pack_into("<I", block, place, value)
        return block

    def group(self, c):
        """The block of group c, once the files have their fragments: the maps of its used inodes and of its free fragments."""
        count = min(self.group_size, self.fragments - self.group_size * c)
        used = bits(range(max(0, min(self.inodes, self.used - self.inodes * c))), self.inodes)
        start = max(self.data_at, min(count, self.free - self.group_size * c))
        free = bits(range(start, count), count)
        block = bytearray(self.block)
        for place, value in {4: 0x00090255, 12: c, 20: count, 92: 168, 96: 168 + len(used)}.items():
            struct.pack_into("<I", block, place, value)
        block[168:168 + len(used) + len(free)] = used + free
        return block

    def mark_free(self, most):
        """Marks the last used fragments of each group as free, so many in all or as many as there are, and answers how many: they are faults."""
        left = most
        for c in range(self.groups):
            start = self.group_size * c + max(self.data_at, min(self.group_size, self.free - self.group_size * c))
            taken = max(0, min(left, start - self.group_size * c - self.data_at - FRAGMENTS))
            block = self.group(c)
            at = struct.unpack_from("<I", block, 96)[0]
            for number in range(start - taken, start):
                place = number - self.group_size * c
                block[at + place // 8] |= 1 << place % 8
            self.put(self.group_size * c + self.first + 2 * FRAGMENTS, block)
            left -= taken
        return most - left

    def put(self, at, data):
        """Puts bytes at a fragment and those after it."""
        for start in range(0, len(data), self.fragment):
            piece = bytes(data[start:start + self.fragment]).ljust(self.fragment, b"\0")
            self.image[at + start // self.fragment] = piece

    def take(self, data):
        """Puts bytes at the next free file block, and answers where that is."""
        if self.free % self.group_size == 0:
            self.free += self.data_at
        at = self.free
        self.free += FRAGMENTS
        assert self.free <= self.fragments, "the files don't fit"
        self.put(at, data)
        return at

    def slots(self, data):
        """The slots of a file: twelve direct blocks, and the others through one indirect block."""
        places = [self.take(data[start:start + self.block]) for start in range(0, len(data), self.block)]
        direct = places[:12] + [0] * (12 - len(places))
        if len(places) <= 12:
            return direct + [0, 0, 0]
        return direct + [self.take(struct.pack(f"<{len(places) - 12}I", *places[12:])), 0, 0]

    def events(self):
        """The lines that write its blocks."""
        for block, data in sorted(self.image.items()):
            yield f"write {block} {data.hex()}\n"

    def write(self, path, fragments):
        """Writes its image to a file, whose holes are zeros."""
        with open(path, "wb") as out:
            for block, data in sorted(self.image.items()):
                out.seek(block * self.fragment)
                out.write(data)
            out.truncate(fragments * self.fragment)
