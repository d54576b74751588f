"""A plain reading of all that is wrong with a volume, of what belongs to nothing, and of which blocks have its structure."""
from volume import (
    BAD_KINDS, CHUNK, DIRECT, MANY, ROOT, SUPER_AT, SUPER_BYTES, Refused, Volume, entry_type, group_start, inode_places, read_chunk, roles, up,
)


class Audit(Volume):
    """All malformations of a volume, and what belongs to nothing."""

    # what the definitions say where an earlier kind is there, too

    def bad_align(self):
        frag = self.geometry.frag
        return [i for i, _, address, count in self.slots() if count == frag and address % frag and not self.is_wild(address, count)]

    def bad_alignin(self):
        frag = self.geometry.frag
        return [f for f, _, address in self.inner() if address % frag and not self.is_wild(address, frag)]

    def bad_run(self):
        frag = self.geometry.frag
        return [
            i for i, _, address, count in self.slots()
            if count < frag < address % frag + count and not self.is_wild(address, count)
        ]

    def bad_pastin(self):
        bad = []
        for f, at, _ in self.inner():
            owner = self.owner(f)
            if owner is not None:
                first, each = self.first_reached(f)
                if first + at * each >= self.block_count(self.inodes[owner]):
                    bad.append(f)
        return bad

    def file_blocks(self, inode):
        """The blocks of a file that are neither holes nor wild, each with its number, and None for each hole."""
        count = self.block_count(inode)
        for slot, address in enumerate(inode.slots):
            level = max(0, slot - DIRECT + 1)
            first, each = (slot, 1) if level == 0 else (self.reach(level)[1], self.reach(level)[0])
            yield from self.below(address, self.span(inode, slot), level, first, each, count)

    def below(self, address, fragments, level, first, each, count):
        """The same of what a pointer at a level reaches, from one file block on."""
        if first >= count:
            return
        if address == 0:
            yield first, None
        elif not self.is_wild(address, fragments):
            if level == 0:
                yield first, (address, fragments)
                return
            each = self.reach(level - 1)[0]
            pointers = b"".join(self.blocks[f] for f in range(address, address + fragments))
            for at in range(self.geometry.nindir):
                below = int.from_bytes(pointers[4 * at:4 * at + 4], self.geometry.order)
                yield from self.below(below, self.geometry.frag, level - 1, first + at * each, each, count)

    def small(self):
        """The directories whose blocks are looked at."""
        return {i: inode for i, inode in self.directories.items() if inode.size < MANY}

    def bad_hole(self):
        return [i for i, inode in self.small().items() if any(place is None for _, place in self.file_blocks(inode))]

    def has_bad_chunk(self, inode):
        g = self.geometry
        for n, place in self.file_blocks(inode):
            if place:
                data = self.bytes_of(*place)
                for at in range(0, min(g.bsize, inode.size - n * g.bsize) // CHUNK * CHUNK, CHUNK):
                    if read_chunk(data[at:at + CHUNK], g.order) is None:
                        return True
        return False

    def bad_chunk(self):
        return [i for i, inode in self.small().items() if inode.size % CHUNK or self.has_bad_chunk(inode)]

    @property
    def named(self):
        """The used entries of each directory whose entries aren't refused."""
        if self.read is None:
            self.read = {}
            for i, inode in self.directories.items():
                try:
                    self.read[i] = self.entries(inode)
                except Refused:
                    pass
        return self.read

    read = None

    def bad_entrytype(self):
        return [
            i for i, entries in self.named.items()
            if any(entry.type and entry.inode in self.inodes and entry.type != entry_type(self.inodes[entry.inode]) for entry in entries)
        ]

    def bad_dots(self):
        return [i for i in self.named if not self.has_dots(i)]

    def has_dots(self, i):
        entries = self.named[i]
        if len(entries) < 2:
            return False
        own, above = entries[:2]
        if own.inode in self.inodes and (own.name != b"." or own.inode != i):
            return False
        return above.inode not in self.inodes or above.name == b".." and self.is_up(i, above.inode)

    def is_up(self, i, above):
        if above not in self.directories or i == ROOT and above != ROOT:
            return False
        if i == ROOT:
            return True
        least = min((d for d, entry in self.plain() if entry.inode == i), default=above)
        return above == least

    def bad_names(self):
        return [i for i, entries in self.named.items() if has_twice([entry.name for entry in entries if entry.inode in self.inodes])]

    def bad_rootnamed(self):
        return [i for i, entry in self.plain() if entry.inode == ROOT and ROOT in self.inodes]

    # all of it

    def malformations(self):
        if self.geometry is None:
            return [(self.superblock()[1], 0)]
        return [(kind, number) for kind in BAD_KINDS for number in sorted(set(getattr(self, "bad_" + kind)()))]

    def unnamed(self):
        named = {entry.inode for _, entry in self.plain()}
        return sorted(i for i in self.inodes if i > ROOT and i not in named)

    def unclaimed(self):
        data = (f for f, role in enumerate(roles(self.geometry)) if isinstance(role, int))
        return [f for f in data if self.is_marked_used(f) and f not in self.claims]

    def is_marked_used(self, f):
        return not isinstance(self.groups[f // self.geometry.fpg], str) and not self.is_marked_free(f)

    # the blocks from which claims and malformations are read

    def structure(self):
        """The superblock's blocks; those of the groups and the inodes; indirect blocks; and what directories claim."""
        first, end = SUPER_AT // self.l, up(SUPER_AT + SUPER_BYTES, self.l)
        blocks = set(range(first, min(end, len(self.blocks))))
        g = self.geometry
        if g is not None:
            for c in range(g.ncg):
                at = group_start(g, c) + g.cblkno
                blocks |= set(range(at, min(at + g.frag, len(self.blocks))))
            blocks |= {block for block, _ in inode_places(g)}
            blocks |= {f for f, on in self.claims.items() if any(level for level, _ in on)}
            blocks |= self.claimed_from({("slot", i, slot) for i in self.directories for slot in range(15)})
        return blocks

    def claimed_from(self, sources):
        """The fragments that are claimed by some sources, or by pointers in what these claim as indirect blocks."""
        reached, count = set(), -1
        while count < len(reached):
            count = len(reached)
            reached |= {
                (f, level) for f, on in self.claims.items() for level, source in on
                if source in sources or source[0] == "pointer" and source[1:3] in reached
            }
        return {f for f, _ in reached}

    def lines(self):
        lines = [f"bad {kind} {number}" for kind, number in self.malformations()]
        if self.geometry is not None:
            lines += [f"note unnamed {i}" for i in self.unnamed()]
            lines += [f"note unclaimed {f}" for f in self.unclaimed()]
        return [*lines, f"end {len(lines)}"]


def has_twice(names):
    return len(set(names)) < len(names)
