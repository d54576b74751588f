"""A slow, plain reading of the array's definitions, without faults of devices: events in, the lines of replies out.

The state is what the definitions say it is: the flat list of blocks, the sites of each block, marks, homes, copies, the
phase, the inodes read last, which boundaries are in use, which blocks were cut, and what each member does. Boundaries are known by their
places among those in use, and told by their numbers in the array's first line.
"""
from findings import Audit
from volume import Refused, Volume, letter

GOOD, OUT = "good", "out"


class Filling:
    """A member that is refilled, up to a slot."""

    def __init__(self):
        self.have = 0


def spelled(name):
    return "".join(chr(c) if 0x21 <= c <= 0x7E and c != 0x5C else f"\\x{c:02x}" for c in name)


def array_of_line(line):
    """The array that a first line makes."""
    word, *numbers = line.split(" ")
    return Array(*map(int, numbers), word == "safe")


def unspelled(path):
    """The bytes of a path's word."""
    parts = path.split("\\x")
    return parts[0].encode() + b"".join(bytes([int(part[:2], 16)]) + part[2:].encode() for part in parts[1:])


class Array:
    """An array and its volume; `do` takes an event's line and gives the lines of its reply."""

    def __init__(self, l, n, b, k, m, is_double=False):
        self.l, self.n, self.b, self.k, self.m = l, n, b, k, m
        # whether it keeps a checkpoint: its first line is `safe`
        self.is_double = is_double
        self.boundaries, self.live, self.cut = b, list(range(b)), set()
        self.blocks = [bytes(l)] * n
        self.sites = [[] for _ in range(n)]
        self.members = [[GOOD, GOOD] for _ in range(b)]
        self.pending = set()
        self.homes, self.copies, self.recent = {}, {}, []
        self.settled = self.worn = False
        self.saves = 0
        self.volume = Volume(tuple(self.blocks), l)

    def do(self, line):
        word, *rest = line.split(" ")
        numbers = [int(number) for number in rest] if word not in ("write", "cat", "ls", "home") else rest
        reply = getattr(self, "do_" + word)(*numbers)
        return [reply] if isinstance(reply, str) else reply

    # members and sites

    def lost(self):
        """The places of the lost boundaries."""
        return [s for s in range(self.b) if GOOD not in self.members[s]]

    def lost_reply(self):
        return f"lost {self.live[self.lost()[0]]}"

    def place(self, boundary):
        """The place of a boundary; None of one that isn't in use."""
        return self.live.index(boundary) if boundary in self.live else None

    def is_lost(self, boundary):
        """Whether the boundary of this number is lost, or not in use."""
        return self.place(boundary) in [None, *self.lost()]

    def is_gone(self, block):
        lost = self.lost()
        return bool(self.sites[block]) and all(boundary in lost for boundary, _ in self.sites[block])

    def is_missing(self, block):
        """Whether a block is gone to who reads it: also where it was cut."""
        return block in self.cut or self.is_gone(block)

    def is_written(self, block):
        return bool(self.sites[block])

    def written(self):
        return [block for block in range(self.n) if self.sites[block]]

    def boundaries_of(self, block):
        return [boundary for boundary, _ in self.sites[block]]

    def slots_of(self, boundary):
        """The used slots of a boundary, each with its block."""
        return {slot: block for block in range(self.n) for on, slot in self.sites[block] if on == boundary}

    def used(self, boundary):
        return len(self.slots_of(boundary))

    def take(self, block, boundary):
        taken = self.slots_of(boundary)
        slot = next(slot for slot in range(self.k + 1) if slot not in taken)
        self.sites[block].append((boundary, slot))

    def give_up(self, block, boundary):
        self.sites[block] = [site for site in self.sites[block] if site[0] != boundary]

    def take_first(self, block):
        """The first site of a block without sites, with the evictions before it."""
        while all(self.used(s) >= self.k for s in range(self.b)):
            least = next(other for other in range(self.n) if len(self.sites[other]) > 1)
            self.sites[least].pop()
        boundary = block % self.b
        if self.used(boundary) >= self.k:
            boundary = min(range(self.b), key=self.used)
        self.take(block, boundary)

    def set_block(self, block, value):
        self.set_blocks([block], value)

    def set_blocks(self, blocks, value):
        for block in blocks:
            self.blocks[block] = value
        self.volume = Volume(tuple(self.blocks), self.l)

    def mark_pending(self, blocks):
        """Of these blocks those are pending that are neither of the file system itself nor claimed."""
        self.pending = blocks - self.volume.system_blocks() - self.volume.claims.keys()

    def phase(self):
        return "worn" if self.worn else "settled" if self.settled else "loose"

    # blocks

    def do_write(self, block, digits):
        block = int(block)
        if block >= self.n:
            return "range"
        if self.lost():
            return "degraded"
        if not self.sites[block]:
            self.take_first(block)
        self.set_block(block, bytes.fromhex("" if digits == "-" else digits).ljust(self.l, b"\0"))
        self.mark_pending(self.pending | {block})
        self.cut.discard(block)
        self.copies = {}
        self.settled = False
        return "ok"

    def do_read(self, block):
        if block >= self.n:
            return "range"
        if self.is_missing(block):
            return "unavailable"
        return "data " + (self.blocks[block].rstrip(b"\0").hex() or "-")

    def is_dead(self, block):
        return (
            self.is_written(block) and block not in self.pending and not self.volume.is_system(block)
            and block not in self.volume.claims and self.volume.is_marked_free(block)
        )

    def do_who(self, block):
        if block >= self.n:
            return "range"
        if self.worn:
            return "unavailable"
        volume = self.volume
        if volume.geometry:
            if volume.is_system(block):
                return f"system {volume.role(block)}"
            if volume.role(block) == "outside":
                return "outside"
            if block in volume.claims:
                fragments, on = volume.chain(block)
                if len(on) > 1:
                    return f"shared {len(on)}"
                level = next(iter(volume.claims[block]))[0]
                return f"inode {volume.owner(block)} level {level}"
        if block in self.pending:
            return "pending"
        return "dead" if self.is_dead(block) else "idle"

    def do_pending(self):
        return [f"block {block}" for block in sorted(self.pending)] + [f"end {len(self.pending)}"]

    # failures and refills

    def do_fail(self, s, j):
        if s >= self.boundaries or j >= 2:
            return "range"
        place = self.place(s)
        if place is None or self.members[place][j] == OUT:
            return "already"
        self.members[place][j] = OUT
        if isinstance(self.members[place][1 - j], Filling):
            self.members[place][1 - j] = OUT
        return "ok"

    def do_replace(self, s, j):
        if s >= self.boundaries or j >= 2:
            return "range"
        if self.is_lost(s):
            return f"lost {s}"
        place = self.place(s)
        if self.members[place][j] != OUT:
            return "not out"
        self.members[place][j] = Filling()
        return "ok"

    def do_rebuild(self, s, n):
        if s >= self.boundaries:
            return "range"
        if self.is_lost(s):
            return f"lost {s}"
        s = self.place(s)
        side = next((j for j in (0, 1) if isinstance(self.members[s][j], Filling)), None)
        if side is None:
            return "not filling"
        member = self.members[s][side]
        may_reap, copied = not self.lost() and not self.worn, 0
        while member.have <= self.k:
            block = self.slots_of(s).get(member.have)
            if block is not None:
                if may_reap and self.is_dead(block):
                    self.sites[block] = []
                    self.set_block(block, bytes(self.l))
                elif copied < n:
                    copied += 1
                else:
                    break
            member.have += 1
        left = sum(slot >= member.have for slot in self.slots_of(s))
        if member.have > self.k:
            self.members[s][side] = GOOD
        return f"copied {copied} {left}"

    # going on without the lost boundaries

    def do_regroup(self):
        lost = self.lost()
        if not lost:
            return "whole"
        left = [place for place in range(self.b) if place not in lost]
        if len(left) < self.m or len(left) < 2 or len(left) * self.k < self.n:
            return "too few"
        gone = [block for block in range(self.n) if self.is_gone(block)]
        self.keep(left)
        self.cut.update(gone)
        self.set_blocks(gone, bytes(self.l))
        self.mark_pending(self.pending - set(gone))
        return f"regrouped {len(lost)} {len(gone)}"

    def keep(self, left):
        """The boundaries at these places stay in use, in their order; all else that names a boundary goes or moves."""
        place = {old: new for new, old in enumerate(left)}
        self.b, self.live = len(left), [self.live[old] for old in left]
        self.members = [[GOOD if member == GOOD else OUT for member in self.members[old]] for old in left]
        self.sites = [[(place[s], slot) for s, slot in sites if s in place] for sites in self.sites]
        homes = {inode: home if home in place else self.copies.get(inode) for inode, home in self.homes.items()}
        self.homes = {inode: place[home] for inode, home in homes.items() if home in place}
        self.copies, self.settled, self.worn = {}, False, False

    def do_lostfiles(self):
        if not self.settled:
            return "not settled"
        entries, refusal = self.reading(self.volume.tree)
        if refusal:
            return refusal
        owners = {self.volume.owner(block) for block in self.cut}
        names, lines = [], []
        for depth, entry, inode in entries:
            names = names[:depth - 1] + ["/" + spelled(entry.name)]
            if letter(inode) == "r" and entry.inode in owners:
                lines.append(f"lost {entry.inode} " + "".join(names))
        return lines + [f"end {len(lines)}"]

    def do_drop(self, s, j):
        return "not parity"

    def do_mend(self, s, j):
        return "not parity"

    # the plan and the moves

    def want(self, block):
        """What a written block is to the plan: kept, of a file, or a stray."""
        if self.volume.is_system(block):
            return "kept"
        owner = self.volume.owner(block)
        if owner is None:
            return "stray"
        return owner if letter(self.volume.inodes[owner]) == "r" else "kept"

    def files(self):
        """The written blocks of each regular file."""
        files = {}
        for block in self.written():
            want = self.want(block)
            if want not in ("kept", "stray"):
                files.setdefault(want, []).append(block)
        return files

    def plan(self):
        """The targets of each written block and the new homes, or what finds no room."""
        room = [self.k] * self.b
        targets, homes = {}, {}
        wants = {block: self.want(block) for block in self.written()}
        files, parents = self.files(), self.volume.parents()

        def put(blocks, boundary):
            room[boundary] -= len(blocks)
            for block in blocks:
                targets.setdefault(block, set()).add(boundary)

        def most():
            return max(range(self.b), key=lambda s: (room[s], -s))

        for block in [block for block, want in wants.items() if want == "kept"]:
            for i in range(self.m):
                if room[(block + i) % self.b] == 0:
                    return None, "nospace system"
                put([block], (block + i) % self.b)
        for inode, home in sorted(self.homes.items()):
            if inode in files and len(files[inode]) <= room[home]:
                homes[inode] = home
                put(files[inode], home)
        for inode in sorted(set(files) - set(homes)):
            mates = [j for j in homes if inode in parents and parents.get(j) == parents[inode]]
            boundary = homes[min(mates)] if mates else None
            if boundary is None or room[boundary] < len(files[inode]):
                boundary = most()
            if room[boundary] < len(files[inode]):
                return None, f"nospace inode {inode}"
            homes[inode] = boundary
            put(files[inode], boundary)
        for block in [block for block, want in wants.items() if want == "stray"]:
            if room[most()] == 0:
                return None, "nospace strays"
            put([block], most())
        return (targets, homes), None

    def missing(self, targets):
        return [(block, t) for block in sorted(targets) for t in sorted(targets[block] - set(self.boundaries_of(block)))]

    def drop(self, block, wanted):
        """The sites that are no targets are given up."""
        self.sites[block] = [site for site in self.sites[block] if site[0] in wanted]

    def give_up_needless(self, targets):
        for block, wanted in targets.items():
            if wanted & set(self.boundaries_of(block)):
                self.drop(block, wanted)
            else:
                del self.sites[block][1:]

    def move(self, targets, limit):
        """Rounds of moves; how many placements were met and how many are missing after them."""
        met = 0
        while self.missing(targets) and met < limit:
            self.give_up_needless(targets)
            block, boundary = next(p for p in self.missing(targets) if self.used(p[1]) <= self.k)
            self.take(block, boundary)
            self.drop(block, targets[block])
            met += 1
        if not self.missing(targets):
            self.give_up_needless(targets)
        return met, len(self.missing(targets))

    def do_settle(self):
        if self.lost():
            return self.lost_reply()
        if self.settled:
            return "settled"
        bad = self.volume.first_malformation()
        if bad:
            return f"malformed {bad[0]} {bad[1]}"
        plan, refusal = self.plan()
        if refusal:
            return refusal
        targets, self.homes = plan
        self.move(targets, float("inf"))
        self.settled = True
        return "settled"

    def do_tend(self, n):
        if self.lost():
            return self.lost_reply()
        if self.settled:
            return "tended 0 0"
        plan, refusal = self.plan()
        if refusal:
            return refusal
        met, left = self.move(plan[0], n)
        return f"tended {met} {left}"

    def do_diffuse(self):
        if not self.settled:
            return "not settled"
        if self.lost():
            return self.lost_reply()
        files, new = self.files(), 0
        for inode in self.recent:
            if inode in self.homes and inode not in self.copies:
                others = [s for s in range(self.b) if s != self.homes[inode]]
                boundary = min(others, key=self.used)
                if self.used(boundary) + len(files[inode]) <= self.k:
                    for block in files[inode]:
                        self.take(block, boundary)
                    self.copies[inode] = boundary
                    new += 1
        return f"diffused {new}"

    # readings by path

    def reading(self, read):
        """The answer of a reading, or its refusal; `unavailable` where a block that it consults is gone."""
        seen = []
        try:
            answer, refusal = read(seen), None
        except Refused as refused:
            answer, refusal = None, str(refused)
        if any(self.is_missing(block) for block in set(seen)):
            return None, "unavailable"
        return answer, refusal

    def do_cat(self, path):
        path = unspelled(path)
        data, refusal = self.reading(lambda seen: self.volume.cat(path, seen))
        if refusal:
            return refusal
        if self.settled:
            inode = self.volume.look(path, [])[0]
            self.recent = [inode, *(other for other in self.recent if other != inode)][:16]
        lines = [f"bytes {data[at:at + self.l].hex()}" for at in range(0, len(data), self.l)]
        return lines + [f"end {len(data)}"]

    def do_ls(self, path):
        lines, refusal = self.reading(lambda seen: self.volume.ls(unspelled(path), seen))
        if refusal:
            return refusal
        return [f"entry {e.inode} {letter(i)} {i.size} {spelled(e.name)}" for e, i in lines] + [f"end {len(lines)}"]

    def do_tree(self):
        if not self.settled:
            return "not settled"
        lines, refusal = self.reading(self.volume.tree)
        if refusal:
            return refusal
        return [f"node {d} {e.inode} {letter(i)} {i.size} {spelled(e.name)}" for d, e, i in lines] + [f"end {len(lines)}"]

    def do_home(self, path):
        if not self.settled:
            return "not settled"
        found, refusal = self.reading(lambda seen: self.volume.regular(unspelled(path), seen))
        if refusal:
            return refusal
        home, copy = self.homes.get(found[0]), self.copies.get(found[0])
        if home is None:
            return "home none"
        return f"home {self.live[home]}" + ("" if copy is None else f" copy {self.live[copy]}")

    def do_audit(self):
        audit = Audit(self.blocks, self.l)
        return "unavailable" if any(map(self.is_gone, audit.structure())) else audit.lines()

    def do_save(self):
        if self.b < self.boundaries and not self.is_double:
            return "not saved"
        if all(GOOD not in pair for pair in self.members):
            return self.lost_reply()
        self.saves += 1
        return f"saved {self.saves}"
