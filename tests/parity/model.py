"""A plain model of groups with parity: what each call on a member is answered, and what is on the disks then.

It is written from docs/DEFINITIONS.md, "Groups of disks with parity". What it learns from the program is on which disks a call failed.
"""
import dataclasses

from reading import CHUNK, header_on, marks_of, member, number_of, opened, stripes_of


class Wrong(Exception):
    """The program did something else than the model."""


def expect(holds, why):
    if not holds:
        raise Wrong(why)


@dataclasses.dataclass
class Group:
    """What is known of a group while its rack is open."""

    number: int
    width: int
    out: set
    # Whether a disk had a header, or the group was made since; and whether at most one disk was out at some time.
    made: bool = False
    served: bool = False
    # The bytes of the member, whether they are known, and where a write may have changed them that lost the group.
    data: bytearray = dataclasses.field(default_factory=bytearray)
    known: bool = True
    torn: tuple = None
    # Whether the headers of the disks that are in say which are out, and whether they were written again. None is not known.
    noted: bool = False
    renewed: bool = False
    # The epoch at the opening, 0 once the group was made anew; the disks that were out then, and those that were made anew since.
    epoch: int = 0
    was_out: set = dataclasses.field(default_factory=set)
    anew: set = dataclasses.field(default_factory=set)

    @property
    def lost(self):
        return len(self.out) >= 2

    def ins(self):
        return set(range(self.width)) - self.out

    def note(self):
        """The headers of the disks that are in say now which are out."""
        if not self.lost and not self.noted:
            self.renewed = self.renewed or (True if self.noted is False else None)
            self.noted = True

    def fall(self, places):
        """Disks go out."""
        if places - self.out:
            self.out, self.noted = self.out | places, False


def places_in(group, fell, called):
    """The places of the disks on which a call failed. Only these may have been called."""
    places = {number - number_of(group.number, 0) for number in fell}
    expect(places <= called, f"a call was made on one of {sorted(fell)}")
    return places


# A call on a group, with the numbers of the disks on which a call failed, its numbers, and what the program said. It gives the answer; None where the
# bytes aren't known.


def find(group, fell, words, said):
    places_in(group, fell, set())
    if group.lost:
        return "failed" if group.made else "none"
    return f"size {len(group.data)}"


def refusal(group, fell, is_past):
    """The answer of a call that isn't made, since the group is lost or has no such range; None of another one."""
    if group.lost or is_past:
        places_in(group, fell, set())
        return "failed" if group.lost else "past"
    return None


def read(group, fell, words, said):
    place, count = int(words[0]), int(words[1])
    if refused := refusal(group, fell, place + count > len(group.data)):
        return refused
    was_noted = group.noted
    group.fall(places_in(group, fell, group.ins()))
    if was_noted:
        group.note()
    if group.lost:
        return "failed"
    return f"data {group.data[place : place + count].hex()}" if group.known else None


def write(group, fell, words, said):
    place, piece = int(words[0]), bytes.fromhex(words[1])
    if refused := refusal(group, fell, place + len(piece) > len(group.data)):
        return refused
    group.note()
    group.fall(places_in(group, fell, group.ins()))
    group.note()
    if group.lost:
        group.torn = (place, place + len(piece))
        return "failed"
    group.data[place : place + len(piece)] = piece
    return "ok"


def extend(group, fell, words, said):
    size = int(words[0])
    if refused := refusal(group, fell, size < len(group.data)):
        return refused
    group.noted = False
    group.fall(places_in(group, fell, group.ins()))
    group.note()
    if group.lost:
        group.known = False
        return "failed"
    group.data.extend(bytes(size - len(group.data)))
    return "ok"


def blank(group, fell, words, said):
    group.out, group.anew, group.epoch = set(), set(range(group.width)), 0
    group.made, group.noted, group.torn = True, False, None
    group.fall(places_in(group, fell, group.anew))
    group.data, group.known = bytearray(int(words[0])), not group.lost
    group.served = group.served or not group.lost
    group.note()
    return "failed" if group.lost else "ok"


def drop(group, fell, words, said):
    place = int(words[0])
    if place in group.out:
        places_in(group, fell, set())
        return "already"
    group.fall({place})
    group.fall(places_in(group, fell, set() if group.lost else group.ins()))
    group.note()
    return "lost" if group.lost else "dropped"


def mend(group, fell, words, said):
    place = int(words[0])
    if group.lost or place not in group.out:
        places_in(group, fell, set())
        return "lost" if group.lost else "in"
    places = places_in(group, fell, set(range(group.width)))
    group.anew.add(place)
    if places - {place} and said == "lost":
        # another disk failed before the last chunk stood, so two are out
        group.fall(places)
        return "lost"
    if place in places:
        # the others' headers were written again where its own header failed, and not where its blank or a chunk did
        group.noted, group.renewed = None, group.renewed or None
        return "failed"
    group.out, group.noted = places, False
    group.note()
    return f"mended {stripes_of(group.width, len(group.data))}"


CALLS = {"find": find, "read": read, "write": write, "extend": extend, "blank": blank, "drop": drop, "mend": mend}


def new_groups(width, count):
    """Groups that weren't made yet."""
    return [Group(number, width, set(range(width))) for number in range(count)]


def opened_groups(images, fell, kept):
    """The width and the groups as an opening is to find them, by a plain reading of the disks. `kept` has the groups as they were left."""
    width, found = opened(images, fell)
    groups = new_groups(width, len(found))
    for group, one in zip(groups, found):
        if one:
            group.made, group.out, group.was_out = True, one.out, set(one.out)
            group.noted = not one.out and not one.header.marks
            group.epoch = one.header.epoch
            group.data = bytearray(one.header.size if not group.lost else 0)
        if one and not group.lost:
            group.served = True
            find_bytes(images, group, kept.get(group.number))
    return width, groups


def find_bytes(images, group, kept):
    """The bytes of a member that was opened are those that were kept, but for those that a write may have changed which lost the group."""
    data, group.known = member(images, group.number, group.width, len(group.data), group.out)
    group.data = bytearray(data)
    if kept is None or not kept.known:
        return
    start, end = 0, 0
    if kept.torn:
        # the chunks of all its stripes may be others
        stripe = CHUNK * (group.width - 1)
        start, end = kept.torn[0] // stripe * stripe, -(-kept.torn[1] // stripe) * stripe
    same = len(data) == len(kept.data) and data[:start] == kept.data[:start] and data[end:] == kept.data[end:]
    expect(same, f"the disks of group {group.number} give other bytes than were written")


def judge_disks(group, before, after):
    """What is on the disks of a group at the end of a session. How many stripes were found to be even."""
    name = f"group {group.number}: "
    for place in range(8):
        number = number_of(group.number, place)
        if place not in group.anew and (place in group.was_out or place >= group.width or not group.made):
            expect(after.get(number) == before.get(number), f"{name}disk {place} was out, and has changed")
    if group.lost:
        return 0
    data, is_sound = member(after, group.number, group.width, len(group.data), group.out)
    if group.known:
        expect(data == group.data, f"{name}the disks have other bytes")
        expect(is_sound, f"{name}the parity is odd, or bytes stand behind the end")
    judge_headers(group, before, after, name)
    return 0 if group.out or not group.known else stripes_of(group.width, len(group.data))


def judge_headers(group, before, after, name):
    """The headers of the disks that aren't out say what the group is."""
    fronts = {header_on(group.number, place, after.get(number_of(group.number, place))) for place in group.ins()}
    expect(len(fronts) == 1 and None not in fronts, f"{name}headers that differ, or don't count")
    header = fronts.pop()
    expect((header.width, header.size) == (group.width, len(group.data)), f"{name}a header of another group")
    risen, marks = header.epoch - group.epoch, marks_of(group.out)
    expect(risen >= 0 and (risen > 0 or not group.renewed), f"{name}epoch {header.epoch} after {group.epoch}")
    expect(risen == 0 or group.renewed is not False, f"{name}headers were written for nothing")
    expect(header.marks == marks or not group.noted, f"{name}marks {header.marks:#b}, and {sorted(group.out)} are out")
