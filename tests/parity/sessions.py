"""Sessions on the disks of an array, as the program of crates/parity_bench takes them, and whether it did what the model does."""
import collections
import dataclasses

from model import CALLS, expect, judge_disks, new_groups, opened_groups
from reading import header_on, number_of, opened

# how many groups an array has, and the room of a disk
GROUPS, ROOM = 2, 512 * 24


@dataclasses.dataclass
class Session:
    """A rack over some disks, new or opened, and operations on it."""

    # 0 for an opening
    width: int
    images: dict
    # Numbers of calls that fail, of all calls on the disks. Two calls put a disk on the rack.
    fails: list
    operations: list
    # the groups as they were left
    kept: dict

    def lines(self):
        """What the program is given."""
        disks = [f"disk {number} {image.hex()}" for number, image in self.images.items()]
        return [" ".join(map(str, (self.width, ROOM, *self.fails))), *disks, "start", *self.operations, "close"]


def seen_in(line):
    """The calls of an operation, the numbers of the disks on which one failed, and the answer."""
    calls, bits, answer = line.split(" ", 2)
    return int(calls), {32 + k for k in range(64) if int(bits) >> k & 1}, answer


def split(lines):
    """The lines of a session, and those behind it: the opening, the answers, and the disks."""
    end = lines.index("end")
    answers = [line for line in lines[:end] if not line.startswith("disk ")]
    disks = dict(line.split(" ")[1:] for line in lines[:end] if line.startswith("disk "))
    return answers, {int(number): bytes.fromhex(digits) for number, digits in disks.items()}, lines[end + 1 :]


def open_groups(session, line):
    """The groups at the beginning, which are told by the first line."""
    calls, fell, answer = seen_in(line)
    if session.width:
        expect(calls == 0, "a new rack made calls")
        width, groups = session.width, new_groups(session.width, 16)
    else:
        expect(calls <= 256, "an opening made more calls")
        width, groups = opened_groups(session.images, fell, session.kept)
    expect(answer == f"width {width}", f"the headers say that a group has {width} disks")
    return groups, calls, fell


# The groups and the disks at the end of a session, what was seen of it, and the lines that are left.
Judged = collections.namedtuple("Judged", "groups disks seen rest")


def openings(session):
    """How many disks are away, and how many are out though their header counts: they are back after they were out."""
    seen = collections.Counter()
    for group, one in enumerate(opened(session.images)[1]):
        for place in one.out if one else ():
            image = session.images.get(number_of(group, place))
            seen["away"] += image is None
            seen["back"] += header_on(group, place, image) is not None
    return seen


def judge(session, lines):
    """Compares what the program printed of a session with what the model does."""
    answers, after, rest = split(lines)
    expect(len(answers) == 1 + len(session.operations), "another number of lines")
    groups, calls, fell = open_groups(session, answers[0])
    at, is_idle, seen = 2 * len(session.images) + calls, not fell, openings(session)
    for operation, line in zip(session.operations, answers[1:]):
        calls, fell, answer = seen_in(line)
        expect(len(fell) == sum(at <= call < at + calls for call in session.fails), "another number of calls failed")
        what, number, *words = operation.split(" ")
        group = groups[int(number)]
        seen.update({"operations": 1, "fell": len(fell), "lost": group.lost, "without": len(group.out) == 1})
        wanted = CALLS[what](group, fell, words, answer)
        expect(answer == wanted or wanted is None and answer.startswith("data "), f"{operation[:40]}: {answer[:40]}, and not {str(wanted)[:40]}")
        at += calls
        is_idle = is_idle and not fell and what in ("find", "read")
    expect(not is_idle or after == session.images, "a session that only read changed a disk")
    seen["even"] = sum(judge_disks(group, session.images, after) for group in groups)
    return Judged(groups, after, seen, rest)
