"""What was written and saved in a history, and what is known of each image by that: the second judge of an opened array, beside its bytes."""
import collections
import os
import sys

HERE = os.path.dirname(os.path.abspath(__file__))
sys.path.append(os.path.join(HERE, "..", "soak"))
from model import GOOD  # noqa: E402
from opening import label_of  # noqa: E402
from saved import body_of, good_members  # noqa: E402


class Difference(Exception):
    """Something that isn't as the rules say."""


# An image with the save of which it has the label and the body, if it is sealed, and whether its bytes, or bytes that were copied to it, were changed by hand.
Disk = collections.namedtuple("Disk", "image save is_spoiled")
# A state that was saved, or was to be when a run was stopped: good are the members that were good then.
Save = collections.namedtuple("Save", "number body shape phase good sites pending homes copies recent blocks live cut")


def state_of(array):
    """What a save keeps of an array, but for the members."""
    copies = dict(array.copies) if array.settled else {}
    return [list(row) for row in array.sites], set(array.pending), dict(array.homes), copies, list(array.recent), list(array.blocks)


def save_of(array, number):
    good = good_members(array)
    shape = array.l, array.n, array.b, array.k, array.m
    return Save(number, body_of(array, good), shape, array.phase(), good, *state_of(array), list(array.live), set(array.cut))


def see(what, want, got):
    if want != got:
        raise Difference(f"{what}\nwanted: {want!r:.3000}\ngot:    {got!r:.3000}")


class Ledger:
    """Of each block all that was ever to be written to it."""

    def __init__(self):
        self.written = collections.defaultdict(set)

    def note_writes(self, lines, length):
        """The writes among events that were done, or begun."""
        for line in lines:
            if line.startswith("write "):
                _, block, digits = line.split(" ")
                self.written[int(block)].add(bytes.fromhex(digits.strip("-")).ljust(length, b"\0"))

    def may_give(self, block, value):
        """Whether a block may have these bytes: it was to, or they are the zeros of one that isn't written."""
        return not any(value) or value in self.written[block]

    # an array that was opened

    def check_opened(self, array, disks):
        """An array made of members that nobody else touched holds what was written; and all that was saved, where all are of one save. What it was made of."""
        good = {member for member in range(2 * array.b) if array.members[member // 2][member % 2] == GOOD}
        parts = {*good, array.source}
        if any(disks[member].is_spoiled for member in parts):
            return "spoiled"
        for block, value in enumerate(array.blocks):
            if not self.may_give(block, value):
                raise Difference(f"block {block} of the opened array holds what was never written to it: {value!r}")
        saves = {id(disks[member].save): disks[member].save for member in parts}
        if len(saves) != 1:
            return "mixed"
        see("the good members of one save agree on each block", True, array.is_sure)
        self.check_saved(array, next(iter(saves.values())), disks, good)
        return "as saved"

    def check_saved(self, array, save, disks, good):
        if save is None:
            raise Difference("the opened array was never saved")
        see("the array that was saved", save.shape, (array.l, array.n, array.b, array.k, array.m))
        see("the number of the save", save.number, array.saves)
        kept = {m for m, disk in disks.items() if disk.save is save and not disk.is_spoiled and label_of(m, disk.image) and save.good[m]}
        see("the members that have what was saved", kept, good)
        self.check_state(array, save)

    def check_state(self, array, save):
        sites, pending, homes, copies, recent, blocks = state_of(array)
        see("the boundaries in use, and the blocks that were cut", (save.live, save.cut), (array.live, array.cut))
        see("the saved sites", save.sites, sites)
        see("the saved homes", save.homes, homes)
        see("the files read last", save.recent, recent)
        see("the pending blocks", save.pending, pending)
        if array.lost():
            see("the phase", "worn", array.phase())
        else:
            see("the phase", save.phase, array.phase())
            see("the saved copies", save.copies, copies)
        for block in range(array.n):
            if not array.is_missing(block):
                see(f"block {block} of the saved array", save.blocks[block], blocks[block])

    # images behind a run

    def disks_after(self, before, images, saves, is_spoiled):
        """The disks behind a run. One that was changed has no sealed label, or that of a save of this run."""
        return {member: self.disk_after(before.get(member), member, image, saves, is_spoiled) for member, image in images.items()}

    def disk_after(self, disk, member, image, saves, is_spoiled):
        if disk and disk.image == image:
            return disk
        label, was_spoiled = label_of(member, image), bool(disk and disk.is_spoiled)
        save = saves.get(label.sequence) if label and label.sealed else None
        is_whole = save is not None and (label.form, label.body(image)) == (b"2", save.body)
        if label and label.sealed and not is_whole and not was_spoiled:
            what = "another body than it was to have" if save else f"and none such was made: {sorted(saves)} were"
            raise Difference(f"member {member} was changed, and is sealed as of save {label.sequence}, {what}")
        return Disk(image, save if is_whole else None, is_spoiled or was_spoiled)
