"""Histories of double arrays: a run that stops anywhere is reopened as the last save that was answered, or as one in which it was stopped."""
import os
import sys

HERE = os.path.dirname(os.path.abspath(__file__))
sys.path.append(os.path.join(HERE, "..", "soak"))
import between_doubles  # noqa: E402
import opening  # noqa: E402
import traces  # noqa: E402
from history import History, good_of  # noqa: E402
from ledger import Difference, Disk, save_of, see  # noqa: E402

# No commit is made at a sequence near the last one, which is told as a loss.
LAST_SEQUENCES = (1 << 62) - 100


def members_of(save):
    """The members, by the first line, that have what was saved."""
    return {2 * save.live[place // 2] + place % 2 for place, is_good in enumerate(save.good) if is_good}


def replaced_in(play, first, end):
    """The members that were made anew by some events."""
    lines = [line.split(" ") for line, piece in zip(play.lines[first:end], play.pieces[first:end]) if piece == b"ok\n"]
    return {2 * int(words[1]) + int(words[2]) for words in lines if words[0] == "replace"}


class DoubleHistory(History):
    """A history of an array whose first line is `safe`. The save of a disk is the sequence of its commit and what was saved."""

    word, changes = "safe", between_doubles

    def begin(self, words, array):
        self.base = None if words == ["replay"] else save_of(array, array.saves)

    def calls_of_save(self, array):
        return 34 * array.boundaries + 8

    def may_save(self, array):
        return super().may_save(array) and array.top < LAST_SEQUENCES

    def trace_for(self, array):
        """A further trace; at times a boundary is lost in it, and the array goes on without it."""
        lines, rng = super().trace_for(array), self.rng
        if rng.random() < 0.25:
            s, at = rng.randrange(array.boundaries), rng.randrange(len(lines) + 1)
            lines[at:at] = [f"fail {s} 0", f"fail {s} 1", "regroup", *["save"] * (rng.random() < 0.6)]
        return lines

    # an array that was opened

    def check_opened(self, array):
        good = good_of(array)
        parts = {*good, array.source}
        if any(self.disks[member].is_spoiled for member in parts):
            return "spoiled"
        held = [self.disks[member].save for member in parts]
        if None in held or any(sequence != array.sequence for sequence, _ in held):
            return "unknown"
        if len({id(save) for _, save in held}) != 1:
            return "mixed"
        save = held[0][1]
        entries = opening.reopened(self.images()).entries
        have = {m for m, disk in self.disks.items() if disk.save == held[0] and not disk.is_spoiled and entries[m] is not None}
        see("the members that have what was saved", have & members_of(save), good)
        self.check_state(array, save)
        for block, value in enumerate(array.blocks):
            if not self.ledger.may_give(block, value):
                raise Difference(f"block {block} of the opened array holds what was never written to it: {value!r}")
        return "as saved"

    def check_state(self, array, save):
        see("the array that was saved", save.shape, (array.l, array.n, array.b, array.k, array.m))
        see("the number of the save", save.number, array.saves)
        self.ledger.check_state(array, save)

    # what a run leaves

    def completed(self):
        """The images with the headers that an opening completes."""
        kept, images = opening.reopened(self.images()), self.images()
        return {member: kept.behind[member] for member in images} if kept else images

    def see_unchanged(self, images):
        """No image is changed but for headers that were prepared."""
        after = self.completed()
        see("the images that are there", sorted(self.disks), sorted(images))
        changed = [m for m, image in images.items() if image not in (self.disks[m].image, after[m])]
        if changed:
            raise Difference(f"nothing was written, and these images are changed: {changed}")
        self.disks = {member: disk._replace(image=images[member]) for member, disk in self.disks.items()}

    def leave(self, run, play, begun, good, source):
        images, before, after, lines = self.folder.take(), self.disks, self.completed(), play.lines[:begun]
        self.ledger.note_writes(lines, play.array.l)
        done = self.done_events(run, play, begun)
        maybe = replaced_in(play, done, begun)
        for member in set(before) - good - replaced_in(play, 0, begun):
            if images.get(member) not in (before[member].image, after[member]):
                raise Difference(f"member {member}, which is out, was changed")
        if run.words == ["resume"] and all(line.split(" ")[0] in traces.READING for line in lines):
            changed = [m for m, image in images.items() if image not in (before[m].image, after[m])]
            see("images that are changed, and nothing was written", [], changed)
        is_spoiled = any(before[member].is_spoiled for member in {*good, source} if member in before)
        answer = opening.judge(images)
        save = self.see_reopened(answer, self.candidates(play, done, begun), maybe, is_spoiled)
        self.counts["in saves"] += run.stop is not None and done in play.saves and done < begun
        self.disks = {m: self.disk_after(m, image, before.get(m), answer, save, is_spoiled) for m, image in images.items()}

    def done_events(self, run, play, begun):
        """How many events were surely done: all that were answered as the model answers them, in front of the one in which the run was stopped."""
        if run.stop is None:
            return begun
        done = max(0, begun - 1)
        is_answered = done < len(play.pieces) and run.ended.output.startswith(play.output(done + 1))
        return done + (is_answered and begun > done)

    def candidates(self, play, done, begun):
        """What may be reopened: a save, or None for nothing, each with the members that were made anew since."""
        last = max((event for event in play.saves if event < done), default=-1)
        found = [(play.saves[last] if last >= 0 else self.base, replaced_in(play, last + 1, done))]
        if done < begun and done in play.saves:
            found.append((play.saves[done], set()))
        return found

    def see_reopened(self, answer, candidates, maybe, is_spoiled):
        """Which of the saves is reopened."""
        differences = []
        for save, gone in candidates:
            try:
                self.see_fits(answer, save, gone, maybe, is_spoiled)
                return save
            except Difference as difference:
                differences.append(difference)
        raise Difference("what is reopened behind the run\n" + "\nnor:\n".join(map(str, differences)))

    def see_fits(self, answer, save, gone, maybe, is_spoiled):
        if save is None:
            return see("what is reopened", "nostate", answer if isinstance(answer, str) else "an array")
        want = members_of(save) - gone
        if not want - maybe:
            return None
        if isinstance(answer, str):
            raise Difference(f"{answer}, and members {sorted(want)} have what was saved")
        got = good_of(answer)
        see("the members that have what was saved", want - (maybe - got), got)
        if not (is_spoiled and answer.lost()):
            self.check_state(answer, save)
        return None

    def disk_after(self, member, image, disk, answer, save, is_spoiled):
        """The disk of a member behind a run."""
        was_spoiled = bool(disk and disk.is_spoiled)
        if save and not isinstance(answer, str) and member in good_of(answer):
            return Disk(image, (answer.sequence, save), is_spoiled or was_spoiled)
        if disk and disk.image == image:
            return disk
        return Disk(image, None, is_spoiled or was_spoiled)
