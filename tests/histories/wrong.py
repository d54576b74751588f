"""Sees that histories find what is wrong: readers of the images that read them by other rules, and programs that leave or answer something else.

    wrong.py PROGRAM [--most N] [--only WORD]

A wrong reader stands in place of opening.py; a wrong program is the program, behind which its images or its output are changed. Each is given at most
so many histories. Prints in which one it was found; the status is 1 where one wasn't.
"""
import argparse
import copy
import os
import re
import subprocess
import sys

HERE = os.path.dirname(os.path.abspath(__file__))
sys.dont_write_bytecode = True
sys.path.insert(0, HERE)
import opening  # noqa: E402
import opened  # noqa: E402
import wrong_doubles  # noqa: E402
from doubles import DoubleHistory  # noqa: E402
from history import Folder, History, new_folder  # noqa: E402
from ledger import Difference  # noqa: E402
from saved import Label  # noqa: E402

DECODE, JUDGE, LABEL_OF = opened.decode, opening.judge, opening.label_of


def labels_by(change):
    """A reader that changes the labels of all members before it opens them."""
    def judge(images):
        found = {member: (copy.copy(LABEL_OF(member, image)), image) for member, image in images.items()}
        labels = {member: label for member, (label, _) in found.items() if label}
        kept = change(labels) if labels else labels
        return opened.opened_from({member: (kept.get(member), image) for member, (_, image) in found.items()})
    return {"judge": judge}


def oldest(labels):
    least = min(label.sequence for label in labels.values())
    return {member: label for member, label in labels.items() if label.sequence == least}


def sealed(labels):
    for label in labels.values():
        label.sealed, label.key = True, (*label.key[:2], True, *label.key[3:])
    return labels


def only_sealed(labels):
    return {member: label for member, label in labels.items() if label.sealed}


def all_newest(labels):
    """Each label counts as one of the newest."""
    newest = max(labels.values(), key=lambda label: label.sequence)
    for label in labels.values():
        label.sequence, label.key = newest.sequence, newest.key
    return labels


def any_place(member, image):
    return LABEL_OF(2 * image[17] + image[18], image) if len(image) >= 512 else None


def any_length(member, image):
    label = LABEL_OF(member, image)
    if label or len(image) < 512:
        return label
    l, n, b, k, _ = Label(member, image).shape
    length = 512 + (k + 1) * l + 77 + 2 * b + 12 * n + 5 * b * (k + 1)
    return LABEL_OF(member, image[:length].ljust(length, b"\0")) if length < 1 << 20 else None


def all_good(*words):
    state = DECODE(*words)
    return state and state._replace(good=[True] * len(state.good))


def first_body(images):
    """A reader that gives up where the first of the newest has no body."""
    labels = {member: LABEL_OF(member, image) for member, image in sorted(images.items())}
    newest = max((label.sequence for label in labels.values() if label), default=0)
    for member, label in labels.items():
        if label and label.sequence == newest:
            is_body = not label.sealed or DECODE(label.body(images[member]), label.shape, label.form)
            return JUDGE(images) if is_body else "nostate"
    return JUDGE(images)


def opened_and(change):
    """A reader that changes what it opened."""
    def judge(images):
        array = JUDGE(images)
        if not isinstance(array, str):
            change(array)
        return array
    return {"judge": judge}


def never_worn(array):
    array.worn = False


def no_recent(array):
    array.recent = []


def turned_sites(array):
    for row in array.sites:
        row.reverse()


READERS = {
    "the oldest label decides": labels_by(oldest),
    "an opened label counts as sealed": labels_by(sealed),
    "opened labels don't count": labels_by(only_sealed),
    "each label counts as one of the newest": labels_by(all_newest),
    "a label counts in any place": {"label_of": any_place},
    "a member counts whatever its length": {"label_of": any_length},
    "the marks of the members aren't read": {"decode": all_good},
    "the first body of the newest alone is tried": {"judge": first_body},
    "a lost boundary leaves the phase": opened_and(never_worn),
    "the files read last are forgotten": opened_and(no_recent),
    "the sites of a block come in another order": opened_and(turned_sites),
}


# programs: what is done to the images (by member) and the output behind a run; `old` are the images before it


def seal(image, byte):
    return image[:16] + byte + image[17:]


def never_opens(run, old, images):
    return {m: seal(image, b"S") if image[:7] == b"DGRAID-" else image for m, image in images.items()}


def opens_one(run, old, images):
    """The seal is opened on the first member alone."""
    changed = [m for m in sorted(images) if m in old and old[m][16:17] == b"S" and images[m][16:17] == b"O"]
    return {m: seal(image, b"S") if m in changed[1:] else image for m, image in images.items()}


def keeps_number(run, old, images):
    """A save has the number of the one before."""
    return {m: image[:8] + bytes([image[8] - (image[8] > 1)]) + image[9:] if image != old.get(m) else image for m, image in images.items()}


def body_place(image):
    return Label(0, image).place if image[:7] == b"DGRAID-" and len(image) >= 512 else len(image)


def keeps_body(run, old, images):
    """No body is written beneath the label of a further save."""
    return {m: image[:body_place(image)] + old[m][body_place(image):] if m in old and len(old[m]) == len(image) else image for m, image in images.items()}


def loses_writes(run, old, images, sides=(0,)):
    """What was written to the slots of one side isn't there behind the run."""
    def undone(m, image):
        place = body_place(image)
        return image[:512] + old[m][512:place] + image[place:] if m % 2 in sides and m in old and len(old[m]) == len(image) else image
    return {m: undone(m, image) for m, image in images.items()}


def loses_all_writes(run, old, images):
    """What was written to the slots of either side isn't there behind the run."""
    return loses_writes(run, old, images, sides=(0, 1))


def seals_early(run, old, images):
    """A process that was killed had sealed the labels before it wrote."""
    return never_opens(run, old, images) if run.ended.status is None else images


def writes_when_out(run, old, images):
    """A member that has nothing of this run gets a byte of it."""
    same = [m for m in images if images[m] == old.get(m)] if images != old else []
    return {m: image[:-1] + bytes([image[-1] ^ 1]) if m in same[:1] and image else image for m, image in images.items()}


def writes_when_read(run, old, images):
    """A command that reads the array writes the number of its last byte."""
    if run.words[0] in ("cat", "ls", "status"):
        return {m: image[:-1] + bytes([image[-1] ^ 1]) if image and m == min(images) else image for m, image in images.items()}
    return images


def puts_old_values(output, run):
    """The first byte of a block is told another one."""
    return re.sub(rb"data ([0-9a-f])", lambda found: b"data " + (b"1" if found[1] == b"0" else b"0"), output, count=1)


def tells_no_state(output, run):
    return output.replace(b"unclean", b"nostate")


def tells_success(output, run):
    """While calls fail writes are answered with success."""
    return output.replace(b"degraded", b"ok") if run.ended.stopped is not None else output


def gives_zeros(output, run):
    """A block that can't be read is told to be zeros."""
    return output.replace(b"unavailable", b"data -")


def tells_both(output, run):
    """Members that are out are told to be good."""
    return re.sub(rb"half [01]", b"both", output)


IMAGES = {
    "no seal is opened": never_opens, "a seal is opened on one member alone": opens_one, "a save has the number of the one before": keeps_number,
    "a further save writes no body": keeps_body, "one side loses its writes": loses_writes, "both sides lose their writes": loses_all_writes,
    "a killed run had sealed its labels": seals_early, "a member that is out is written": writes_when_out, "a reading command writes": writes_when_read,
}
OUTPUTS = {
    "another byte of a block is told": puts_old_values, "an unclean array is told to be none": tells_no_state, "a failed write is told done": tells_success,
    "an unavailable block is told to be zeros": gives_zeros, "a member that is out is told good": tells_both,
}


# a double array is unclean only where somebody has changed its labels
DOUBLE_OUTPUTS = {name: part for name, part in OUTPUTS.items() if part is not tells_no_state}


class Wrong:
    """A history of a program behind which its images or its output are changed."""

    change_images = change_output = None

    def do(self, run, front=0):
        super().do(run, front)
        if self.change_images:
            self.folder.put(self.change_images(run, self.images(), self.folder.take()))
        if self.change_output:
            run.ended = run.ended._replace(output=self.change_output(run.ended.output, run))
        return run.ended


class WrongHistory(Wrong, History):
    """Of a plain array."""


class WrongDouble(Wrong, DoubleHistory):
    """Of a double array."""


def find(program, most, folder, kind, images=None, output=None):
    """In which history a difference is found, or None."""
    for number in range(most):
        one = kind(program, f"wrong {number}", folder)
        one.change_images, one.change_output = images, output
        try:
            one.go()
        except (Difference, subprocess.TimeoutExpired):
            return number
    return None


def find_reader(program, most, folder, kind, parts):
    """As `find`, with these parts of a reader in place of the right ones."""
    places = {"judge": (opening, "judge"), "label_of": (opening, "label_of"), "decode": (opened, "decode"), **wrong_doubles.PLACES}
    before = {name: getattr(*places[name]) for name in parts}
    try:
        for name, part in parts.items():
            setattr(*places[name], part)
        return find(program, most, folder, kind)
    finally:
        for name, part in before.items():
            setattr(*places[name], part)


TABLES = (
    (WrongHistory, "reader", READERS), (WrongHistory, "images", IMAGES), (WrongHistory, "output", OUTPUTS),
    (WrongDouble, "reader", wrong_doubles.READERS), (WrongDouble, "images", wrong_doubles.IMAGES), (WrongDouble, "output", DOUBLE_OUTPUTS),
)


def find_all(program, most, only=""):
    """What is wrong, and in which history that was found."""
    found = {}
    with new_folder() as path:
        folder = Folder(path)
        for kind, way, table in TABLES:
            for name, part in table.items():
                if only in name:
                    folder.take()
                    given = program, most, folder, kind
                    number = find_reader(*given, part) if way == "reader" else find(*given, **{way: part})
                    found[kind, name] = number
                    print(f"{kind.word}: {way}: {name}: " + ("not found" if number is None else f"history {number}"), flush=True)
    return found


def main():
    parser = argparse.ArgumentParser()
    parser.add_argument("program")
    parser.add_argument("--most", type=int, default=400)
    parser.add_argument("--only", default="")
    args = parser.parse_args()
    found = find_all(os.path.abspath(args.program), args.most, args.only)
    missed = [name for name, number in found.items() if number is None]
    print(f"{len(found)} wrong readers and programs, {len(missed)} of them not found")
    sys.exit(bool(missed))


if __name__ == "__main__":
    main()
