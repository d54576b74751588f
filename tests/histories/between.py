"""What happens to images between two runs: members are taken away, come back old, are damaged or are exchanged. Each says in words what it did."""
import os
import sys

HERE = os.path.dirname(os.path.abspath(__file__))
sys.path.append(os.path.join(HERE, "..", "damage"))
from changes import Images, change  # noqa: E402
from ledger import Disk  # noqa: E402
from opening import PAGE, label_of  # noqa: E402


def take_away(rng, disks, older):
    """One side of some boundaries, or both of one."""
    boundaries = sorted({member // 2 for member in disks})
    chosen = rng.sample(boundaries, rng.randrange(1, len(boundaries) + 1))
    gone = [2 * s + rng.randrange(2) for s in chosen] if rng.random() < 0.6 else [2 * chosen[0], 2 * chosen[0] + 1]
    gone = [member for member in gone if member in disks and len(disks) > 1]
    for member in gone:
        disks.pop(member)
    return f"members {gone} are taken away"


def bring_back(rng, disks, older):
    """Some members are as they were before an earlier run, or there again."""
    old = rng.choice(older)
    back = rng.sample(sorted(old), rng.randrange(1, len(old) + 1)) if old else []
    disks.update({member: old[member] for member in back})
    return f"members {sorted(back)} are as before an earlier run"


def other_saves(disks, older):
    """Members that have another save of the number that is the newest now: the array went on twice from one state."""
    newest = max((disk.save.number for disk in disks.values() if disk.save), default=0)
    of_now = {id(disk.save) for disk in disks.values()}
    found = [{member: disk for member, disk in old.items() if disk.save and disk.save.number == newest and id(disk.save) not in of_now} for old in older]
    return [other for other in found if other]


def mix_saves(rng, disks, others):
    """Some members come from the other one of two saves of one number."""
    other = rng.choice(others)
    back = rng.sample(sorted(other), rng.randrange(1, len(other) + 1))
    disks.update({member: other[member] for member in back})
    return f"members {sorted(back)} have another save of the same number"


def exchange(rng, disks, older):
    """Two places have each other's image, or both have that of one."""
    one, other = rng.choice(sorted(disks)), rng.choice([rng.choice(sorted(disks)), rng.randrange(32)])
    moved = disks[one]
    if rng.random() < 0.7 and other in disks:
        disks[one], disks[other] = disks[other], disks[one]
        return f"members {one} and {other} are exchanged"
    disks[other] = moved
    return f"member {other} is a copy of {one}"


def copy_partner(rng, disks, older):
    """A member is made of its partner by hand: it counts, with the place of its own. It is good only where what was saved says so."""
    member = rng.choice(sorted(disks))
    image, other = bytearray(disks[member].image), member ^ 1
    if len(image) < PAGE:
        return "nothing"
    image[18] = other % 2
    disks[other] = Disk(bytes(image), None, True)
    return f"member {other} is a copy of {member} with its own place"


def put(disks, member, image):
    disks[member] = Disk(bytes(image), disks[member].save, True)


def span_of(where, label, length):
    """From where to where a part of an image stands; of one without a label, all is its slots."""
    if where == "label":
        return 0, min(48, length)
    if label is None:
        return min(PAGE, length), length
    return (PAGE, label.place) if where == "slots" else (label.place, label.place + label.body_length)


def damage_place(rng, disks, older):
    """Random bytes in the label, in the slots or in the body of one member, often the first, or alike of several."""
    members = sorted(disks) if rng.random() < 0.2 else [rng.choice([min(disks), *disks])]
    where, count, share = rng.choice(["label", "slots", "slots", "body", "body"]), rng.choice([1, 4, 64, 600]), rng.random()
    noise, told = rng.randbytes(count), []
    for member in members:
        image, label = bytearray(disks[member].image), label_of(member, disks[member].image)
        first, end = span_of(where, label, len(image))
        if first < end:
            at = first + int(share * (end - first))
            image[at:at + count] = noise[:end - at]
            put(disks, member, image)
            told.append(member)
    return f"members {told} have {count} random bytes in the {where}, from {share:.3f} of it on"


def change_length(rng, disks, older):
    member = rng.choice(sorted(disks))
    image = disks[member].image
    length = rng.choice([0, 1, PAGE - 1, PAGE, len(image) // 2, max(0, len(image) - 1), len(image) + 1, len(image) + 1000])
    put(disks, member, image[:length].ljust(length, b"\0"))
    return f"member {member} has {length} bytes"


def change_by_format(rng, disks, older):
    """A change that knows the format: another number, seal, mark or site, an older body, and the like (tests/damage/changes.py)."""
    old = rng.choice(older)
    images = Images({m: bytearray(disk.image) for m, disk in disks.items()}, {m: disk.image for m, disk in old.items() if label_of(m, disk.image)})
    told = change(rng, images)
    for member in set(disks) - set(images.now):
        disks.pop(member)
    for member, image in images.now.items():
        if member not in disks or disks[member].image != image:
            disks[member] = Disk(bytes(image), disks[member].save if member in disks else None, True)
    return told


CHANGES = (
    take_away, take_away, take_away, bring_back, bring_back, exchange, copy_partner, damage_place, damage_place, change_length, change_by_format,
)


def change_some(rng, disks, older):
    """Changes the disks, by member, in some ways. `older` are those before each run, the first of which has some."""
    others = other_saves(disks, older)
    told = [mix_saves(rng, disks, others)] if others and rng.random() < 0.5 else []
    for _ in range(rng.choice([0, 0, 1, 2] if told else [0, 1, 1, 1, 1, 2, 2, 3])):
        if disks:
            told.append(rng.choice(CHANGES)(rng, disks, older))
    return told
