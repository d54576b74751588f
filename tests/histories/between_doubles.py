"""What happens to the images of a double array between two runs. Each change says in words what it did."""
import importlib.util
import os
import sys

HERE = os.path.dirname(os.path.abspath(__file__))
sys.path += [os.path.join(HERE, "..", "damage"), os.path.join(HERE, "..", "stop")]
import reading  # noqa: E402
from between import bring_back, exchange, take_away  # noqa: E402
from changes import Images, change  # noqa: E402
from extras import extra_bytes, extra_in  # noqa: E402
from ledger import Disk  # noqa: E402
from opening import PAGE, bytes_in_use, reopened  # noqa: E402
from saved import Label  # noqa: E402


def named(name, path):
    """A module whose name another one has here too."""
    spec = importlib.util.spec_from_file_location(name, path)
    module = importlib.util.module_from_spec(spec)
    spec.loader.exec_module(module)
    return module


changes_of_images = named("changes_of_double_members", os.path.join(HERE, "..", "stop", "changes.py"))


def images_of(disks):
    return {member: disk.image for member, disk in disks.items()}


def put(disks, member, image):
    """A member's image as somebody has changed it."""
    if member not in disks or disks[member].image != image:
        disks[member] = Disk(bytes(image), disks[member].save if member in disks else None, True)


def with_entry(image, sequence, entry):
    """The image with other bytes in the places that the table of a sequence names."""
    header = reading.header_in(image, sequence % 2, image[PAGE * (sequence % 2) + 17])
    table = reading.table_of(header.size, header.room)
    bits, found = 2 * PAGE + sequence % 2 * table, bytearray(image)
    for page in range(reading.pages_of(header.size)):
        piece = entry[PAGE * page:PAGE * (page + 1)]
        place = 2 * PAGE + 2 * table + 2 * PAGE * page + PAGE * (image[bits + page // 8] >> page % 8 & 1)
        found[place:place + len(piece)] = piece
    return bytes(found)


def with_extra(image, sequence, data):
    """The image with other bytes beside the state, as many as there were."""
    header = reading.header_in(image, sequence % 2, image[PAGE * (sequence % 2) + 17])
    at = 2 * PAGE + sequence % 2 * reading.table_of(header.size, header.room) + reading.bits_of(header.size)
    return image[:at] + data[:header.extra] + image[at + header.extra:]


def attached(disks):
    """What is reopened of the members, and which are attached."""
    kept = reopened(images_of(disks))
    members = [member for member, entry in enumerate(kept.entries) if entry is not None] if kept else []
    return kept, members


def damage_images(rng, disks, older):
    """Headers, tables, pages and lengths are changed, or whose image it is (tests/stop/changes.py)."""
    images = [disks[member].image if member in disks else b"" for member in range((max(disks) | 1) + 1)]
    after = changes_of_images.damaged(rng, images)
    told = [member for member, image in enumerate(after) if image != images[member]]
    for member in told:
        if after[member] is None:
            disks.pop(member, None)
        else:
            put(disks, member, after[member])
    return f"headers, tables or pages of members {told} are changed"


def damage_kept(rng, disks, older):
    """Random bytes in the label, the slots or the body that are kept of a member, often the first, or alike of several."""
    kept, members = attached(disks)
    if not members:
        return "nothing"
    chosen = members if rng.random() < 0.2 else [rng.choice([members[0], *members])]
    where, count, share = rng.choice(["label", "slots", "slots", "body", "body"]), rng.choice([1, 4, 64, 600]), rng.random()
    noise = rng.randbytes(count)
    for member in chosen:
        entry = bytearray(kept.entries[member])
        if len(entry) < PAGE:
            continue
        place = Label(member, bytes(entry)).place
        first, end = {"label": (0, 48), "slots": (PAGE, place), "body": (place, len(entry))}[where]
        at = first + int(share * max(0, end - first))
        entry[at:at + count] = noise[:max(0, min(end, len(entry)) - at)]
        put(disks, member, with_entry(disks[member].image, kept.last, entry[:len(kept.entries[member])]))
    return f"members {chosen} have {count} random bytes in the {where} that is kept, from {share:.3f} of it on"


def damage_extra(rng, disks, older):
    """What stands beside the state is another thing, in bytes or by its form, on the first member or on all."""
    kept, members = attached(disks)
    extra = extra_in(kept.extra) if members else None
    if extra is None:
        return "nothing"
    data, kind = bytearray(kept.extra), rng.random()
    if kind < 0.4:
        data[rng.randrange(len(data))] ^= 1 << rng.randrange(8)
    elif kind < 0.6 and extra.cut:
        cut = sorted({*extra.cut[1:], rng.choice([0, 1, extra.cut[0] + 1, 1 << 20])})
        data = bytearray(extra_bytes(extra._replace(cut=cut)))
    elif kind < 0.8:
        live = sorted({*extra.live[1:], rng.randrange(extra.boundaries + 1)})
        data = bytearray(extra_bytes(extra._replace(live=live)))
    else:
        data = bytearray(extra_bytes(extra._replace(length=extra.length + rng.choice([-1, 1, 5])))) if extra.length else data
    if len(data) != len(kept.extra):
        return "nothing"
    chosen = members if rng.random() < 0.5 else members[:1]
    for member in chosen:
        put(disks, member, with_extra(disks[member].image, kept.last, bytes(data)))
    return f"members {chosen} have {bytes(data).hex()} beside the state"


def change_by_format(rng, disks, older):
    """What is kept says something else in the right format (tests/damage/changes.py)."""
    kept, members = attached(disks)
    extra = extra_in(kept.extra) if members else None
    if extra is None:
        return "nothing"
    now = bytes_in_use(kept, extra)
    if not now or any(len(image) < PAGE for image in now.values()):
        return "nothing"
    images = Images(now, {})
    told = change(rng, images)
    for place, before in now.items():
        after = bytes(images.now.get(place, before))[:len(before)].ljust(len(before), b"\0")
        member = 2 * extra.live[place // 2] + place % 2
        if after != before:
            entry = after + kept.entries[member][len(before):]
            put(disks, member, with_entry(disks[member].image, kept.last, entry))
    return f"of what is kept {told}"


CHANGES = (
    take_away, take_away, take_away, bring_back, bring_back, exchange, damage_images, damage_images, damage_kept, damage_kept, damage_extra, change_by_format,
)


def change_some(rng, disks, older):
    """Changes the disks, by member, in some ways. `older` are those before each run, the first of which has some."""
    told = []
    for _ in range(rng.choice([0, 1, 1, 1, 1, 2, 2, 3])):
        if disks:
            told.append(rng.choice(CHANGES)(rng, disks, older))
    return told
