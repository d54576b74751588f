"""Wrong readers of double arrays, and programs that leave other images of them, for wrong.py."""
import os
import sys

HERE = os.path.dirname(os.path.abspath(__file__))
sys.path.append(os.path.join(HERE, "..", "stop"))
import opening  # noqa: E402
import reading  # noqa: E402
from between_doubles import with_entry  # noqa: E402

PAGE, MARK = 512, 16
HEADER_IN, REOPENED, ENTRY, EXTRA_IN = reading.header_in, reading.reopened, reading.entry, opening.extra_in
PLACES = {"header_in": (reading, "header_in"), "reopened": (reading, "reopened"), "entry": (reading, "entry"), "extra_in": (opening, "extra_in")}


def all_committed(image, place, member):
    header = HEADER_IN(image, place, member)
    return header and header._replace(committed=True)


def any_member(image, place, member):
    return HEADER_IN(image, place, image[PAGE * place + 17]) if len(image) >= 2 * PAGE else None


def without(images, is_left_out):
    """The images without some of the headers that count."""
    found = [image and bytearray(image) for image in images]
    for (member, place), header in reading.headers_of(images).items():
        if is_left_out(header):
            found[member][PAGE * place:PAGE * (place + 1)] = bytes(PAGE)
    return [image and bytes(image) for image in found]


def oldest_commit(images):
    commits = sorted({header.sequence for header in reading.headers_of(images).values() if header.committed})
    return REOPENED(without(images, lambda header: header.sequence in commits[1:]))


def committed_alone(images):
    return REOPENED(without(images, lambda header: not header.committed))


def first_places(image, header):
    """No table is read: each page stands in its first place."""
    at = 2 * PAGE + header.sequence % 2 * reading.table_of(header.size, header.room)
    bits = reading.bits_of(header.size)
    return ENTRY(image[:at] + bytes(bits) + image[at + bits:], header)


def other_table(image, header):
    """The table of the commit before is read."""
    return ENTRY(image, header._replace(sequence=header.sequence + 1))[0], ENTRY(image, header)[1]


def nothing_cut(data):
    extra = EXTRA_IN(data)
    return extra and extra._replace(cut=[])


def first_boundaries(data):
    """So many boundaries are in use, but the first ones."""
    extra = EXTRA_IN(data)
    return extra and extra._replace(live=list(range(len(extra.live))))


READERS = {
    "a prepared header counts as a committed one": {"header_in": all_committed},
    "a header counts on any member": {"header_in": any_member},
    "the oldest commit leads": {"reopened": oldest_commit},
    "prepared members aren't attached": {"reopened": committed_alone},
    "each page stands in its first place": {"entry": first_places},
    "the table of the commit before is read": {"entry": other_table},
    "blocks that were cut are forgotten": {"extra_in": nothing_cut},
    "the first boundaries are in use": {"extra_in": first_boundaries},
}


# programs: what is done to the images (by member) behind a run; `old` are the images before it


def in_rows(images):
    return [images.get(member) for member in range(32)]


def headers(images):
    return reading.headers_of(in_rows(images)) if images else {}


def marked(image, place, mark):
    at = PAGE * place + MARK
    return image[:at] + mark + image[at + 1:]


def never_commits(run, old, images):
    """A save leaves its headers prepared."""
    seen = set(headers(old).items())
    found = dict(images)
    for (member, place), header in headers(images).items():
        if ((member, place), header) not in seen:
            found[member] = marked(found[member], place, b"P")
    return found


def commits_early(run, old, images):
    """A process that was killed had committed a member when others weren't prepared."""
    prepared = [where for where, header in sorted(headers(images).items()) if not header.committed]
    if run.ended.status is not None or not prepared:
        return images
    member, place = prepared[0]
    return {**images, member: marked(images[member], place, b"C")}


def writes_over(run, old, images):
    """A run that doesn't save writes over what was saved, in the slots of one side."""
    kept = opening.reopened(old) if images != old else None
    if kept is None or kept.last is None or any(line == "save" for line in run.lines):
        return images
    found = dict(images)
    for member, entry in enumerate(kept.entries):
        if entry is not None and member % 2 == 0 and images.get(member) != old[member] and opening.reopened(images).entries[member] is not None:
            found[member] = with_entry(images[member], kept.last, bytes(at % PAGE == 0 and at > 0 and byte ^ 1 or byte for at, byte in enumerate(entry)))
    return found


def keeps_table(run, old, images):
    """A save writes the table of the one before."""
    found = dict(images)
    for (member, place), header in headers(images).items():
        if headers(old).get((member, place)) != header and header.committed:
            table, bits = reading.table_of(header.size, header.room), reading.bits_of(header.size)
            here, there = 2 * PAGE + place * table, 2 * PAGE + (1 - place) * table
            image = found[member]
            found[member] = image[:here] + image[there:there + bits] + image[here + bits:]
    return found


def loses_old_headers(run, old, images):
    """A process that was killed had taken back the commit before."""
    if run.ended.status is not None or images == old:
        return images
    found = dict(images)
    for (member, place), header in headers(images).items():
        found[member] = marked(found[member], place, b"P")
    return found


def numbers_anew(run, old, images):
    """A save of a run that was opened leaves the headers of another member on its members."""
    seen = set(headers(old).items())
    found = dict(images)
    for (member, place), header in headers(images).items():
        if old and ((member, place), header) not in seen:
            at = PAGE * place + 17
            found[member] = found[member][:at] + bytes([member ^ 1]) + found[member][at + 1:]
    return found


IMAGES = {
    "a save leaves its headers prepared": never_commits, "a killed run had committed a member before the others were prepared": commits_early,
    "a run that doesn't save writes over what was saved": writes_over, "a save writes the table of the one before": keeps_table,
    "a killed run had taken back the commit before": loses_old_headers, "a save writes the header of the partner": numbers_anew,
}
