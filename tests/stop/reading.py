"""A plain reading of members whose pages have two places each, by the rules of docs/DEFINITIONS.md, "A double array".

A member is the bytes of its image, or None where there is no such one.
"""
import collections
import os
import sys

sys.path.append(os.path.join(os.path.dirname(os.path.abspath(__file__)), "..", "..", "tools"))
from rescue import FIELDS, LABELS, MAGIC, MARKS, PAGE, PAST_SEQUENCES, bits_of, header_on, pages_of, table_of, taken  # noqa: E402, F401

# top: the greatest sequence that was seen; last: that of the last commit, None where none is committed; by member its bytes, if it is attached, and its image behind
Reopened = collections.namedtuple("Reopened", "top last room extra entries behind")


def header_bytes(member, header):
    """A page of a header."""
    mark = next(byte for byte, committed in MARKS.items() if committed == header.committed)
    fields = FIELDS.pack(MAGIC, header.sequence, mark, member, bytes(6), header.size, header.room, header.extra)
    return fields + bytes(PAGE - FIELDS.size)


def header_in(image, place, member):
    """The header that counts in one of the two places of a member; None where none does."""
    return header_on(image, len(image), place, member)


def headers_of(images):
    """The headers that count, by member and place."""
    found = {}
    for member, image in enumerate(images):
        for place in (0, 1):
            if image is not None and (header := header_in(image, place, member)):
                found[member, place] = header
    return found


def entry(image, header):
    """The bytes of a member that the table of a header names, and the extra bytes behind its bits."""
    table = table_of(header.size, header.room)
    start = 2 * PAGE + header.sequence % 2 * table
    extra = start + bits_of(header.size)
    pages = []
    for page in range(pages_of(header.size)):
        second = image[start + page // 8] >> page % 8 & 1
        place = 2 * PAGE + 2 * table + 2 * PAGE * page + PAGE * second
        pages.append(image[place : place + PAGE])
    return b"".join(pages)[: header.size], image[extra : extra + header.extra]


def total(data):
    """What is printed of bytes: how many they are, and a remainder of the number that they are from the least byte on."""
    return f"{len(data)}:{int.from_bytes(data, 'little') % 4294967291}"


def shown(data):
    return "-" if data is None else total(data)


def next_after(last, top):
    """The least sequence above all that were seen whose header stands in the other place than the last commit's."""
    return top + 1 if (top + 1) % 2 != last % 2 else top + 2


def reopened(images):
    """What an opening finds of these members: None where none has a header that counts."""
    found = headers_of(images)
    if not found:
        return None
    top = max(header.sequence for header in found.values())
    entries, behind = [None] * len(images), list(images)
    attached = taken(found)
    if not attached:
        return Reopened(top, None, 0, b"", entries, behind)
    extra = None
    for (member, place), header in attached.items():
        entries[member], its_extra = entry(images[member], header)
        extra = its_extra if extra is None else extra
        page = header_bytes(member, header._replace(committed=True))
        behind[member] = images[member][: PAGE * place] + page + images[member][PAGE * (place + 1) :]
    return Reopened(top, header.sequence, header.room, extra, entries, behind)


def opened(images):
    """The line that an opening of two members is to print."""
    found = reopened(images)
    if found is None:
        return "plain"
    if found.last is None:
        return " ".join(["double 0 -", *["-"] * len(images), *map(shown, images), "lost"])
    # at the last sequences no commit is made
    after = "lost" if found.top >= PAST_SEQUENCES - 64 else str(next_after(found.last, found.top))
    return " ".join([f"double {found.room} {found.extra.hex() or '-'}", *map(shown, found.entries), *map(shown, found.behind), after])
