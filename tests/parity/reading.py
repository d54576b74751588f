"""A plain reading of the disks of groups with parity, by the rules of docs/DEFINITIONS.md, "Groups of disks with parity".

The disks are the bytes of their images, by number: disk j of group s is number 32 + 8 s + j. One that isn't there has none.
"""
import collections
import struct

CHUNK = 512
GROUPS, PLACES = 16, 8
MAGIC = b"DGRAID-P"
FIELDS = struct.Struct("<8sQBBBB4sQ")

Header = collections.namedtuple("Header", "epoch width marks size")
# What an opening makes of a group: the header that stands, and the disks that are out.
Found = collections.namedtuple("Found", "header out")


def number_of(group, place):
    return 32 + 8 * group + place


def stripes_of(width, size):
    """How many stripes a member has: chunks of 512 bytes, width - 1 of them a stripe."""
    chunks = -(-size // CHUNK)
    return -(-chunks // (width - 1))


def disk_length(width, size):
    return CHUNK * (1 + stripes_of(width, size))


def disk_of(width, chunk):
    """The disk of a chunk: those of its stripe stand on the disks other than the parity's, ascending."""
    stripe, place = divmod(chunk, width - 1)
    return place + (place >= stripe % width)


def header_bytes(group, place, header):
    """The first 512 bytes of a disk."""
    fields = FIELDS.pack(MAGIC, header.epoch, group, place, header.width, header.marks, bytes(4), header.size)
    return fields + bytes(CHUNK - FIELDS.size)


def header_on(group, place, image):
    """The header of a disk that counts, None where none does."""
    if image is None or len(image) < CHUNK or any(image[FIELDS.size : CHUNK]):
        return None
    magic, epoch, of_group, at, width, marks, zeros, size = FIELDS.unpack_from(image)
    if magic != MAGIC or any(zeros) or (of_group, at) != (group, place):
        return None
    if not 3 <= width <= 8 or not 1 <= epoch < 1 << 63 or len(image) != disk_length(width, size):
        return None
    return Header(epoch, width, marks, size)


def marks_of(places):
    return sum(1 << place for place in places)


def width_of(fronts):
    """That of the least disk, by group and then by place, whose header counts; 0 where none does."""
    return fronts[min(fronts)].width if fronts else 0


def group_of(fronts, group, width):
    """What an opening makes of a group; None where no disk of it has a header of this width."""
    own = {place: front for (s, place), front in fronts.items() if s == group and place < width and front.width == width}
    if not own:
        return None
    standing = own[min(own, key=lambda place: (-own[place].epoch, place))]
    ins = {place for place, front in own.items() if front == standing and not standing.marks >> place & 1}
    return Found(standing, set(range(width)) - ins)


def opened(images, failed=()):
    """The width of the array, and what an opening makes of each group. A disk on which a call failed counts as one without a header."""
    fronts = {}
    for group in range(GROUPS):
        for place in range(PLACES):
            number = number_of(group, place)
            front = header_on(group, place, images.get(number))
            if front and number not in failed:
                fronts[group, place] = front
    width = width_of(fronts)
    return width, [group_of(fronts, group, width) for group in range(GROUPS)]


def exclusive(rows, length):
    """The exclusive or of rows of so many bytes."""
    total = 0
    for row in rows:
        total ^= int.from_bytes(row, "little")
    return total.to_bytes(length, "little")


def rows_of(images, group, width, size, out):
    """The stripes of each disk; one that is out has what the others have together."""
    end = disk_length(width, size)
    rows = {j: images[number_of(group, j)][CHUNK:end] for j in range(width) if j not in out}
    for j in out:
        rows[j] = exclusive([row for i, row in rows.items() if i != j], end - CHUNK)
    return rows


def chunks_in(rows, width, stripes):
    """All chunks of the stripes, one after another."""
    places = ((disk_of(width, chunk), CHUNK * (chunk // (width - 1))) for chunk in range(stripes * (width - 1)))
    return b"".join(rows[j][at : at + CHUNK] for j, at in places)


def member(images, group, width, size, out):
    """The bytes of a member of which at most one disk is out, and whether the parity is even and nothing stands behind the member's end."""
    rows = rows_of(images, group, width, size, out)
    stripes = stripes_of(width, size)
    all_bytes = chunks_in(rows, width, stripes)
    is_even = not any(exclusive(rows.values(), CHUNK * stripes))
    return all_bytes[:size], is_even and not any(all_bytes[size:])
