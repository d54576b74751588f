"""Changes of the images of two members: of their headers, tables, pages and lengths, and of which is whose."""
from reading import FIELDS, LABELS, MAGIC, PAGE, header_in, table_of

SEQUENCE, MARK, MEMBER, SIZE, ROOM, EXTRA = (8, 8), (16, 1), (17, 1), (24, 8), (32, 4), (36, 4)
FIELDS_OF_HEADER = (SEQUENCE, MARK, MEMBER, SIZE, ROOM, EXTRA)


def put(image, at, data):
    """The image with these bytes at a place; those past its end are left out."""
    return image[:at] + data[: max(0, len(image) - at)] + image[at + len(data) :]


def number(image, at, count):
    return int.from_bytes(image[at : at + count], "little")


def change_byte(rng, images, member):
    """A byte of the headers or of what stands behind them."""
    image = images[member]
    if image:
        end = min(len(image), rng.choice((40, 2 * PAGE, 4 * PAGE, len(image))))
        at = rng.randrange(end)
        images[member] = put(image, at, bytes([image[at] ^ rng.randrange(1, 256)]))


def change_field(rng, images, member):
    """A number of a header: a near one, an end of its range, or that of another header."""
    image = images[member]
    if len(image) < 2 * PAGE:
        return
    place, (at, count) = rng.randrange(2), rng.choice(FIELDS_OF_HEADER)
    at += PAGE * place
    was = number(image, at, count)
    other = number(images[rng.randrange(len(images))], (at + PAGE) % (2 * PAGE), count)
    ends = (0, 1, 2, (1 << 62) - 66, (1 << 62) - 65, (1 << 62) - 2, (1 << 62) - 1, 1 << 62, (1 << 62) + 1, 0x43, 0x50)
    value = rng.choice((was + 1, was - 1, was + 2, was - 2, other, rng.choice(ends), rng.getrandbits(8 * count)))
    images[member] = put(image, at, (value % (1 << 8 * count)).to_bytes(count, "little"))


def change_mark(rng, images, member):
    """A mark that says prepared in place of committed, or the other way."""
    image, at = images[member], PAGE * rng.randrange(2) + MARK[0]
    if at < len(image) and image[at] in (0x43, 0x50):
        images[member] = put(image, at, bytes([0x43 + 0x50 - image[at]]))


def copy_header(rng, images, member):
    """A header in the place of another one, or of another member's."""
    place, other = rng.randrange(2), rng.randrange(2)
    source = images[rng.randrange(len(images))]
    page = source[PAGE * other : PAGE * (other + 1)]
    if rng.random() < 0.7 and len(page) == PAGE:
        page = put(page, MEMBER[0], bytes([member]))
    if rng.random() < 0.5 and len(page) == PAGE:
        sequence = (number(page, *SEQUENCE) + rng.choice((-1, 1))) % (1 << 64)
        page = put(page, SEQUENCE[0], sequence.to_bytes(8, "little"))
    if len(page) == PAGE:
        images[member] = put(images[member], PAGE * place, page)


def change_table(rng, images, member):
    """Bits of a table, also behind those of the last page, or bytes of all of it."""
    image = images[member]
    header = header_in(image, 0, member) or header_in(image, 1, member)
    if header and (size := table_of(header.size, header.room)):
        at = 2 * PAGE + rng.randrange(2) * size
        count = rng.choice((1, 1, size))
        images[member] = put(image, at, rng.randbytes(count))


def tear_page(rng, images, member):
    """Some bytes behind the headers, as a write that was cut leaves them."""
    image = images[member]
    if len(image) > 2 * PAGE:
        at = rng.randrange(2 * PAGE, len(image))
        images[member] = put(image, at, rng.randbytes(rng.randrange(1, PAGE)))


def change_length(rng, images, member):
    """A member that is shorter or longer."""
    image = images[member]
    count = rng.choice((1, PAGE, 2 * PAGE, rng.randrange(1, 4 * PAGE)))
    longer = image + bytes(count)
    images[member] = rng.choice((image[: max(0, len(image) - count)], longer, image[:count]))


def clear_headers(rng, images, member):
    """A member without one of its headers, or without both."""
    image = images[member]
    if len(image) >= 2 * PAGE:
        images[member] = put(image, *rng.choice(((0, bytes(PAGE)), (PAGE, bytes(PAGE)), (0, bytes(2 * PAGE)))))


def begin(rng, images, member):
    """A member that begins as the label of a plain array, or nearly so."""
    words = (*LABELS, *LABELS, LABELS[0][:-1] + b"3", MAGIC)
    images[member] = put(images[member], 0, rng.choice(words))


def exchange(rng, images, member):
    """Members in the place of one another, or one as both."""
    other = (member + 1) % len(images)
    if rng.random() < 0.5:
        images[member], images[other] = images[other], images[member]
    else:
        images[member] = images[other]


CHANGES = (change_byte, change_field, change_field, change_mark, copy_header, change_table, tear_page, change_length, clear_headers, begin, exchange)


def damaged(rng, images):
    """The images after some changes; a member may be missing in the end."""
    images = list(images)
    for _ in range(rng.choice((1, 1, 2, 2, 3, 5))):
        rng.choice(CHANGES)(rng, images, rng.randrange(len(images)))
    if rng.random() < 0.03:
        images[rng.randrange(len(images))] = None
    return images
