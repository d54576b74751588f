"""Sessions in which the program is asked for something else than the model, as if it did wrong. Each gives what the program is given; None where it can't be so spoiled."""
from reading import CHUNK, Header, header_bytes, number_of, opened
from sessions import Session


def with_images(session, images):
    return Session(session.width, images, session.fails, session.operations, session.kept).lines()


def with_operation(session, kind, change):
    """The first operation of a kind is another one."""
    for at, line in enumerate(session.operations):
        words = line.split(" ")
        if words[0] == kind and (changed := change(words)):
            operations = [*session.operations[:at], " ".join(map(str, changed)), *session.operations[at + 1 :]]
            return Session(session.width, session.images, session.fails, operations, session.kept).lines()
    return None


def whole_groups(session):
    """The groups of which no disk is out, and the headers that stand."""
    width, found = opened(session.images)
    return [(group, one.header) for group, one in enumerate(found) if one and not one.out and one.header.size]


def wrong_parity(session):
    """A byte of the parity of the first stripe is another one."""
    for group, _ in whole_groups(session):
        number = number_of(group, 0)
        image = session.images[number]
        return with_images(session, {**session.images, number: image[:CHUNK] + bytes([image[CHUNK] ^ 1]) + image[CHUNK + 1 :]})
    return None


def wrong_byte(session):
    """The last byte of a write isn't stored."""
    return with_operation(session, "write", lambda words: [*words[:3], words[3][:-2]] if len(words[3]) >= 2 and words[3][-2:] != "00" else None)


def wrong_disk(session):
    """Another disk goes out than the one that was to."""
    return with_operation(session, "drop", lambda words: ["drop", words[1], (int(words[2]) + 1) % 3])


def old_disk(session):
    """A disk counts that was out while the group was written."""
    _, found = opened(session.images)
    for group, one in enumerate(found):
        if one and len(one.out) == 1 and one.header.size:
            numbers = {place: number_of(group, place) for place in range(one.header.width)}
            if all(number in session.images for number in numbers.values()):
                header = Header(one.header.epoch, one.header.width, 0, one.header.size)
                images = {number: header_bytes(group, place, header) + session.images[number][CHUNK:] for place, number in numbers.items()}
                return with_images(session, {**session.images, **images})
    return None


def wrong_length(session):
    """A member gets a byte longer than it was to."""
    return with_operation(session, "extend", lambda words: ["extend", words[1], int(words[2]) + 1])


SPOILERS = (wrong_parity, wrong_byte, wrong_disk, old_disk, wrong_length)
