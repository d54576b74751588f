"""Random changes of the labels and bodies of saved members. Each changes the images in its way, and says in words what it did."""
import os
import sys

sys.path.insert(0, os.path.join(os.path.dirname(os.path.abspath(__file__)), "..", "soak"))
from opened import PHASES, State, decode, encode  # noqa: E402
from saved import LABEL, Label  # noqa: E402

SPECIAL = [0, 1, 2, 3, 127, 128, 255, 256, 511, 512, 1024, 4095, 4096, 65535, 65536, 2**20, 2**20 + 1, 2**21, 2**31 - 1, 2**31, 2**32 - 2, 2**32 - 1]
SEQUENCES = [0, 1, 2, 2**32, 2**63 - 1, 2**63, 2**64 - 1]
NUMBERS_AT, LENGTH_AT, SEAL_AT, SEQUENCE_AT = 20, 40, 16, 8
MEMBERS = 32
TRIES = 5


class Images:
    """The images of a saved array, as they are now and as they were at the save before; by member."""

    def __init__(self, now, old):
        self.now = {member: bytearray(image) for member, image in now.items()}
        self.old = old

    def label(self, member):
        return Label(member, bytes(self.now[member]))

    def body(self, member):
        return self.label(member).body(bytes(self.now[member]))

    def put_body(self, member, body):
        """Another body, and its length in the label."""
        place = self.label(member).place
        self.now[member][place:place + len(body)] = body
        self.put_number(member, LENGTH_AT, len(body), 4)

    def put_number(self, member, at, value, count):
        self.now[member][at:at + count] = value.to_bytes(count, "little")

    def state(self, member):
        label = self.label(member)
        return decode(self.body(member), label.shape, label.form) if label.own else None


def hit(rng, images, member):
    """A place in the label or the body of a member."""
    image, label = images.now[member], images.label(member)
    kind = rng.random()
    if kind < 0.4:
        return min(rng.choice([rng.randrange(LABEL.size), rng.randrange(512)]), len(image) - 1)
    if kind < 0.95:
        return min(label.place + rng.randrange(max(1, label.body_length)), len(image) - 1)
    return rng.randrange(label.place, len(image))


# changes of the bytes of one member


def change_byte(rng, images, member):
    at, value = hit(rng, images, member), rng.randrange(256)
    images.now[member][at] = value
    return f"byte {at} is {value}"


def change_bit(rng, images, member):
    at, bit = hit(rng, images, member), rng.randrange(8)
    images.now[member][at] ^= 1 << bit
    return f"bit {bit} of byte {at} is turned"


def change_run(rng, images, member):
    at, count = hit(rng, images, member), rng.choice([2, 4, 8, 64, 512, 4096])
    count = min(count, len(images.now[member]) - at)
    kind = rng.choice(["zeros", "ones", "noise"])
    images.now[member][at:at + count] = {"zeros": bytes(count), "ones": b"\xff" * count, "noise": rng.randbytes(count)}[kind]
    return f"{count} bytes from {at} on are {kind}"


def change_length(rng, images, member):
    image, label = images.now[member], images.label(member)
    whole = len(image)
    length = rng.choice([0, 1, 44, 511, 512, 513, label.place, label.place + label.body_length - 1, whole - 1, whole + 1, whole + 512, rng.randrange(whole)])
    length = max(0, min(length, whole + 512))
    images.now[member] = image[:length] + bytes(max(0, length - whole))
    return f"it has {length} bytes"


def change_number(rng, images, member):
    at = rng.choice(range(NUMBERS_AT, LABEL.size, 4))
    now = int.from_bytes(images.now[member][at:at + 4], "little")
    value = rng.choice([*SPECIAL, (now + 1) % 2**32, (now - 1) % 2**32, now * 2 % 2**32])
    images.put_number(member, at, value, 4)
    return f"the number at {at} of the label is {value}"


def change_sequence(rng, images, member):
    now = int.from_bytes(images.now[member][SEQUENCE_AT:SEQUENCE_AT + 8], "little")
    value = rng.choice([*SEQUENCES, now + 1, max(0, now - 1)])
    images.put_number(member, SEQUENCE_AT, value, 8)
    return f"the save's number is {value}"


def change_seal(rng, images, member):
    value = rng.choice([b"O", b"O", b"S", b"s", b"\0"])
    images.now[member][SEAL_AT:SEAL_AT + 1] = value
    return f"the seal is {value}"


def change_form(rng, images, member):
    value = rng.choice([b"1", b"2", b"3", b"\0"])
    images.now[member][7:8] = value
    return f"the format is {value}"


def change_word(rng, images, member):
    label = images.label(member)
    at = label.place + rng.randrange(max(1, label.body_length - 3))
    value = rng.choice(SPECIAL)
    images.put_number(member, at, value, 4)
    return f"the number at {at - label.place} of the body is {value}"


def change_size(rng, images, member):
    """Bytes are put into the body or taken out of it, and the label tells the new length."""
    body = images.body(member)
    at, count = rng.randrange(len(body)), rng.choice([1, 1, 2, 5, 7, 100])
    more = rng.random() < 0.5
    images.put_body(member, body[:at] + rng.randbytes(count) + body[at:] if more else body[:at] + body[at + count:])
    return f"{count} bytes are {'put in' if more else 'taken out'} at {at} of the body"


def change_to_old_body(rng, images, member):
    old = images.old.get(member)
    if old is None:
        return None
    body = Label(member, bytes(old)).body(bytes(old))
    if rng.random() < 0.7:
        images.put_body(member, body)
        return "it has the body of the save before, with its length"
    place = images.label(member).place
    images.now[member][place:place + len(body)] = body
    return "it has the body of the save before, with the length of this one"


def change_to_old_label(rng, images, member):
    old = images.old.get(member)
    if old is None:
        return None
    images.now[member][:512] = old[:512]
    return "it has the label of the save before"


def change_to_old(rng, images, member):
    if member not in images.old:
        return None
    images.now[member] = bytearray(images.old[member])
    return "it is as at the save before"


# changes of what the body says, which is made anew


def say_another_mark(rng, state, shape):
    state.good[rng.randrange(len(state.good))] ^= True


def say_another_phase(rng, state, shape):
    return state._replace(phase=rng.choice(PHASES))


def say_another_pending(rng, state, shape):
    state.pending[rng.randrange(len(state.pending))] ^= True


def say_another_site(rng, state, shape):
    """A site is dropped, added, or has another boundary or slot."""
    row = state.sites[rng.randrange(len(state.sites))]
    site = rng.randrange(shape[2] + (rng.random() < 0.1)), rng.randrange(shape[3] + 1 + (rng.random() < 0.1))
    kind = rng.random()
    if row and kind < 0.3:
        row.pop(rng.randrange(len(row)))
    elif row and kind < 0.7:
        row[rng.randrange(len(row))] = site
    else:
        row.insert(rng.randrange(len(row) + 1), site)


def say_swapped_sites(rng, state, shape):
    one, other = (rng.randrange(len(state.sites)) for _ in range(2))
    state.sites[one], state.sites[other] = state.sites[other], state.sites[one]


def say_turned_sites(rng, state, shape):
    rng.choice(state.sites).reverse()


def say_another_pair(rng, state, shape):
    """A home or a copy is dropped, added, or has another inode or boundary."""
    pairs = rng.choice([state.homes, state.copies])
    pair = rng.choice([rng.randrange(2, 40), 2**32 - 1, 0]), rng.randrange(shape[2])
    kind = rng.random()
    if pairs and kind < 0.3:
        pairs.pop(rng.randrange(len(pairs)))
    elif pairs and kind < 0.6:
        at = rng.randrange(len(pairs))
        pairs[at] = rng.choice([(pairs[at][0], pair[1]), (pair[0], pairs[at][1])])
    else:
        pairs.append(pair)
    if rng.random() < 0.8:
        pairs.sort()


def say_another_recent(rng, state, shape):
    if state.recent and rng.random() < 0.3:
        state.recent.pop()
    else:
        state.recent.extend(rng.choice([2, 3, 5, 2**32 - 1, rng.randrange(2**32)]) for _ in range(rng.choice([1, 2, 16])))


SAYINGS = [
    say_another_mark, say_another_phase, say_another_pending, say_another_site, say_another_site, say_swapped_sites, say_turned_sites,
    say_another_pair, say_another_pair, say_another_recent,
]


def change_state(rng, images, member):
    """The body is made anew of a state that was changed, and the label tells its length."""
    state = images.state(member)
    if state is None:
        return None
    label = images.label(member)
    state = State(state.phase, list(state.good), [list(row) for row in state.sites], *(list(part) for part in state[3:]))
    told = []
    for _ in range(rng.choice([1, 1, 1, 2, 5])):
        say = rng.choice(SAYINGS)
        state = say(rng, state, label.shape) or state
        told.append(say.__name__.replace("_", " "))
    body = encode(state, label.form)
    if label.place + len(body) > len(images.now[member]):
        return None
    images.put_body(member, body)
    return "its body is made anew: " + ", ".join(told)


# changes of whole images


def swap_images(rng, images):
    one, other = rng.choice(sorted(images.now)), rng.choice(sorted(images.now))
    images.now[one], images.now[other] = images.now[other], images.now[one]
    return f"members {one} and {other} are swapped"


def copy_image(rng, images):
    one, other = rng.choice(sorted(images.now)), rng.randrange(MEMBERS)
    images.now[other] = bytearray(images.now[one])
    return f"member {other} is a copy of {one}"


def copy_as_own(rng, images):
    """A copy under another member's name, with that place in its label."""
    one, other = rng.choice(sorted(images.now)), rng.randrange(MEMBERS)
    image = bytearray(images.now[one])
    image[17:19] = bytes(divmod(other, 2))
    images.now[other] = image
    return f"member {other} is a copy of {one} with its own place"


def remove_image(rng, images):
    if len(images.now) == 1:
        return None
    one = rng.choice(sorted(images.now))
    del images.now[one]
    return f"member {one} is removed"


OF_A_MEMBER = [
    change_byte, change_bit, change_run, change_length, change_number, change_sequence, change_seal, change_form, change_word, change_size,
    change_to_old_body, change_to_old_label, change_to_old, *[change_state] * 6,
]
OF_IMAGES = [swap_images, copy_image, copy_as_own, remove_image]


def change_once(rng, images):
    """One change, of one member or alike of several or all; what was done, in words, or None where nothing was."""
    if rng.random() < 0.12:
        return rng.choice(OF_IMAGES)(rng, images)
    do, seed = rng.choice(OF_A_MEMBER), rng.random()
    members = sorted(images.now)
    kind = rng.random()
    chosen = members if kind < 0.5 else [rng.choice(members)] if kind < 0.8 else rng.sample(members, rng.randrange(1, len(members) + 1))
    told = []
    for member in chosen:
        alike = type(rng)(seed) if kind < 0.9 else rng
        if len(images.now[member]) >= 512 and images.label(member).own:
            told.append((member, do(alike, images, member)))
    words = {word for _, word in told if word}
    return f"members {[member for member, word in told if word]}: {', or '.join(sorted(words))}" if words else None


def change(rng, images):
    """A change that does something, if a few tries find one."""
    for _ in range(TRIES):
        told = change_once(rng, images)
        if told:
            return told
    return "nothing"
