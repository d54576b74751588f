"""What an opening of images gives by their bytes, for all kinds of arrays: a plain one by its labels, a double one by its headers and then by the labels of what they name."""
import os
import sys

HERE = os.path.dirname(os.path.abspath(__file__))
sys.path += [os.path.join(HERE, "..", "damage"), os.path.join(HERE, "..", "soak"), os.path.join(HERE, "..", "stop")]
import reading  # noqa: E402
from extras import Extra, extra_in  # noqa: E402
from opened import opened_from, values_of  # noqa: E402
from saved import Label  # noqa: E402

PAGE = 512
MEMBERS = 32


def label_of(member, image):
    """The label of its own that a member has, or None."""
    if len(image) < PAGE:
        return None
    label = Label(member, image)
    return label if label.own else None


def reopened(images):
    """What the headers of these members name; None where none has one."""
    return reading.reopened([images.get(member) for member in range(MEMBERS)])


def judge(images):
    """`nostate`, `unclean`, or the array that these images say, by the rules of an opening."""
    kept = reopened(images)
    if kept is None:
        return opened_from({member: (label_of(member, image), image) for member, image in images.items()})
    return "nostate" if kept.last is None else judge_kept(kept)


def bytes_in_use(kept, extra):
    """The bytes of the members of boundaries in use, by the places of these. Where nothing stands beside the state, all are in use."""
    if not kept.extra:
        return {member: entry for member, entry in enumerate(kept.entries) if entry is not None}
    found = {}
    for place, boundary in enumerate(extra.live):
        for side in (0, 1):
            entry = kept.entries[2 * boundary + side]
            if entry is not None and len(entry) >= extra.length:
                found[2 * place + side] = entry[:extra.length]
    return found


def judge_kept(kept):
    """What the members say that a commit has kept, and what stands beside their state."""
    extra = extra_in(kept.extra)
    if extra is None and kept.extra:
        return "nostate"
    images = bytes_in_use(kept, extra)
    array = opened_from({member: (label_of(member, image), image) for member, image in images.items()})
    if isinstance(array, str):
        return array
    extra = extra or Extra(0, array.b, range(array.b), [])
    is_cut_well = all(block < array.n and not array.sites[block] for block in extra.cut)
    if len(extra.live) != array.b or kept.room < 30 + 4 * array.n or not is_cut_well:
        return "nostate"
    array.is_double, array.boundaries, array.live, array.cut = True, extra.boundaries, list(extra.live), set(extra.cut)
    array.sequence, array.top, array.images = kept.last, kept.top, images
    array.source = member_of(array, array.source)
    return array


def member_of(array, member):
    """The number by the first line of a member of the boundaries in use."""
    return 2 * array.live[member // 2] + member % 2


def has_opened_label(images):
    """Whether some member has a label of its own whose seal is open: without one no opening is unclean, whichever calls fail."""
    kept = reopened(images)
    if kept and kept.last is not None:
        extra = extra_in(kept.extra)
        images = bytes_in_use(kept, extra) if extra or not kept.extra else {}
    labels = [label_of(member, image) for member, image in images.items()]
    return any(label and not label.sealed for label in labels)


def values_by_block(array, images):
    """What the good members say that each block holds. Zeros where it has no site; nothing where it is gone."""
    zeros = bytes(array.l)
    images = array.images if array.is_double else images
    found = []
    for block in range(array.n):
        values = set() if block in array.cut else set(values_of(array, images, block)) if array.sites[block] else {zeros}
        found.append(values)
    return found
