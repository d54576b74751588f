"""What stands beside the saved state of a double array, read plainly from its bytes."""
import collections
import struct

FRONT = struct.Struct("<QBB")
MOST_BOUNDARIES = 16

Extra = collections.namedtuple("Extra", "length boundaries live cut")


def ascend(numbers):
    return all(one < other for one, other in zip(numbers, numbers[1:]))


def extra_in(data):
    """The members' length, how many boundaries there are, those in use, and the blocks that were cut; None where these aren't just the bytes of that."""
    if len(data) < FRONT.size:
        return None
    length, boundaries, count = FRONT.unpack_from(data)
    live, rest = list(data[FRONT.size : FRONT.size + count]), data[FRONT.size + count :]
    if len(live) < count or len(rest) < 4 or len(rest) != 4 + 4 * int.from_bytes(rest[:4], "little"):
        return None
    cut = [number for (number,) in struct.iter_unpack("<I", rest[4:])]
    is_form = boundaries <= MOST_BOUNDARIES and ascend(live) and all(boundary < boundaries for boundary in live) and ascend(cut)
    return Extra(length, boundaries, live, cut) if is_form else None


def extra_bytes(extra):
    front = FRONT.pack(extra.length, extra.boundaries, len(extra.live)) + bytes(extra.live)
    return front + struct.pack(f"<{1 + len(extra.cut)}I", len(extra.cut), *extra.cut)
