"""What the command `drill` prints, worked out from the rules of its files, of the volume and of the plan."""
import functools

from images import Item, Spec, Volume

BOUNDARIES, SLOTS, PLACES = 4, 16384, 3
SPEC = Spec(1024, 8, 16, 2048, 256, 32, 0xFFFFFFF8, "little")
MULTIPLIER, WORD, LONG = 6364136223846793005, 0xFFFFFFFF, 0xFFFFFFFFFFFFFFFF


def output(state):
    """The 32 bits that PCG XSH RR gives of a state of 64."""
    mixed, turn = ((state >> 18 ^ state) >> 27) & WORD, state >> 59
    return (mixed >> turn | mixed << (32 - turn)) & WORD


def words(seed):
    """The words of the generator of a seed. Its state and its increment are made of four words of another one."""
    parts = []
    for _ in range(4):
        seed = (seed * MULTIPLIER + 11634580027462260723) & LONG
        parts.append(output(seed))
    increment = parts[2] | parts[3] << 32 | 1
    state = ((parts[0] | parts[1] << 32) + increment) * MULTIPLIER + increment & LONG
    while True:
        yield output(state)
        state = state * MULTIPLIER + increment & LONG


@functools.lru_cache(None)
def row_of(first):
    """The 256 bytes that begin with this one, each by seven more than the one before."""
    return bytes((first + 7 * at) % 251 for at in range(256))


def bytes_of(k, size):
    """The bytes of a file: at byte `at` (31 k + 7 at + at / 256) mod 251. From one row of 256 bytes to the next that grows by 7 * 256 + 1."""
    return b"".join(row_of((31 * k + (7 * 256 + 1) * row) % 251) for row in range(-(-size // 256)))[:size]


def items(seed, count):
    """Ten directories, and files of up to 12,000 bytes; each hundredth has 200,000 more."""
    made = [Item(f"/d{number}", "dir") for number in range(10)]
    for k, word in zip(range(count), words(seed)):
        size = word % 12000 + (0 if k % 100 else 200000)
        made.append(Item(f"/d{k % 10}/f{k:04}", "file", bytes_of(k, size)))
    return made


def homes(volume):
    """
    The home of each file with a written block, once the naming has its places: beside the first placed file of its directory where it fits there, else
    on the boundary with the most room.
    """
    kinds = {"/": "dir", **{item.path: item.kind for item in volume.items}}
    owners = {fragment: path for path, fragments in volume.fragments.items() for fragment in fragments}
    written, room, found, first = set(volume.written()), [SLOTS] * BOUNDARIES, {}, {}
    for block in written:
        if volume.group_of(block) is None or kinds.get(owners.get(block)) == "dir":
            for place in range(PLACES):
                room[(block + place) % BOUNDARIES] -= 1
    for item in volume.items:
        count = len(written.intersection(volume.fragments[item.path]))
        if item.kind == "file" and count:
            directory = item.path.rpartition("/")[0]
            home = first.get(directory)
            if home is None or room[home] < count:
                home = room.index(max(room))
            first.setdefault(directory, home)
            found[item.path] = home
            room[home] -= count
    return found


@functools.lru_cache(None)
def report(seed, count):
    """All that is printed."""
    volume = Volume(SPEC, items(seed, count))
    lost, found = seed % BOUNDARIES, homes(volume)
    given = [item for item in volume.items if item.kind == "file" and found.get(item.path) != lost]
    sizes = sum(len(item.data) for item in given)
    lines = [
        f"drill {seed} {count}", f"blocks {len(volume.written())}", "settled", f"lost {lost}",
        f"given {len(given)} bytes {sizes}", f"unavailable {count - len(given)}",
    ]
    return "".join(line + "\n" for line in lines).encode()
