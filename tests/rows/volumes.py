"""The volumes that rows name."""
import functools

from images import Item, Spec, Volume


def small(l=1024, frag=4, fpg=128, ipg=32, order="little"):
    """One group of 128 fragments of 1024 bytes, with 32 inodes, where nothing else is said."""
    return Spec(l, frag, 1, fpg, ipg, 0, 0xFFFFFFFF, order)


def long_file():
    return b"".join(bytes([1 + part]) * 1024 for part in range(52))


def some_files():
    """A file of one block, a directory with a file that has an indirect block, an empty file, and one that begins with a hole."""
    return [
        Item("/a", "file", b"hello"), Item("/d", "dir"), Item("/d/b", "file", long_file()), Item("/z", "file"),
        Item("/h", "file", bytes(4096) + b"h" * 1500, True),
    ]


def two_files():
    return [Item("/p", "file", b"p" * 16384), Item("/q", "file", b"q" * 16384)]


def seventeen_files():
    return [Item(f"/f{number:02}", "file", b"%02d" % number) for number in range(1, 18)]


def links():
    """Links of 1, 59 and 60 bytes: the last one has a block."""
    return [Item("/s", "link", b"a"), Item("/t", "link", b"t" * 59), Item("/u", "link", b"u" * 60), Item("/a", "file", b"hello")]


def many_files():
    """Three hundred files of up to 9000 bytes, and one that needs a double indirect block for its last byte."""
    files = [
        Item(f"/f{number:03}", "file", bytes((number + at) % 251 for at in range(97 * number % 9000))) for number in range(1, 301)
    ]
    return files + [Item("/big", "file", bytes(16_883_711) + b"\1", True)]


def long_names():
    """A directory of 104 files with names of 255 bytes, which has thirteen blocks and an indirect one. The last file alone has a byte."""
    names = [f"/d/{number:03}{'n' * 252}" for number in range(104)]
    return [Item("/d", "dir"), *(Item(name, "file") for name in names[:-1]), Item(names[-1], "file", b"x")]


def deep_files():
    """Directories in one another, twelve deep, each with a file before the next one and a file behind it."""
    items, path = [], ""
    for _ in range(12):
        items += [Item(path + "/a", "file"), Item(path + "/d", "dir")]
        path += "/d"
    return items + [Item("/z", "file", b"z"), Item(path + "/e", "file", b"end")]


def three_directories():
    """Files of 5, 2, 1, 1, 3, 1 and 1 fragments in three directories and the root."""
    sizes = [("/d1/a", 5000), ("/d2/a", 2048), ("/d3/a", 1024), ("/d1/b", 1024), ("/d2/b", 3000), ("/r", 1024), ("/d3/b", 1)]
    return [Item(f"/d{number}", "dir") for number in (1, 2, 3)] + [Item(path, "file", b"." * size) for path, size in sizes]


def crowded(last):
    """Two files of twenty fragments and a third one, in one directory."""
    return [Item("/d", "dir"), *(Item(f"/d/{name}", "file", b"." * size) for name, size in (("a", 20480), ("b", 20480), ("c", last)))]


def thousand_files():
    """A directory of a thousand empty files, which has 33 blocks and an indirect one, and a file of one byte behind them."""
    return [Item("/d", "dir"), *(Item(f"/d/{number:03}", "file") for number in range(999)), Item("/d/end", "file", b"e")]


def files_in_groups():
    """A hundred and fifty files of up to 3000 bytes, whose inodes stand in three groups of 64."""
    return [Item(f"/f{number:03}", "file", bytes((number + at) % 255 + 1 for at in range(20 * number))) for number in range(1, 151)]


MAKERS = {
    "E": lambda: Volume(small(), []),
    "F": lambda: Volume(small(), some_files()),
    "X": lambda: Volume(small(), two_files()),
    "FB": lambda: Volume(small(order="big"), some_files()),
    "M": lambda: Volume(small(), seventeen_files()),
    "S": lambda: Volume(small(), links()),
    "D": lambda: Volume(small(fpg=256, ipg=128), long_names()),
    "T": lambda: Volume(small(), deep_files()),
    "P": lambda: Volume(small(), three_directories()),
    "Q": lambda: Volume(small(), crowded(1024)),
    "Q11": lambda: Volume(small(), crowded(11264)),
    "Q12": lambda: Volume(small(), crowded(12288)),
    "F512": lambda: Volume(small(512, 8, 256), some_files()),
    "F2048": lambda: Volume(small(2048, 2, 64), some_files()),
    "F4096": lambda: Volume(small(4096, 1, 64), some_files()),
    "L16": lambda: Volume(small(2048, 8, 256, 128), some_files()),
    "L16B": lambda: Volume(small(2048, 8, 256, 128, "big"), some_files()),
    "L32": lambda: Volume(small(4096, 8, 256, 256), some_files()),
    "L32B": lambda: Volume(small(4096, 8, 256, 256, "big"), some_files()),
    "L64M": lambda: Volume(small(4096, 8, 16384, 256), some_files()),
    "K": lambda: Volume(small(fpg=512, ipg=1024), thousand_files()),
    "G3": lambda: Volume(Spec(1024, 8, 3, 512, 64, 8, 0xFFFFFFFC, "little"), files_in_groups()),
    "R": lambda: Volume(Spec(1024, 8, 4, 2048, 256, 32, 0xFFFFFFFC, "little"), many_files()),
}


@functools.lru_cache(None)
def volume(name):
    return MAKERS[name]()
