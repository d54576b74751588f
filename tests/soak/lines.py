"""Why a line is refused: the first kind that fits, by a plain reading of the definitions; and lines that are damaged."""
import re

NUMBERS = {
    "array": 5, "safe": 5, "write": 1, "read": 1, "fail": 2, "replace": 2, "rebuild": 2, "settle": 0, "tend": 1, "diffuse": 0, "who": 1,
    "pending": 0, "cat": 0, "ls": 0, "tree": 0, "home": 0, "save": 0, "audit": 0, "regroup": 0, "lostfiles": 0, "drop": 2, "mend": 2,
}
FIRST = ("array", "safe")
TAILS = {"write": "hex", "cat": "path", "ls": "path", "home": "path"}


def is_number(word):
    return re.fullmatch("0|[1-9][0-9]*", word) is not None and int(word) < 1 << 32


def is_hex(word, l):
    return word == "-" or re.fullmatch("([0-9a-f]{2})+", word) is not None and len(word) <= 2 * l


def is_path(word):
    """`/`, or names with a slash in front of each, in their one spelling; at most 1023 bytes."""
    if word[:1] != "/":
        return False
    sizes = []
    for name in word.split("/")[1:]:
        if re.fullmatch(r"([\x21-\x5b\x5d-\x7e]|\\x[0-9a-f]{2})+", name) is None:
            return word == "/"
        for byte in re.findall(r"\\x(..)", name):
            value = int(byte, 16)
            if value in (0, 0x2F) or 0x21 <= value <= 0x7E and value != 0x5C:
                return False
        sizes.append(len(re.sub(r"\\x..", "?", name)))
    return max(sizes) <= 255 and sum(sizes) + len(sizes) <= 1023


def keeps_limits(l, n, b, k, m):
    return (
        l in (512, 1024, 2048, 4096) and 1 <= n <= 1 << 20 and 2 <= b <= 16 and 1 <= k <= 1 << 20 and b * k <= 1 << 21
        and n <= b * k and 1 <= m <= b
    )


def refusal(line, place, l):
    """The kind by which a line in that place is refused, with its line feed or without; None where it is an event."""
    longest = 2 * l + 4201
    if "\n" not in line[:longest] and len(line) >= longest:
        return "long"
    if not line.endswith("\n"):
        return "cut"
    words = line[:-1].split(" ")
    word, *rest = words
    if word not in NUMBERS:
        return "word"
    if (word in FIRST) != (place == 1):
        return "order"
    count = NUMBERS[word]
    if len(rest) != count + (word in TAILS) or "" in words:
        return "form"
    if not all(map(is_number, rest[:count])):
        return "number"
    if word in FIRST and not keeps_limits(*map(int, rest)):
        return "limits"
    if TAILS.get(word) == "hex" and not is_hex(rest[-1], l):
        return "hex"
    if TAILS.get(word) == "path" and not is_path(rest[-1]):
        return "path"
    return None


def damaged(rng, line, l):
    """A line that is changed in some way, mostly to one that is refused; with its line feed or without."""
    kind = rng.randrange(12)
    at = rng.randrange(len(line) + 1)
    words = line.split(" ")
    some = rng.randrange(len(words))
    if kind == 0:
        return line
    if kind == 1:
        return line[:at] + line[at + 1:] + "\n"
    if kind == 2:
        return line[:at] + rng.choice(" \t\r0aA-/\\.\0\x7f\xff") + line[at:] + "\n"
    if kind == 3:
        words[some] = rng.choice(["", "-", "00", "01", "+1", "-1", "4294967295", "4294967296", "1" * 30, "x", "/", "//", "0x1"])
    elif kind == 4:
        words.insert(some, rng.choice(["", "1", "/a"]))
    elif kind == 5:
        del words[some]
    elif kind == 6:
        words = ["write", "1", rng.choice(["0", "0g", "AB", "ab" * l, "ab" * l + "c", "ab" * (l + 1), "--"])]
    elif kind == 7:
        name = rng.choice(["a" * 255, "a" * 256, "\\x00", "\\x2f", "\\x61", "\\xFF", "\\xff" * 255, "\\x5c", "\\", "\\x7", "a//b", ""])
        words = [rng.choice(["cat", "ls", "home"]), "/" + name]
    elif kind == 8:
        words = ["cat", ("/" + "b" * 254) * 4 + rng.choice(["/a", "/ab", "/abc", ""])]
    elif kind == 9:
        longest = 2 * l + 4201
        return "write 1 " + "a" * (longest - 8 + rng.choice([-2, -1, 0, 1])) + rng.choice(["", "\n"])
    elif kind == 10:
        words[0] = rng.choice(["reed", "Read", "arrays", "", "settle", "tree", "array", "pending", "save", "regroups", "lostfiles", "lost", "drop", "safe", "safer"])
    else:
        limits = [[512, 513, 4096, 8192, 0], [0, 1, 64, 1 << 20, (1 << 20) + 1], [1, 2, 16, 17], [1, 4, 64, 1 << 20, (1 << 20) + 1], [0, 1, 2, 17]]
        words = [rng.choice(FIRST), *(str(rng.choice(values)) for values in limits)]
    return " ".join(words) + "\n"
