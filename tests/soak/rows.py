"""Tests of the model by rows whose replies were worked out by hand."""
from image import Image, Item, make_geometry
from model import Array

G1 = ("little", 1024, 4, 1, 128, 32)


def f_items():
    b = b"".join(bytes([1 + o]) * 1024 for o in range(52))
    return [
        Item(3, 2, b"a", "r", b"hello"), Item(4, 2, b"d", "d"), Item(5, 4, b"b", "r", b), Item(6, 2, b"z", "r"),
        Item(7, 2, b"h", "r", bytes(4096) + b"h" * 1500, holes=[0]),
    ]


def x_items():
    return [Item(3, 2, b"p", "r", b"p" * 16384), Item(4, 2, b"q", "r", b"q" * 16384)]


def image(items, order="little"):
    made = Image(make_geometry(order, *G1[1:]), 128)
    made.add_all(items)
    return [bytes(block) for block in made.blocks]


E, F, X, FB = image([]), image(f_items()), image(x_items()), image(f_items(), "big")


def hexed(data):
    return data.rstrip(b"\0").hex() or "-"


def writes(blocks, numbers=None):
    numbers = [b for b, data in enumerate(blocks) if any(data)] if numbers is None else numbers
    return [f"write {b} {hexed(blocks[b])}" for b in numbers]


def edited(blocks, block, at, data):
    whole = bytearray(blocks[block])
    whole[at:at + len(data)] = data
    return f"write {block} {hexed(whole)}"


def inode_edit(blocks, i, at, value, count=4):
    return edited(blocks, 28 + i // 8, i % 8 * 128 + at, value.to_bytes(count, "little"))


class Row:
    """A run of the model."""

    def __init__(self, *shape):
        self.array = Array(*(shape or (1024, 128, 4, 64, 2)))

    def quietly(self, lines):
        for line in lines:
            assert self.array.do(line) == ["ok"], line
        return self

    def gives(self, *pairs):
        for line, *want in pairs:
            got = self.array.do(line)
            assert got == want, (line, got, want)
        return self


def blank_others(blocks):
    return [f"write {b} {hexed(blocks[b])}" for b in range(128)]


def test():
    assert [b for b, data in enumerate(E) if any(data)] == [8, 9, 24, 28, 33]
    assert sum(map(any, F)) == 62
    Row(1024, 64, 4, 32, 2).gives(("write 3 6869", "ok"), ("read 3", "data 6869"), ("read 5", "data -"), ("write 5 -", "ok"))
    Row(1024, 64, 4, 32, 2).gives(
        ("write 3 aa", "ok"), ("fail 3 0", "ok"), ("write 3 bb", "ok"), ("read 3", "data bb"), ("fail 3 0", "already"),
        ("fail 3 1", "ok"), ("read 3", "unavailable"), ("read 2", "data -"), ("write 2 00", "degraded"), ("settle", "lost 3"),
        ("write 64 00", "range"), ("read 64", "range"), ("fail 4 0", "range"), ("fail 0 2", "range"), ("cat /a", "bad magic"),
    )
    for blocks in (F, FB):
        Row().quietly(writes(blocks)).gives(
            ("cat /a", "bytes 68656c6c6f", "end 5"), ("cat /d/x", "notfound"), ("cat /a/x", "notdir"), ("cat /d", "notregular"),
            ("tree", "not settled"), ("settle", "settled"),
            ("tree", "node 1 3 r 5 a", "node 1 4 d 512 d", "node 2 5 r 53248 b", "node 1 6 r 0 z", "node 1 7 r 5596 h", "end 5"),
            ("home /a", "home 3"), ("home /d/b", "home 2"), ("home /h", "home 3"), ("home /z", "home none"),
            ("cat /h", *["bytes " + "00" * 1024] * 4, "bytes " + "68" * 1024, "bytes " + "68" * 476, "end 5596"),
            ("fail 2 0", "ok"), ("fail 2 1", "ok"), ("cat /d/b", "unavailable"), ("cat /a", "bytes 68656c6c6f", "end 5"),
            ("ls /d", "entry 4 d 512 .", "entry 2 d 512 ..", "entry 5 r 53248 b", "end 3"), ("cat /z", "end 0"),
        )
    Row(1024, 128, 4, 64, 3).quietly(writes(F)).gives(
        ("settle", "settled"), ("home /a", "home 3"), ("home /d/b", "home 0"), ("home /h", "home 3"))
    Row().quietly(writes(F, [8, 9, 88, 84])).gives(("who 88", "pending")).quietly(writes(F, [28])).gives(
        ("who 88", "inode 5 level 0"), ("who 84", "inode 5 level 1"), ("who 8", "system super"), ("who 32", "system summary"),
        ("who 120", "idle"))
    Row().quietly([*writes(E), "write 34 68656c6c6f"]).gives(
        ("settle", "settled"), ("fail 3 0", "ok"), ("replace 3 0", "ok"), ("rebuild 3 99", "copied 1 0"), ("who 34", "pending"),
    ).quietly(writes(F, [28, 33])).gives(("cat /a", "bytes 68656c6c6f", "end 5"))
    shared = Row().quietly(writes(F)).gives(("settle", "settled"))
    sixth = bytearray(F[28])
    sixth[6 * 128 + 8], sixth[6 * 128 + 40] = 5, 34
    shared.quietly([f"write 28 {hexed(sixth)}"]).gives(("who 34", "shared 2"), ("settle", "malformed twice 34"))
    sixth[3 * 128 + 8], sixth[3 * 128 + 40] = 0, 0
    shared.quietly([f"write 28 {hexed(sixth)}"]).gives(
        ("who 34", "inode 6 level 0"), ("settle", "settled"), ("cat /z", "bytes 68656c6c6f", "end 5"), ("home /z", "home 3"))
    Row(1024, 128, 4, 32, 4).quietly(writes(E)).quietly([f"write {b} -" for b in range(33) if not any(E[b])]).gives(
        ("settle", "nospace system"))
    Row(1024, 128, 4, 32, 2).quietly(writes(F)).gives(("settle", "nospace inode 5"))
    Row(1024, 128, 4, 32, 2).quietly(blank_others(E)).gives(("settle", "nospace strays"), ("tend 1", "nospace strays"))
    Row().quietly(writes(F)).gives(
        ("tend 1", "tended 1 48"), ("tend 99", "tended 48 0"), ("tend 99", "tended 0 0"), ("settle", "settled"))
    Row(1024, 128, 2, 64, 1).quietly(blank_others(X)).gives(
        ("tend 1", "tended 1 31"), ("tend 99", "tended 31 0"), ("settle", "settled"))
    copied = ("settle", "settled"), ("cat /a", "bytes 68656c6c6f", "end 5"), ("diffuse", "diffused 1"), ("home /a", "home 3 copy 0")
    Row().quietly(writes(F)).gives(
        *copied, ("fail 3 0", "ok"), ("fail 3 1", "ok"), ("cat /a", "bytes 68656c6c6f", "end 5"), ("cat /h", "unavailable"))
    Row().quietly(writes(F)).gives(
        *copied, ("write 34 6a656c6c6f", "ok"), ("settle", "settled"), ("home /a", "home 3"),
        ("cat /a", "bytes 6a656c6c6f", "end 5"))
    Row().quietly(writes(F)).gives(
        ("settle", "settled"), ("fail 2 0", "ok"), ("replace 2 0", "ok"), ("rebuild 2 10", "copied 10 45"), ("fail 2 1", "ok"),
        ("cat /d/b", "unavailable"))
    Row().quietly(writes(F)).gives(
        ("settle", "settled"), ("fail 2 0", "ok"), ("replace 2 0", "ok"), ("rebuild 2 99", "copied 55 0"), ("fail 2 1", "ok"),
        ("rebuild 1 9", "not filling"), ("replace 1 0", "not out"))
    Row().quietly(writes(F)).gives(("settle", "settled")).quietly(writes(E, [24, 28, 33])).gives(
        ("who 34", "dead"), ("fail 3 0", "ok"), ("replace 3 0", "ok"), ("rebuild 3 99", "copied 0 0"), ("who 34", "idle"),
        ("read 34", "data -"), ("who 36", "dead"))
    test_regroup()
    test_malformed()
    print("all rows hold")


def test_regroup():
    lost = [("fail 2 0", "ok"), ("fail 2 1", "ok")]
    Row().quietly(writes(F)).gives(("settle", "settled"), *lost).gives(
        ("regroup", "regrouped 1 53"), ("lostfiles", "not settled"), ("settle", "settled"), ("lostfiles", "lost 5 /d/b", "end 1"),
        ("cat /d/b", "unavailable"), ("cat /a", "bytes 68656c6c6f", "end 5"), ("fail 0 0", "ok"), ("fail 0 1", "ok"),
        ("cat /z", "end 0"), ("regroup", "regrouped 1 0"), ("save", "not saved"), ("write 36 -", "ok"), ("read 36", "data -"),
        ("fail 2 0", "already"), ("replace 2 0", "lost 2"), ("rebuild 0 1", "lost 0"), ("fail 4 0", "range"),
        ("fail 1 0", "ok"), ("fail 1 1", "ok"), ("regroup", "too few"), ("drop 3 0", "not parity"), ("mend 3 0", "not parity"),
    )
    Row(1024, 64, 4, 32, 2).gives(("regroup", "whole"), ("fail 1 0", "ok"), ("regroup", "whole"))


def test_malformed():
    Row().quietly([*writes(F), inode_edit(F, 3, 44, 96)]).gives(("who 96", "inode 3 level 0"), ("settle", "malformed past 3"))
    Row().quietly([*writes(F), edited(F, 84, 0, b"\x54\0\0\0")]).gives(("settle", "malformed twice 84"))
    at = F[35].index(b"\x01b") - 7
    Row().quietly([*writes(F), edited(F, 35, at, b"\x02")]).gives(("settle", "malformed entrytype 4"))
    Row().quietly([*writes(F), edited(F, 35, at, b"\x02\0\0\0" + F[35][at + 4:at + 6] + b"\x04")]).gives(
        ("settle", "malformed rootnamed 4"), ("cat /d/b", "notregular"))
    Row().quietly([*writes(F), "write 8 -"]).gives(
        ("pending", "block 8", "end 1"), ("who 34", "idle"), ("cat /a", "bad bsize"), ("settle", "malformed bsize 0"),
    ).quietly(writes(F, [8])).gives(("who 34", "inode 3 level 0"), ("settle", "settled"))
    Row().quietly([*writes(F), inode_edit(F, 5, 40 + 52, 84)]).gives(
        ("who 84", "shared 2"), ("who 88", "shared 2"), ("settle", "malformed past 5"))
    Row().quietly([*writes(F), edited(F, 35, at, b"\x04\0\0\0" + F[35][at + 4:at + 6] + b"\x04")]).gives(
        ("cat /d/b/b/b", "notregular"), ("settle", "malformed dirtwice 4"))
    Row().quietly([*writes(F), *writes(E, [33])]).gives(("settle", "settled"))
    Row().quietly([*writes(F), *writes(FB, [9])]).gives(("cat /a", "bad bsize")).quietly(writes(FB, [8])).gives(("cat /a", "notdir"))


if __name__ == "__main__":
    test()
