"""The image files of the members in a folder: what rows do to them, and see of them."""
import os
import shutil
import struct

PHASES = ["loose", "settled", "worn"]


class Folder:
    """The folder of a row. Each call takes its words, and gives a text where something isn't as it is wanted."""

    def __init__(self, path, image):
        self.path, self.image, self.kept = path, image, {}

    def do(self, words):
        name, *rest = words
        return getattr(self, "do_" + name)(*rest)

    def file(self, boundary, side):
        return os.path.join(self.path, f"member-{int(boundary):02}-{side}.img")

    def files(self):
        return [os.path.join(self.path, name) for name in sorted(os.listdir(self.path)) if name.endswith(".img")]

    # what is done

    def do_remove(self, *words):
        """All images, those of a boundary, or one."""
        paths = self.files() if words == ("all",) else [self.file(words[0], side) for side in words[1:] or "01"]
        for path in paths:
            os.remove(path)

    def do_folder(self, boundary, side):
        os.mkdir(self.file(boundary, side))

    def do_patch(self, boundary, side, at, digits):
        with open(self.file(boundary, side), "r+b") as file:
            file.seek(int(at))
            file.write(bytes.fromhex(digits))

    def do_resize(self, length, *words):
        """All images, or one, get another length."""
        for path in [self.file(*words)] if words else self.files():
            os.truncate(path, int(length))

    def do_copy(self, boundary, side, to_boundary, to_side):
        shutil.copyfile(self.file(boundary, side), self.file(to_boundary, to_side))

    def read_all(self):
        found = {}
        for path in self.files():
            with open(path, "rb") as file:
                found[os.path.basename(path)] = file.read()
        return found

    def do_keep(self, name):
        self.kept[name] = self.read_all()

    def do_back(self, name, boundary, side):
        """An image as it was kept."""
        path = self.file(boundary, side)
        with open(path, "wb") as file:
            file.write(self.kept[name][os.path.basename(path)])

    def do_make(self, form, name, b, k, m, phase, *words):
        """Members that hold a volume in its place: `home:3:2`, `copy:3:0`, and the recent inodes as `recent:3`."""
        image = self.image(name)
        saved = Saved(image, int(b), int(k), int(m), words)
        for member in range(2 * int(b)):
            with open(self.file(member // 2, member % 2), "wb") as file:
                file.write(saved.member(int(form), phase, member))

    # what is seen

    def do_same(self, name):
        """All images are as they were kept."""
        now = self.read_all()
        other = [file for file in sorted(now.keys() | self.kept[name]) if now.get(file) != self.kept[name].get(file)]
        return f"other than before: {' '.join(other)}" if other else None

    def do_aside(self, name):
        """The images that were kept are set aside, and no others."""
        found = {}
        for file in sorted(os.listdir(self.path)):
            if file.endswith(".old"):
                with open(os.path.join(self.path, file), "rb") as image:
                    found[file.removesuffix(".old")] = image.read()
        return None if found == self.kept[name] else f"set aside are {' '.join(found)}"

    def do_length(self, length):
        other = [os.path.basename(path) for path in self.files() if os.path.getsize(path) != int(length)]
        return f"another length: {' '.join(other)}" if other else None

    def do_count(self, count):
        return None if len(self.files()) == int(count) else f"{len(self.files())} images"

    def do_label(self, boundary, side, *words):
        """The label of a member: `format 2 number 1 sealed array 1024 128 4 64 2`, or `none` for zeros."""
        with open(self.file(boundary, side), "rb") as file:
            got = file.read(512)
        if words == ("none",):
            return "a label" if any(got) else None
        _, form, _, number, seal, _, *shape = words
        seal = {"sealed": b"S", "opened": b"O"}[seal]
        want = label_bytes(int(form), int(number), seal, int(boundary), int(side), [int(word) for word in shape], 0)
        same = got[:40] == want[:40] and not any(got[44:])
        return None if same else f"another label: {got[:44].hex()}"


def label_bytes(form, number, seal, boundary, side, shape, body):
    head = struct.pack("<8sQcBBB6I", b"DGRAID-%d" % form, number, seal, boundary, side, 0, *shape, body)
    return head.ljust(512, b"\0")


def room_for_body(form, shape):
    _, n, b, k, _ = shape
    return {1: 8 + 2 * b + 7 * n + 5 * b * (k + 1), 2: 77 + 2 * b + 12 * n + 5 * b * (k + 1)}[form]


def pairs(items):
    return struct.pack("<I", len(items)) + b"".join(struct.pack("<IB", inode, boundary) for inode, boundary in sorted(items.items()))


class Saved:
    """An array in which each block of a volume stands in its place, in the lowest slots, ascending by block."""

    def __init__(self, image, b, k, m, words):
        self.image, self.b, self.k, self.m = image, b, k, m
        self.homes, self.copies, self.recent = {}, {}, []
        for word in words:
            kind, *numbers = word.split(":")
            inode, *boundary = map(int, numbers)
            if kind == "recent":
                self.recent.append(inode)
            else:
                {"home": self.homes, "copy": self.copies}[kind][inode] = boundary[0]
        self.place()

    def place(self):
        """The sites of each block: its file's home and copy, or m boundaries from its number on."""
        files = {}
        for item in self.image.items:
            if item.kind == "file":
                files.update(dict.fromkeys(self.image.fragments[item.path], self.image.inodes[item.path]))
        self.sites, self.slots = [[] for _ in range(self.image.f["size"])], [{} for _ in range(self.b)]
        for block in self.image.written():
            boundaries = [(block + i) % self.b for i in range(self.m)]
            if block in files:
                inode = files[block]
                boundaries = [self.homes[inode]] + ([self.copies[inode]] if inode in self.copies else [])
            for boundary in boundaries:
                self.sites[block].append((boundary, len(self.slots[boundary])))
                self.slots[boundary][len(self.slots[boundary])] = block

    def body(self, form, phase):
        data = bytes([PHASES.index(phase), 0, 0, 0]) + bytes(2 * self.b)
        for sites in self.sites:
            data += bytes([len(sites), 0]) + b"".join(struct.pack("<BI", *site) for site in sites)
        data += pairs(self.homes)
        if form == 2:
            data += pairs(self.copies) + bytes([len(self.recent)]) + b"".join(struct.pack("<I", inode) for inode in self.recent)
        return data

    def member(self, form, phase, member):
        l, n = self.image.spec.l, self.image.f["size"]
        shape, body = [l, n, self.b, self.k, self.m], self.body(form, phase)
        data = label_bytes(form, 1, b"S", member // 2, member % 2, shape, len(body))
        for slot in range(self.k + 1):
            block = self.slots[member // 2].get(slot)
            data += bytes(l) if block is None else self.image.block(block)
        return data + body.ljust(room_for_body(form, shape), b"\0")
