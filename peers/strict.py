#!/usr/bin/env python3
"""strict.py UIMG [MADE MUTATED]: compares `uimg check --strict` with U-Boot's reading of FIT images.

It makes FIT images from a seed, most with something that U-Boot reads in another way than it looks:
names with a unit address, doubled nodes and properties, cells of other lengths, a payload given
twice or half, hash nodes that are ignored, a root without its properties. Then it mutates bytes of
their headers, structure blocks and strings blocks. `uboot_fit.c` lists what U-Boot finds in each by
U-Boot's rules, over libfdt. Where `uimg check --strict` prints ok, U-Boot must take the image, find
the payloads that `uimg info` lists, in the same order, at the same offsets and of the same sizes,
and compare the same hash nodes.

It prints rows of the table of docs/PEERS.md, and the first differences; the verdicts are counted on
standard error. It needs a C compiler and libfdt-dev."""
import base64
import collections
import hashlib
import json
import os
import random
import shutil
import struct
import subprocess
import sys
import tempfile
import zlib

from counting import row

SEED = 20231
MADE, MUTATED = 1000, 10000
ALGOS = {
    "crc32": lambda data: struct.pack(">I", zlib.crc32(data)),
    "sha1": lambda data: hashlib.sha1(data).digest(),
    "sha256": lambda data: hashlib.sha256(data).digest(),
}
# What may be odd about a made image, each in one of this many.
ODD_IN = 14


def cell(number):
    return struct.pack(">I", number)


def text(word):
    return word.encode(errors="surrogateescape") + b"\0"


class Blob:
    """The bytes of a tree: nodes are (name, properties, children), properties (name, value)."""

    def __init__(self, root):
        self.names, self.places, self.structure = b"", {}, b""
        self.put(root)
        self.structure += cell(9)

    def place(self, name):
        if name not in self.places:
            self.places[name] = len(self.names)
            self.names += text(name)
        return self.places[name]

    def put(self, node):
        name, properties, children = node
        self.structure += cell(1) + padded(text(name))
        for key, value in properties:
            self.structure += cell(3) + cell(len(value)) + cell(self.place(key)) + padded(value)
        for child in children:
            self.put(child)
        self.structure += cell(2)

    def bytes(self):
        at = 56 + len(self.structure)
        head = [0xD00DFEED, at + len(self.names), 56, at, 40, 17, 16, 0, len(self.names), len(self.structure)]
        return b"".join(map(cell, head)) + bytes(16) + self.structure + self.names


def padded(value):
    return value + bytes(-len(value) % 4)


class Maker:
    """FIT images from a source of chance."""

    def __init__(self, chance):
        self.chance = chance

    def odd(self):
        return self.chance.randrange(ODD_IN) == 0

    def name(self, word):
        return word + self.chance.choice(["@1", "@", "@0"]) if self.odd() else word

    def doubled(self, things):
        if things and self.odd():
            copy = self.chance.choice(things)
            things.insert(self.chance.randrange(len(things) + 1), copy)
        return things

    def hash(self, number, data):
        algo = self.chance.choice(list(ALGOS))
        properties = [("algo", text(algo)), ("value", ALGOS[algo](data))]
        if self.odd():
            properties.append(("uboot-ignore", cell(self.chance.randrange(2))))
        return self.name(f"hash-{number}"), self.doubled(properties), []

    def cell(self, number):
        if not self.odd():
            return cell(number)
        return self.chance.choice([cell(number) + cell(4), cell(number)[:3], b"", struct.pack(">Q", number)])

    def image(self, number, base):
        """An image, with the bytes after the tree if its payload is there."""
        data, behind = self.chance.randbytes(self.chance.randrange(1, 40)), b""
        properties = [("description", text("an image"))]
        if base is None:
            properties.append(("data", data))
            if self.odd():
                properties.append((self.chance.choice(["data-size", "data-offset", "data-position"]), self.cell(0)))
        else:
            behind = padded(data)
            key, at = base
            properties += [(key, self.cell(at)), ("data-size", self.cell(len(data)))]
            if self.odd():
                properties.append(("data", data))
            if self.odd():
                del properties[self.chance.randrange(1, len(properties))]
        self.chance.shuffle(properties)
        hashes = [self.hash(i, data) for i in range(self.chance.randrange(1, 3))]
        return (self.name(f"image{number}"), self.doubled(properties), self.doubled(hashes)), behind

    def root(self, kind, start):
        """The tree with payloads of a kind, and the bytes after it."""
        images, after = [], b""
        for number in range(self.chance.randrange(1, 4)):
            base = None if kind == "data" else (kind, start + len(after))
            image, behind = self.image(number, base)
            images.append(image)
            after += behind
        properties = [("description", text("made")), ("timestamp", cell(0))]
        if self.odd():
            del properties[self.chance.randrange(2)]
        parents = [(self.name("images"), [], self.doubled(images))]
        named = [("kernel", text(self.chance.choice(images)[0]))]
        default = [("default", text("conf"))] if self.chance.randrange(2) else []
        parents.append((self.name("configurations"), default, [("conf", named, [])]))
        self.chance.shuffle(parents)
        return ("", self.doubled(properties), self.doubled(parents)), after

    def fit(self):
        kind = self.chance.choice(["data", "data-offset", "data-position"])
        tree, after = self.root(kind, 0 if kind != "data-position" else 8192)
        blob = Blob(tree).bytes()
        if kind == "data-position":
            return blob.ljust(8192, b"\0") + after
        return padded(blob) + after

    def mutated(self, image):
        """The image with some bytes changed, in its header, structure or strings."""
        image = bytearray(image)
        size = min(len(image), struct.unpack(">I", image[4:8])[0]) or len(image)
        for _ in range(self.chance.choice([1, 1, 1, 2])):
            at = self.chance.randrange(40 if self.chance.randrange(3) == 0 else size)
            how = self.chance.randrange(4)
            if how == 0:
                image[at] ^= 1 << self.chance.randrange(8)
            elif how == 1:
                image[at] = self.chance.choice([0, 1, 2, 3, 4, 9, 64, 0x40])
            else:
                at &= ~3
                image[at : at + 4] = cell(self.chance.choice([0, 1, 2, 3, 4, 8, 9, self.chance.randrange(size)]))
        return bytes(image)


def uboot_lists(program, paths):
    """What U-Boot finds in each image: a reason, or its payloads."""
    done = subprocess.run([program], input="".join(f"{path}\n" for path in paths), capture_output=True, text=True, check=True)
    found, path = {}, None
    for line in done.stdout.splitlines():
        word, _, rest = line.partition(" ")
        if word == "image":
            path = rest
            found[path] = []
        elif word == "refused":
            found[path] = rest
        else:
            name, has, offset, size, same, *hashes = rest.split(" ")
            names = [bytes.fromhex(it).decode("latin-1") for it in (name, *hashes)]
            found[path].append((names[0], has == "1", int(offset), int(size), same == "1", names[1:]))
    return found


def verdicts(uimg, paths):
    """What `uimg check --strict` says of each image."""
    command = [uimg, "check", "--strict", "--json", "--files-from", "-"]
    done = subprocess.run(command, input="".join(f"{path}\n" for path in paths), capture_output=True, text=True, check=False)
    told = [json.loads(line) for line in done.stdout.splitlines()]
    return {it["path"]: it["verdict"] for it in told}


def name_of(it):
    """The name of a node, byte by byte."""
    name = base64.b64decode(it["name_base64"]) if "name_base64" in it else it["name"].encode()
    return name.decode("latin-1")


def uimg_list(uimg, path):
    """The payloads that `uimg info` lists."""
    done = subprocess.run([uimg, "info", path], capture_output=True, check=True)
    images = json.loads(done.stdout)["images"]
    return [(name_of(it), True, it["offset"], it["data-size"], True, [name_of(h) for h in it["hashes"]]) for it in images]


def make(folder, made, mutated):
    """Writes the images, and returns their paths."""
    maker, images, paths = Maker(random.Random(SEED)), [], ([], [])
    for number in range(made + mutated):
        is_made = number < made
        image = maker.fit() if is_made else maker.mutated(maker.chance.choice(images))
        if is_made:
            images.append(image)
        path = f"{folder}/{number}.itb"
        with open(path, "wb") as file:
            file.write(image)
        paths[0 if is_made else 1].append(path)
    return paths


def compare(uimg, program, paths):
    """The words of the checks, and the images that differ."""
    found, told = uboot_lists(program, paths), verdicts(uimg, paths)
    differ = []
    for path in paths:
        if told.get(path) == "ok":
            here = uimg_list(uimg, path)
            if here != found[path]:
                differ.append((path, here, found[path]))
    return collections.Counter(told.get(path, "lost") for path in paths), differ


def main():
    uimg = os.path.abspath(sys.argv[1])
    made, mutated = (int(it) for it in sys.argv[2:4]) if len(sys.argv) > 3 else (MADE, MUTATED)
    with tempfile.TemporaryDirectory() as folder:
        program = f"{folder}/uboot_fit"
        source = os.path.join(os.path.dirname(os.path.abspath(__file__)), "uboot_fit.c")
        compiler = shutil.which("cc")
        if compiler is None or subprocess.run([compiler, "-std=gnu11", "-O1", "-o", program, source, "-lfdt"], check=False, capture_output=True).returncode:
            print("strict: a C compiler or libfdt-dev is not installed; nothing was compared")
            return 0
        words, differences = collections.Counter(), []
        for kind, paths in zip(("made", "mutated"), make(folder, made, mutated)):
            found, differ = compare(uimg, program, paths)
            row(f"FIT images for `check --strict`, {kind}", len(paths), len(differ), f"{found['ok']} are ok")
            words += found
            differences += differ
        print(", ".join(f"{word} {count}" for word, count in sorted(words.items())), file=sys.stderr)
        for path, here, there in differences[:5]:
            print(f"\n{path}\n  uimg:   {here}\n  U-Boot: {there}")
    return 1 if differences else 0


if __name__ == "__main__":
    sys.exit(main())
