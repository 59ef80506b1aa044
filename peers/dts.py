"""Sources in the whole language of dtc, made from a seed, for a comparison with the real dtc.

`sources(seed, count)` gives triples (name, text, included): a source, and the texts of the files
that it includes by their names. One of ten has a word too many or too few, and any may have names,
labels or references that dtc refuses. `files(folder)` writes the files that `/incbin/` names.

Run by itself, as `dts.py PEERS [SEED [COUNT]]`, it compares the program `uimg_peers` with dtc: both
refuse a source, or dtc reads the same tree in both blobs, whose reservation blocks are equal.
"""

import os
import random
import shutil
import struct
import subprocess
import sys
import tempfile

import its

LABELS = "a b la lb lc ld le _x y1".split()
NODES = ["n", "m", "n@0", "m@1,2", "o-p", "data", "q.r_s", "n@1", "u@0@1", "cpus", "kernel#1", "1?", "1x"]
PROPERTIES = ["a", "b", "data", "reg", "phandle", "linux,phandle", "name", "#cells", "x-y", "a@0", "z?*+", "0"]
CHARACTERS = ["'a'", "'\\n'", "'\\''", "'\\x41'", "'\\101'", "'\\\\'", "' '", "'\"'", "'\\0'", "'ab'", "''"]
PIECES = ["abc", "X Y", "\\n", "\\t", "\\\\", '\\"', "\\x41", "\\x4", "\\0", "\\101", "\\12", "\\7", "\\a\\b\\v\\f\\r", "\\q", "/* */", "//", "'", "\\xfg", "\\777", "\n"]
BINARY = ["+", "-", "*", "/", "%", "<<", ">>", "<", ">", "<=", ">=", "==", "!=", "&", "|", "^", "&&", "||"]
RARE = ["name", "a@0", "u@0@1", "kernel#1", "1?", "phandle", "linux,phandle"]
GAPS = [" ", " ", " ", " ", "\n", "\t", " /* c; { */ ", " // c }\n", '\n# 7 "f.c"\n', '\n#line 3 "g \\"h" 1 2\n', "\r\n"]
TIGHT = set("{};=<>(),[]")


class Whole:
    """Writes one source, word by word."""

    def __init__(self, seed):
        self.random = random.Random(seed)
        self.words, self.included, self.labels, self.paths, self.count = [], {}, [], [], 0

    def put(self, *words):
        self.words += words

    def some(self, most):
        return range(self.random.randint(0, most))

    def chance(self, part):
        return self.random.random() < part

    def pick(self, of):
        return self.random.choice(of)

    def put_labels(self, part, of_node=False):
        while self.chance(part):
            self.count += 1
            label = self.pick(LABELS) if self.chance(0.03) else f"l{self.count}"
            if of_node:
                self.labels.append(label)
            self.put(label + ":")

    def reference(self):
        if self.chance(0.02):
            return self.pick(["&" + self.pick(LABELS), "&{/n/m}", "&{/n//m@0}"])
        if self.labels and self.chance(0.7):
            return "&" + self.pick(self.labels)
        path = self.pick(["", *self.paths])
        return "&{/" + path[1:] + (self.pick(["", "", "", "/"]) if path else "") + "}"

    def literal(self):
        value = self.pick([0, 1, 2, 7, 8, 63, 64, 255, 256, 65535, 65536, 2**31, 2**32 - 1, self.random.getrandbits(32)])
        if self.chance(0.004):
            value = self.pick([2**32, 2**63, 2**64 - 1, 2**64, self.random.getrandbits(64)])
        text = self.pick([f"{value}", f"0x{value:x}", f"0X{value:X}", f"0{value:o}"])
        return text + (self.pick(["U", "L", "UL", "LL", "ULL"]) if self.chance(0.1) else "")

    def expression(self, depth):
        kind = self.random.randrange(8) if depth else 0
        if kind < 2:
            self.put(self.pick(CHARACTERS[:9]) if self.chance(0.1) else self.literal())
        elif kind == 2:
            self.put(self.pick("-~!"))
            self.expression(depth - 1)
        elif kind == 3:
            self.put("(")
            self.expression(depth - 1)
            self.put(")")
        elif kind == 4:
            self.expression(depth - 1)
            self.put("?")
            self.expression(depth - 1)
            self.put(":")
            self.expression(depth - 1)
        else:
            self.expression(depth - 1)
            self.put(self.pick(BINARY))
            self.expression(depth - 1)

    def number(self):
        if self.chance(0.3):
            self.put("(")
            if self.chance(0.03):
                self.expression(self.random.randint(1, 5))
            else:
                self.put("(")
                self.expression(self.pick([1, 2, 2, 3]))
                self.put(")", "&", "0xff")
            self.put(")")
        elif self.chance(0.1):
            self.put(self.pick(CHARACTERS[:9] if self.chance(0.99) else CHARACTERS))
        else:
            self.put(self.literal())

    def array(self):
        bits = 32
        if self.chance(0.3):
            bits = self.pick([8, 16, 32, 64])
            self.put("/bits/", self.pick([str(bits), hex(bits)]))
        self.put("<")
        for _ in self.some(4):
            self.put_labels(0.03)
            if bits == 32 and self.chance(0.3):
                self.put(self.reference())
            elif bits == 64 or self.chance(0.7):
                self.put(str(self.random.randrange(256)) if self.chance(0.5) else self.literal() if bits > 16 else "7")
            else:
                self.number()
        self.put(">")

    def string(self):
        return '"' + "".join(self.pick(PIECES) for _ in self.some(4)) + '"'

    def value(self):
        kind = self.random.randrange(6)
        if kind == 0:
            self.put("[")
            for _ in self.some(4):
                self.put_labels(0.03)
                self.put("".join(f"{self.random.randrange(256):02x}" for _ in range(self.random.randint(1, 2))))
            self.put("]")
        elif kind == 1:
            self.put(self.string())
        elif kind == 2:
            self.put(self.reference())
        elif kind == 3:
            self.put("/incbin/", "(", f'"{self.pick(sorted(its.FILES))}"')
            if self.chance(0.5):
                self.put(",", self.pick(["0", "1", "2", "300", "(1+1)"]), ",", self.pick(["0", "1", "2", "300", "'\\n'"]))
            self.put(")")
        else:
            self.array()

    def property(self, name):
        self.put_labels(0.1)
        if self.chance(0.04):
            self.put("/delete-property/", name, ";")
            return
        self.put(("\\" if self.chance(0.02) else "") + name)
        if name in ("phandle", "linux,phandle") and self.chance(0.9):
            self.put("=", "<", self.pick([str(self.random.randint(1, 50)), "0"] if self.chance(0.1) else [str(self.random.randint(1, 50))]), ">")
        elif name == "name":
            self.put("=", '"' + self.pick(NODES).split("@")[0] + '"')
        elif name == "data" and self.chance(0.5):
            self.put("=", "/incbin/", "(", f'"{self.pick(sorted(its.FILES))}"', ")")
        elif self.chance(0.85):
            self.put("=")
            while True:
                self.put_labels(0.03)
                self.value()
                self.put_labels(0.03)
                if self.chance(0.7):
                    break
                self.put(",")
        self.put(";")

    def names(self, of, most):
        weights = [0.02 if name in RARE else 1 for name in of]
        picked = self.random.choices(of, weights, k=self.random.randint(0, most))
        return picked if self.chance(0.03) else list(dict.fromkeys(picked))

    def body(self, levels, path=None):
        self.put("{")
        for name in self.names(PROPERTIES, 3):
            self.property(name)
        if levels:
            for name in self.names(NODES, 3):
                self.put_labels(0.3, True)
                if self.chance(0.05):
                    self.put("/omit-if-no-ref/")
                    self.put_labels(0.2, True)
                if self.chance(0.04):
                    self.put("/delete-node/", name, ";")
                else:
                    self.put(name)
                    inner = None if path is None else f"{path}/{name}"
                    if inner:
                        self.paths.append(inner)
                    self.body(levels - 1, inner)
        self.put("}", ";")

    def statement(self):
        kind = self.random.randrange(8)
        if kind < 2:
            self.put("/")
            self.body(3, "")
        elif kind == 2:
            self.put(self.pick(["/delete-node/", "/omit-if-no-ref/"]), self.reference(), ";")
        else:
            reference = self.reference()
            if self.chance(0.1):
                self.put(f"o{self.count}:")
            self.put(reference)
            self.body(2)

    def wrong(self):
        at = self.random.randrange(len(self.words))
        kind = self.random.randrange(3)
        if kind == 0:
            del self.words[at]
        elif kind == 1:
            self.words.insert(at, self.pick(self.words))
        else:
            self.words[at] = self.pick(self.words)

    def spelled(self, words):
        text = ""
        for word in words:
            tight = text and (text[-1] in TIGHT or word[0] in TIGHT) and not (text[-1] in "<>=" and word[0] in "<>=")
            if text and not (tight and self.chance(0.3)):
                text += self.pick(GAPS)
            text += word
        return text + self.pick(["", "\n", " "])

    def moved(self, words, folder, levels):
        """Moves some words to files that are included."""
        if levels and len(words) > 3 and self.chance(0.3):
            first = self.random.randrange(len(words) - 1)
            last = self.random.randint(first, min(len(words), first + 40))
            path = self.pick(["", "", "sub/"]) + f"i{len(self.included)}.dtsi"
            inner = folder + path[: path.rfind("/") + 1]
            self.included[folder + path] = ""
            self.included[folder + path] = self.spelled(self.moved(words[first:last], inner, levels - 1))
            words = words[:first] + [f'/include/{self.pick(["", " "])}"{path}"'] + words[last:]
        return words

    def source(self):
        self.put("/dts-v1/", ";")
        if self.chance(0.05):
            self.put("/dts-v1/", ";")
        for _ in self.some(1):
            if self.chance(0.2):
                self.put_labels(0.2)
                self.put("/memreserve/")
                for _ in "as":
                    if self.chance(0.5):
                        self.number()
                    else:
                        self.put(hex(self.random.getrandbits(self.pick([4, 32, 64]))))
                self.put(";")
        self.put("/")
        self.body(self.random.randint(0, 3), "")
        for _ in self.some(4):
            self.statement()
        if self.chance(0.1):
            self.wrong()
        text = self.spelled(self.moved(self.words, "", 3))
        return text, self.included


def sources(seed, count):
    """A number of sources, each with the files that it includes."""
    return [(f"seed {seed + n}", *Whole(seed + n).source()) for n in range(count)]


def files(folder):
    """Writes the files that `/incbin/` names, in the folder and below it."""
    for inner in ("", "sub", "sub/sub"):
        os.makedirs(os.path.join(folder, inner), exist_ok=True)
        its.files(os.path.join(folder, inner))


def blob(folder, path):
    """The blob that dtc makes of a source, or None if it refuses the source."""
    command = ["dtc", "-qqq", "-I", "dts", "-O", "dtb", "-p", "500", path]
    done = subprocess.run(command, capture_output=True, cwd=folder)
    return done.stdout if done.returncode == 0 else None


def tree(folder, content):
    """What dtc reads in a blob, as source, or None if it refuses it."""
    command = ["dtc", "-qqq", "-I", "dtb", "-O", "dts", "-"]
    done = subprocess.run(command, input=content, capture_output=True, cwd=folder)
    return done.stdout if done.returncode == 0 else None


def reserved(content):
    """The reservation block of a blob: dtc writes it before the structure block."""
    first, _, block = struct.unpack(">3I", content[8:20])
    return content[block:first]


def difference(folder, peers, path):
    """How the program differs from dtc on a source, or None; and whether both compile it."""
    theirs = blob(folder, path)
    if theirs is not None and tree(folder, theirs) is None:
        theirs = None  # a tree without a root
    done = subprocess.run([peers, "compile-all", os.path.join(folder, path)], capture_output=True, cwd=folder)
    if (theirs is None) != (done.returncode != 0):
        return f"dtc {'refuses' if theirs is None else 'compiles'} it, uimg not: {done.stdout[:80]!r}", False
    if theirs is None:
        return None, False
    if tree(folder, theirs) != tree(folder, done.stdout):
        return "the trees differ", True
    if reserved(theirs) != reserved(done.stdout):
        return "the reservation blocks differ", True
    return None, True


def write(folder, text, included):
    """Writes a source and the files that it includes."""
    for name, content in {"source.dts": text, **included}.items():
        path = os.path.join(folder, name)
        os.makedirs(os.path.dirname(path), exist_ok=True)
        with open(path, "w", newline="") as file:
            file.write(content)


def main():
    peers = os.path.abspath(sys.argv[1])
    given = [int(word) for word in sys.argv[2:4]]
    seed, count = given + [1, 5000][len(given) :]
    compiled, differences = 0, 0
    with tempfile.TemporaryDirectory() as folder:
        files(folder)
        for name, text, included in sources(seed, count):
            write(folder, text, included)
            found, both = difference(folder, peers, "source.dts")
            compiled += both
            if found:
                differences += 1
                print(f"{name}: {found}")
                if os.environ.get("KEEP"):
                    kept = os.path.join(os.environ["KEEP"], name.replace(" ", "-"))
                    shutil.copytree(folder, kept, dirs_exist_ok=True)
    print(f"{count} sources, {compiled} compiled by both, {differences} differ")
    return 1 if differences else 0


if __name__ == "__main__":
    sys.exit(main())
