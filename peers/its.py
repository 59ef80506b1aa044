"""Image-tree sources of many shapes, made from a seed, for a comparison with the real dtc.

`sources(seed, count)` gives pairs (name, text): sources that dtc and uimg both compile. `refused()`
gives pairs (name, text) of sources that at least one of them refuses; `OUR_OWN` names those that
dtc compiles and uimg refuses, and `DTC_OWN` those that uimg compiles and dtc refuses, each with the
reason. `blob(folder, text)` is the blob that dtc makes of a source, or None if it refuses;
`tree(folder, blob)` is what dtc reads in a blob. `files(folder)` writes the files that `/incbin/`
names.

Run by itself it shows that dtc treats each source as claimed here.
"""

import os
import random
import subprocess
import sys
import tempfile

FILES = {
    "empty.bin": b"",
    "abc.bin": b"abc",
    "every byte.bin": bytes(range(256)),
    "big.bin": bytes(range(251)) * 100,
}

NAMES = "a b data v reg kernel-1 hash-1 a,b.c_d+e*f?g #size-cells x123 0 77".split()
BLANKS = [" ", "\t", "\n", "\r\n", "\f", "\v", " /* a comment; \" */ ", " // to the end }\n", "/**/"]
TEXT = "abc XYZ,;:{}()[]<>/*#&'-0123456789"
ESCAPES = ["\\\\", '\\"', "\\n", "\\t", "\\r", "\\0", "\\x41", "\\xfF", "\\x00"]


class Source:
    """Writes one source, word by word, with blanks between them."""

    def __init__(self, seed):
        self.random = random.Random(seed)
        self.words = []
        self.labels = 0

    def put(self, *words):
        for word in words:
            self.words.append(word)
            self.words.append(self.random.choice([" ", " ", " ", self.random.choice(BLANKS)]))

    def some(self, most):
        return range(self.random.randint(0, most))

    def cell(self):
        value = self.random.choice([0, 1, 7, 8, 255, 0x80000, 2**31, 2**32 - 1])
        value = self.random.choice([value, self.random.getrandbits(32)])
        return self.random.choice([f"{value}", f"0x{value:x}", f"0X{value:X}", f"0{value:o}"])

    def string(self):
        parts = []
        for _ in self.some(6):
            part = self.random.choice([self.random.choice(TEXT), self.random.choice(ESCAPES)])
            if parts and parts[-1] == "\\0" and part[0] in "01234567":
                part = "z"
            parts.append(part)
        return '"' + "".join(parts) + '"'

    def value(self):
        kind = self.random.randrange(5)
        if kind == 0:
            self.put("<", *[self.cell() for _ in self.some(4)], ">")
        elif kind == 1:
            pairs = [f"{self.random.randrange(256):02x}" for _ in self.some(6)]
            self.put("[", *pairs, "]")
        elif kind == 2:
            self.put("/incbin/", "(", f'"{self.random.choice(sorted(FILES))}"', ")")
        else:
            self.put(self.string())

    def property(self, name):
        for _ in self.some(2):
            self.put(self.label())
        self.put(name)
        if self.random.random() < 0.8:
            self.put("=")
            self.value()
            for _ in self.some(3):
                self.put(",")
                self.value()
        self.put(";")

    def label(self):
        self.labels += 1
        return f"l{self.labels}:"

    def body(self, levels):
        self.put("{")
        for name in self.random.sample(NAMES, self.random.randint(0, 5)):
            self.property(name)
        if levels > 1:
            for number in self.some(3):
                if self.random.random() < 0.2:
                    self.put(self.label())
                self.put(self.random.choice([f"node-{number}", f"node@{number}"]))
                self.body(levels - 1)
                self.put(";")
        self.put("}")

    def text(self):
        self.put("/dts-v1/", ";")
        self.words.append("/ ")
        self.body(self.random.randint(1, 5))
        self.put(";")
        return "".join(self.words)


def deep(levels):
    """A source with a number of levels."""
    return "/dts-v1/; / {" + " a {" * (levels - 1) + " };" * levels + "\n"


def wide(nodes):
    """A source with a number of nodes at the second level."""
    return "/dts-v1/; / {" + "".join(f" n{i} {{ }};" for i in range(nodes)) + " };\n"


def sources(seed, count):
    """A number of sources that dtc compiles, and some of fixed shapes."""
    shapes = [("deep", deep(64)), ("wide", wide(300)), ("empty", "/dts-v1/;/{};")]
    return shapes + [(f"seed {seed + n}", Source(seed + n).text()) for n in range(count)]


def examples():
    """The sources in this repository, with the files that they name beside them."""
    folder = os.path.join(os.path.dirname(os.path.abspath(__file__)), "..", "examples")
    names = sorted(name for name in os.listdir(folder) if name.endswith(".its"))
    return [(name, open(os.path.join(folder, name)).read()) for name in names]


REFUSED = {
    "empty text": "",
    "no version": "/ { };",
    "open comment": "/dts-v1/; / { }; /* open",
    "open string": '/dts-v1/; / { v = "open; };',
    "property after child": "/dts-v1/; / { a { }; v; };",
    "no semicolon": "/dts-v1/; / { v = <1> };",
    "no closing brace": "/dts-v1/; / { v = <1>;",
    "odd bytes": "/dts-v1/; / { v = [0]; };",
    "octal eight": "/dts-v1/; / { v = <08>; };",
    "number too large": "/dts-v1/; / { v = <4294967296>; };",
    "two values": '/dts-v1/; / { v = "a" "b"; };',
    "missing file": '/dts-v1/; / { v = /incbin/("none"); };',
    "text behind": "/dts-v1/; / { }; v;",
    "unknown directive": "/dts-v1/; / { /what/ a; };",
    "equal properties": "/dts-v1/; / { v = <1>; v = <2>; };",
    "equal nodes": "/dts-v1/; / { n { }; n { }; };",
    "blank before a colon": "/dts-v1/; / { l : a { }; };",
    "at sign in a property": "/dts-v1/; / { a@0; };",
    "long property name": "/dts-v1/; / { " + "a" * 256 + "; };",
    "expression": "/dts-v1/; / { v = <(1 + 2)>; };",
    "character": "/dts-v1/; / { v = <'a'>; };",
    "reference": "/dts-v1/; / { v = <&l>; l: a { }; };",
    "path reference": "/dts-v1/; / { v = &l; l: a { }; };",
    "memory reservation": "/dts-v1/; /memreserve/ 0 1; / { };",
    "bits": "/dts-v1/; / { v = /bits/ 8 <1>; };",
    "second root": "/dts-v1/; / { a; }; / { b; };",
    "incbin range": '/dts-v1/; / { v = /incbin/("abc.bin", 1, 1); };',
    "other escape": '/dts-v1/; / { v = "\\a"; };',
    "octal escape": '/dts-v1/; / { v = "\\101"; };',
    "short hexadecimal escape": '/dts-v1/; / { v = "\\x4"; };',
    "delete node": "/dts-v1/; / { a { }; /delete-node/ a; };",
    "preprocessor line": '# 1 "a.dts"\n/dts-v1/; / { };',
    "number suffix": "/dts-v1/; / { v = <1UL>; };",
    "lone slash behind": "/dts-v1/; / { }; /",
    "65 levels": deep(65),
}

# Which of these dtc compiles, and why uimg refuses it.
OUR_OWN = {
    "expression": "expressions are out of the profile",
    "character": "character literals are out of the profile",
    "reference": "references are out of the profile",
    "path reference": "references are out of the profile",
    "memory reservation": "directives are out of the profile",
    "bits": "directives are out of the profile",
    "second root": "a second root is out of the profile",
    "incbin range": "the range of a file is out of the profile",
    "other escape": "escapes beside the listed ones are out of the profile",
    "octal escape": "octal escapes are out of the profile",
    "short hexadecimal escape": "a hexadecimal escape has two digits in the profile",
    "preprocessor line": "the C preprocessor is out of the profile",
    "number suffix": "a number has no suffix in the profile",
    "long property name": "names have at most 255 bytes in the profile",
    "65 levels": "at most 64 levels are in the profile",
}

# Which of these dtc refuses, and why uimg compiles it.
DTC_OWN = {
    "blank before a colon": "a label is a name word and a colon, as other words are",
    "at sign in a property": "names of properties and nodes have the same characters",
    "equal properties": "the first of equal properties counts where one is looked up",
    "equal nodes": "the first of equal nodes counts where one is looked up",
}


def refused():
    """Sources that dtc or uimg refuses, by their names."""
    return sorted(REFUSED.items())


def files(folder):
    """Writes the files that `/incbin/` names."""
    for name, content in FILES.items():
        with open(os.path.join(folder, name), "wb") as file:
            file.write(content)


def blob(folder, text):
    """The blob that dtc makes of a source, or None if it refuses the source."""
    command = ["dtc", "-q", "-I", "dts", "-O", "dtb", "-"]
    done = subprocess.run(command, input=text.encode(), capture_output=True, cwd=folder)
    return done.stdout if done.returncode == 0 else None


def tree(folder, content):
    """What dtc reads in a blob, as source, or None if it refuses the blob."""
    command = ["dtc", "-q", "-I", "dtb", "-O", "dts", "-"]
    done = subprocess.run(command, input=content, capture_output=True, cwd=folder)
    return done.stdout if done.returncode == 0 else None


def main():
    wrong = []
    with tempfile.TemporaryDirectory() as folder:
        files(folder)
        good = sources(1, 300)
        for name, text in good:
            made = blob(folder, text)
            if made is None or tree(folder, made) is None:
                wrong.append(f"{name}: dtc refuses it")
        for name, text in refused():
            if (blob(folder, text) is None) != (name not in OUR_OWN):
                wrong.append(f"{name}: dtc does not do what is said of it")
    print(f"{len(good)} sources that dtc compiles, {len(REFUSED)} that one of both refuses")
    print("\n".join(wrong) or "dtc does with each what is said of it")
    return 1 if wrong else 0


if __name__ == "__main__":
    sys.exit(main())
