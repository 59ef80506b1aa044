"""Mutations of signed FIT images, from a source of chance: of bytes, of tokens, of names, values and
strings, and of what a signature says that it signs."""

import random

from signing import sign_again, signature_nodes
from strict import Maker
from tokens import BEGIN, END, NOP, PROP, Blob, cells

NAMES = [b"", b"/", b"a/b", b"x", b"images", b"configurations", b"kernel", b"kernel@1", b"fdt-1", b"hash", b"hash-1", b"hash-2", b"Hash-1", b"cipher",
         b"signature", b"signature-1", b"conf-1", b"conf-2", b"kernel/hash-1", b"n" * 60, b"n" * 150, b"n" * 190, b"n" * 255]  # fmt: skip
KEYS = [b"kernel", b"fdt", b"ramdisk", b"loadables", b"firmware", b"script", b"x", b"description", b"compatible", b"default", b"load-only", b"data",
        b"data-size", b"data-offset", b"data-position", b"algo", b"value", b"padding", b"hashed-strings", b"hashed-nodes", b"key-name-hint",
        b"timestamp", b"uboot-ignore", b"phase"]  # fmt: skip
TEXTS = [b"kernel", b"kernel\0", b"fdt-1\0", b"fdt-1\0fdt-2\0", b"kernel\0" * 30, b"kernel\0" * 60, b"extra\0x", b"ramdisk\0\0", b"\0", b"", b"nothing\0",
         b"kernel@1\0", b"sha256\0", b"sha1\0", b"crc32\0", b"sha256,rsa2048\0", b"sha1,rsa2048\0", b"sha256,rsa2048", b"pss\0", b"pkcs-1.5\0", b"pss\0x",
         b"dev\0", b"other\0"]  # fmt: skip
ENDS = [*[b""] * 40, b"\0\0\0\4", b"\0\0\0\2", b"\0\0\0\x09", bytes(4)]
# Values that a new signature does not make right again.
KEPT = {b"data", b"value", b"algo", b"data-size", b"data-offset", b"data-position", b"padding", b"key-name-hint"}


class Mutator:
    """Mutates images. Each seed has its own chance."""

    def __init__(self, seed):
        self.chance = random.Random(seed)

    def among(self, blob, kind, kept=frozenset()):
        """The number of a token of a kind, or None."""
        found = [it for it, token in enumerate(blob.tokens) if token[0] == kind and not (kind == PROP and token[1] in kept)]
        return self.chance.choice(found) if found else None

    def a_node(self, blob):
        """The path of a node that is not the root."""
        return self.chance.choice(list(blob.nodes())[1:] or [(b"",)])

    def cut(self, blob, path):
        """A copy of a node's tokens."""
        first, last = blob.nodes()[path]
        return blob.tokens[first : last + 1]

    def at(self, blob):
        """Where in the blob new tokens may go."""
        return self.chance.randrange(1, max(2, len(blob.tokens)))

    def drop(self, blob):
        first, last = blob.nodes()[self.a_node(blob)]
        del blob.tokens[first : last + 1]

    def drop_property(self, blob):
        number = self.among(blob, PROP, self.kept)
        if number is not None:
            del blob.tokens[number]

    def copy(self, blob):
        """A copy of a node, mostly with another name."""
        new = self.cut(blob, self.a_node(blob))
        if self.chance.randrange(4):
            new[0] = (BEGIN, self.chance.choice(NAMES))
        at = self.at(blob)
        blob.tokens[at:at] = new

    def copy_beside(self, blob):
        """A copy of a node beside it."""
        path = self.a_node(blob)
        new, where = self.cut(blob, path), blob.nodes()[path]
        if self.chance.randrange(4):
            new[0] = (BEGIN, path[-1] + self.chance.choice([b"0", b"x", b"-9", b"@1", b"/y"]))
        at = self.chance.choice([where[0], where[1] + 1])
        blob.tokens[at:at] = new

    def move(self, blob):
        path = self.a_node(blob)
        first, last = blob.nodes()[path]
        tokens = blob.tokens[first : last + 1]
        del blob.tokens[first : last + 1]
        at = self.at(blob)
        blob.tokens[at:at] = tokens

    def wrap(self, blob):
        first, last = blob.nodes()[self.a_node(blob)]
        blob.tokens[last + 1 : last + 1] = [(END,)]
        blob.tokens[first:first] = [(BEGIN, self.chance.choice(NAMES))]

    def add(self, blob):
        """New nodes, with properties and not."""
        new = []
        for number in range(self.chance.choice([1, 1, 1, 1, 2, 9, 60])):
            inner = [(PROP, self.chance.choice(KEYS), self.chance.choice(TEXTS))] * self.chance.randrange(2)
            name = self.chance.choice(NAMES) if number == 0 else b"n%d" % number
            new += [(BEGIN, name), *inner, (END,)]
        at = self.at(blob)
        blob.tokens[at:at] = new

    def add_property(self, blob):
        first, _ = blob.nodes()[self.a_node(blob)]
        at = first + 1 if self.chance.randrange(4) else self.at(blob)
        blob.tokens.insert(at, (PROP, self.chance.choice(KEYS), self.chance.choice(TEXTS)))

    def add_nop(self, blob):
        for _ in range(self.chance.choice([1, 1, 3])):
            blob.tokens.insert(self.at(blob), (NOP,))

    def rename(self, blob):
        first, _ = blob.nodes()[self.a_node(blob)]
        old = blob.tokens[first][1]
        new = self.chance.choice([old + b"x", old[:-1], old.upper(), *NAMES])
        blob.tokens[first] = (BEGIN, new)
        if self.chance.randrange(2) and old:
            # The configurations name it anew.
            for number, token in enumerate(blob.tokens):
                if token[0] == PROP and old + b"\0" in token[2]:
                    blob.tokens[number] = (PROP, token[1], token[2].replace(old + b"\0", new + b"\0"))

    def rename_property(self, blob):
        number = self.among(blob, PROP, self.kept)
        if number is not None:
            blob.tokens[number] = (PROP, self.chance.choice(KEYS), blob.tokens[number][2])

    def swap(self, blob):
        """Two properties or nodes of one node in another order."""
        number = self.among(blob, PROP)
        if number is not None and blob.tokens[number + 1][0] == PROP:
            blob.tokens[number : number + 2] = reversed(blob.tokens[number : number + 2])

    def change(self, blob):
        number = self.among(blob, PROP, self.kept)
        if number is None:
            return
        _, name, value = blob.tokens[number]
        new = bytearray(value)
        how = self.chance.randrange(5)
        if how == 0 and new:
            new[self.chance.randrange(len(new))] ^= 1 << self.chance.randrange(8)
        elif how == 1:
            new = new[: self.chance.randrange(len(new) + 1)]
        elif how == 2:
            new += self.chance.choice(TEXTS)
        elif how == 3:
            new = bytearray(self.chance.choice(TEXTS))
        else:
            new = bytearray(cells(self.chance.choice([0, 1, 4, 2**31, 2**32 - 1])))
        blob.tokens[number] = (PROP, name, bytes(new))

    def name_images(self, blob):
        """A configuration names other images."""
        path = self.chance.choice([it for it in blob.nodes() if len(it) == 3 and it[1] == b"configurations"] or [(b"",)])
        images = [it[-1] for it in blob.nodes() if len(it) == 3 and it[1] == b"images"] or [b""]
        named = b"".join(self.chance.choice(images) + b"\0" for _ in range(self.chance.choice([0, 1, 1, 2, 3, 40])))
        blob.put(path, self.chance.choice(KEYS[:12]), named + self.chance.choice([b"", b"", b"", b"x"]))

    def say(self, blob):
        """A signature node says something else."""
        nodes = signature_nodes(blob)
        if not nodes:
            return
        name, values = self.chance.choice([
            (b"hashed-strings", [cells(0, it) for it in (0, 4, len(blob.strings) - 1, len(blob.strings), len(blob.strings) + 1, 2**16, 2**32 - 1)]),
            (b"hashed-strings", [b"", cells(0), cells(1, 60), cells(0, len(blob.strings), 0)]),
            (b"hashed-nodes", [b"", b"/\0", b"/\0/configurations/conf-1\0"]),
            (b"algo", [it for it in TEXTS if b"rsa" in it]), (b"padding", TEXTS), (b"value", [b"", bytes(256), b"\xff" * 256, bytes(255), bytes(257)]),
        ])  # fmt: skip
        blob.put(self.chance.choice(nodes), name, self.chance.choice(values))

    def change_strings(self, blob):
        strings = bytearray(blob.strings)
        at = self.chance.randrange(len(strings))
        strings[at] = self.chance.choice([0, strings[at] ^ 32, self.chance.randrange(256)])
        blob.strings = bytes(strings)

    def change_after(self, blob):
        """A byte of the payloads after the tree."""
        if blob.after:
            at = self.chance.randrange(len(blob.after))
            blob.after = blob.after[:at] + bytes([blob.after[at] ^ 1 << self.chance.randrange(8)]) + blob.after[at + 1 :]

    trees = (drop, drop_property, copy, copy_beside, move, wrap, add, add, add_property, add_property, add_nop, rename, rename, rename_property, swap,
             change, change, name_images, name_images)  # fmt: skip
    kept = frozenset()

    def mutated(self, image):
        """Mutates bytes or tokens. No signature is made anew."""
        if self.chance.randrange(3) == 0:
            return Maker(self.chance).mutated(image)
        blob = Blob(image)
        for _ in range(self.chance.choice([1, 1, 1, 2, 3])):
            self.chance.choice([*self.trees, *[Mutator.say] * 4, Mutator.change_strings, Mutator.change_after])(self, blob)
        return blob.bytes(self.chance.choice(ENDS))

    def signed_again(self, image, key):
        """Mutates tokens, and signs each configuration again by the key. A payload and its digests stay,
        and now and then a signature node says something else than what was signed."""
        blob, self.kept = Blob(image), KEPT
        for _ in range(self.chance.choice([1, 1, 2, 3])):
            self.chance.choice(self.trees)(self, blob)
        sign_again(blob, key)
        if self.chance.randrange(6) == 0:
            self.say(blob)
        return blob.bytes(self.chance.choice(ENDS))
