"""The tokens of a device tree blob, which can be changed and written again (Devicetree
Specification, chapter 5)."""

import struct

BEGIN, END, PROP, NOP, LAST = 1, 2, 3, 4, 9
HEADER, RESERVED = 40, 16


def cells(*numbers):
    return struct.pack(f">{len(numbers)}I", *numbers)


def padded(value):
    return value + bytes(-len(value) % 4)


class Blob:
    """A blob and what follows it in its file. A token is a tuple: (BEGIN, name), (END,), (PROP, name,
    value) or (NOP,). The names of properties are in the strings block, which only grows."""

    def __init__(self, file):
        self.size, structure, strings, _, *_, strings_size, _ = struct.unpack_from(">10I", file)[1:]
        self.strings = file[strings : strings + strings_size]
        self.after, self.start = file[(self.size + 3) // 4 * 4 :], (self.size + 3) // 4 * 4
        self.tokens, at = [], structure
        while True:
            (kind,) = struct.unpack_from(">I", file, at)
            if kind == BEGIN:
                end = file.index(b"\0", at + 4)
                self.tokens.append((BEGIN, file[at + 4 : end]))
                at = (end + 4) // 4 * 4
            elif kind == PROP:
                size, name = struct.unpack_from(">2I", file, at + 4)
                self.tokens.append((PROP, self.string(name), file[at + 12 : at + 12 + size]))
                at += 12 + (size + 3) // 4 * 4
            elif kind in (END, NOP):
                self.tokens.append((kind,))
                at += 4
            else:
                break

    def string(self, at):
        return self.strings[at : self.strings.index(b"\0", at)]

    def place(self, name):
        """The offset of a name in the strings block."""
        at = 0 if self.strings.startswith(name + b"\0") else self.strings.find(b"\0" + name + b"\0") + 1
        if at == 0 and not self.strings.startswith(name + b"\0"):
            at = len(self.strings)
            self.strings += name + b"\0"
        return at

    def raw(self, token):
        """The bytes of a token."""
        kind, *rest = token
        if kind == BEGIN:
            return cells(BEGIN) + padded(rest[0] + b"\0")
        if kind == PROP:
            name, value = rest
            return cells(PROP, len(value), self.place(name)) + padded(value)
        return cells(kind)

    def bytes(self, behind=b"", is_moved=False):
        """The bytes of the file, with other bytes behind the structure block's last token. Payloads by
        a position stay where they are, if the blob is no longer than before or if it is_moved."""
        structure = b"".join(map(self.raw, self.tokens)) + cells(LAST) + behind
        at = HEADER + RESERVED + len(structure)
        size = at + len(self.strings)
        head = cells(0xD00DFEED, size, HEADER + RESERVED, at, HEADER, 17, 16, 0, len(self.strings), len(structure))
        blob = padded(head + bytes(RESERVED) + structure + self.strings)
        return (blob if is_moved else blob.ljust(self.start, b"\0")) + self.after

    def placed(self):
        """Each token with its number and the path of the node that it is in: names from the root on."""
        path = ()
        for number, token in enumerate(self.tokens):
            if token[0] == BEGIN:
                path += (token[1],)
            yield number, path, token
            if token[0] == END:
                path = path[:-1]

    def nodes(self):
        """The numbers of the first and the last token of each node, by its path; of doubled nodes the
        first."""
        found = {}
        for number, path, token in self.placed():
            if token[0] == BEGIN and path not in found:
                found[path] = (number, None)
            elif token[0] == END and path in found and found[path][1] is None:
                found[path] = (found[path][0], number)
        return found

    def children(self, *path):
        """The paths of a node's children."""
        return [it for it in self.nodes() if it[:-1] == (b"", *path)]

    def find(self, path, name):
        """The number of a property's token, or None."""
        for number, there, token in self.placed():
            if there == path and token[0] == PROP and token[1] == name:
                return number
        return None

    def value(self, path, name):
        number = self.find(path, name)
        return None if number is None else self.tokens[number][2]

    def put(self, path, name, value):
        """Sets a property, which is added if the node has none."""
        number = self.find(path, name)
        if number is None:
            self.tokens.insert(self.nodes()[path][0] + 1, (PROP, name, value))
        else:
            self.tokens[number] = (PROP, name, value)
