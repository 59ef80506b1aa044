"""Compares files that hold device tree blobs: FITs, alone or within a larger image.

uimg and mkimage place the properties that they add at other places of a node, so the blobs differ
though the trees are the same. A file is the same in this sense if its bytes outside of blobs are the
same, and its blobs read as the same trees, where a property's value may hold blobs again. The sizes of
such blobs may differ, and so may what binman notes of an image: its .map, and the device tree with its
sizes and offsets."""

import struct

MAGIC = b"\xd0\x0d\xfe\xed"
# What binman notes of each part of an image in the device tree.
NOTED = {b"size", b"offset", b"image-pos"}


def compared(first, second):
    """Compares two files. Returns same, tree (the same but for the order in trees), notes (for what
    binman notes of sizes) or other."""
    both = []
    for path in (first, second):
        with open(path, "rb") as file:
            both.append(file.read())
    if both[0] == both[1]:
        return "same"
    if first.endswith(".map"):
        names = [[line.split()[-1:] for line in it.splitlines()] for it in both]
        return "notes" if names[0] == names[1] and b"ImagePos" in both[0] else "other"
    if MAGIC not in both[0]:
        return "other"
    if parts(both[0]) == parts(both[1]):
        return "tree"
    is_noted = first.endswith(".dtb.out") and parts(both[0], NOTED) == parts(both[1], NOTED)
    return "notes" if is_noted else "other"


def parts(data, without=frozenset()):
    """The parts of bytes: bytes outside of blobs, and trees, without the properties of some names."""
    found, last, at = [], 0, data.find(MAGIC)
    while at >= 0:
        size = int.from_bytes(data[at + 4 : at + 8], "big")
        read = tree(data[at : at + size], without) if 40 <= size <= len(data) - at else None
        if read is None:
            at = data.find(MAGIC, at + 1)
            continue
        found += [data[last:at], read]
        last = at + size
        at = data.find(MAGIC, last)
    return [*found, data[last:]]


def tree(blob, without):
    """The tree of a blob: its reserved memory and its root, or None for what is no blob."""
    try:
        _, _, structure, strings, reserved, *_ = struct.unpack_from(">10I", blob)
        root, at = node(blob, structure + 4, strings, without)
        if struct.unpack_from(">I", blob, structure)[0] != 1 or struct.unpack_from(">I", blob, at)[0] != 9:
            return None
        memory = blob[reserved:structure] if reserved < structure else blob[reserved : reserved + 16]
        return memory.rstrip(b"\0"), root
    except (struct.error, ValueError, IndexError):
        return None


def node(blob, at, strings, without):
    """The node whose name is at an offset. Returns it, with sorted properties and nodes, and its end."""
    end = blob.index(b"\0", at)
    name, at = blob[at:end], (end + 4) // 4 * 4
    properties, children = [], []
    while True:
        (token,) = struct.unpack_from(">I", blob, at)
        at += 4
        if token == 1:
            child, at = node(blob, at, strings, without)
            children.append(child)
        elif token == 2:
            return (name, sorted(properties, key=lambda it: it[0]), sorted(children, key=lambda it: it[0])), at
        elif token == 3:
            size, named = struct.unpack_from(">2I", blob, at)
            value = blob[at + 8 : at + 8 + size]
            title = blob[strings + named : blob.index(b"\0", strings + named)]
            if title not in without:
                properties.append((title, parts(value) if MAGIC in value else value))
            at += 8 + (size + 3) // 4 * 4
        elif token != 4:
            raise ValueError(token)
