"""Files that are made to cost much for their length, each beside an ordinary one of the same length."""

import struct
import zlib

import fits

PAYLOAD = 64 * 1024 * 1024


def write(path, parts):
    with open(path, "wb") as file:
        for part in parts:
            file.write(part)


def outside(data, hashes):
    """A FIT with one image, whose payload is after the blob, and these hash nodes."""
    payload = fits.prop("data-offset", bytes(4)) + fits.prop("data-size", struct.pack(">I", len(data)))
    return [fits.fit([fits.image("kernel", payload, hashes)]), data]


def of_size(parts):
    return sum(len(part) for part in parts)


def many_hashes(count):
    """A number of hash nodes over one payload, and one hash node over as many bytes."""
    data = bytes(PAYLOAD)
    crc = ("crc32", struct.pack(">I", zlib.crc32(data)))
    hostile = outside(data, [crc] * count)
    data += bytes(of_size(hostile) - of_size(outside(data, [crc])))
    return hostile, outside(data, [("crc32", struct.pack(">I", zlib.crc32(data)))])


def overlapping(count):
    """A number of images with one payload, and one image with as many bytes."""
    data = bytes(PAYLOAD)
    hashes = [("crc32", struct.pack(">I", zlib.crc32(data)))]
    payload = fits.prop("data-offset", bytes(4)) + fits.prop("data-size", struct.pack(">I", len(data)))
    hostile = [fits.fit([fits.image("kernel", payload, hashes)] * count), data]
    data += bytes(of_size(hostile) - of_size(outside(data, hashes)))
    return hostile, outside(data, [("crc32", struct.pack(">I", zlib.crc32(data)))])


def legacy(kind, data):
    """A legacy image of a type, for arm64 Linux."""
    fields = [0x27051956, 0, 1700000000, len(data), 0, 0, zlib.crc32(data)]
    rest = bytes([5, 22, kind, 0]) + b"shape".ljust(32, b"\0")
    fields[1] = zlib.crc32(struct.pack(">7I", *fields) + rest)
    return [struct.pack(">7I", *fields) + rest, data]


def many_parts(count):
    """A multi image of a number of parts of four bytes, and a kernel of the same length."""
    data = struct.pack(">I", 4) * count + bytes(4) + bytes(4 * count)
    return legacy(4, data), legacy(2, data)


def source(more, rest=""):
    """A source in the whole language of dtc: a FIT image, more nodes in its root, and more after it."""
    image = 'description = "k"; data = [61]; type = "kernel"; arch = "arm"; os = "linux"; compression = "none";'
    return (
        f'/dts-v1/; / {{ description = "shape"; #address-cells = <(1)>; images {{ k {{ {image} load = <0>;'
        f' entry = <0>; }}; }}; configurations {{ default = "c"; c {{ description = "c"; kernel = "k"; }}; }}; {more} }};{rest}'
    ).encode()


def beside(costly):
    """A source, and one of the same length, most of which is a comment."""
    ordinary = source("")
    return [costly], [ordinary, b"/*", b" " * (len(costly) - len(ordinary) - 4), b"*/"]


def operators(count):
    """A chain of so many operators."""
    return beside(source("s { a = <(" + "1+" * count + "1)>; };"))


def labels(count):
    """So many nodes with labels that refer to one another, and are given again."""
    nodes = "".join(f"l{number}: n{number} {{ a = <&l{count - 1 - number}>; }}; " for number in range(count))
    return beside(source(f"s {{ {nodes}}};", "".join(f" &l{number} {{ b; }};" for number in range(count))))


def images(count):
    """So many images, each with a payload in the source and a hash node."""
    rest = 'type = "kernel"; compression = "none"; hash { algo = "sha256"; };'
    nodes = "".join(f'i{number} {{ description = "k"; data = "p{number}"; {rest} }};' for number in range(count))
    head, tail = b'/dts-v1/; / { images { ', b' }; };'
    costly = head + nodes.encode() + tail
    ordinary = head + b'k { data = "p"; };' + tail
    return [costly], [ordinary, b"/*", b" " * (len(costly) - len(ordinary) - 4), b"*/"]


def shapes():
    """Yields for each shape the command, its name, and in parts its file and an ordinary one of the
    same length."""
    yield "verify", "800 hash nodes over one payload", *many_hashes(800)
    yield "check", "100 images with one payload", *overlapping(100)
    yield "list", "1,000,000 parts of a multi image", *many_parts(1000000)
    yield "make", "500,000 operators in a row", *operators(500000)
    yield "make", "20,000 nodes with labels and references", *labels(20000)
    yield "make -E", "80,000 images", *images(80000)
