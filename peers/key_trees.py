"""Control devicetrees with other keys, policies and faults than mkimage writes.

The nodes of the keys are mkimage's. Each tree has some of the keys dev and other of 2048 bits, each
required for configurations, for images, or not; a policy; and in some a property of a key is another
one or missing."""

import itertools

from tokens import BEGIN, END, PROP, Blob, cells

SIGNATURE = (b"", b"signature")
REQUIRED = (None, b"conf\0", b"image\0", b"", b"conf", b"image", b"Conf\0", b"conf\0x")
MODES = (None, b"any\0", b"all\0", b"ANY\0", b"any\0x", b"")
PROPERTIES = {
    b"algo": (None, b"sha1,rsa2048\0", b"sha256,rsa2048", b"sha256,rsa2048\0x", b"SHA256,RSA2048\0", b"sha512,rsa2048\0", b"sha256,rsa4096\0", b""),
    b"rsa,num-bits": (None, cells(2047), cells(2040), cells(4096), cells(0), cells(2048, 0), b"\0\0\x08"),
    b"rsa,exponent": (None, cells(0, 65537), cells(65537), cells(0, 3), cells(3), cells(0, 65536), cells(0, 1), cells(0), cells(0, 0, 65537)),
    b"rsa,n0-inverse": (None, cells(0), cells(1, 2)),
    b"rsa,r-squared": (None, b"", bytes(256), bytes(255)),
    b"rsa,modulus": (None, b"", bytes(256), b"\xff" * 256),
    b"key-name-hint": (None, b"nobody\0"),
}


def key_node(blob, name, required):
    """The tokens of a key of mkimage's tree, required for something."""
    first, last = blob.nodes()[(*SIGNATURE, b"key-" + name)]
    own = [it for it in blob.tokens[first + 1 : last] if it[1] != b"required"]
    named = [] if required is None else [(PROP, b"required", required)]
    return [(BEGIN, b"key-" + name), *named, *own, (END,)]


def tree(base, mode, keys):
    """The bytes of a tree with these keys."""
    said = [] if mode is None else [(PROP, b"required-mode", mode)]
    nodes = [token for it in keys for token in it]
    made = Blob(base)
    made.tokens = [(BEGIN, b""), (BEGIN, b"signature"), *said, *nodes, (END,), (END,)]
    return made.bytes(is_moved=True)


def changed(tokens, name, value):
    """A key whose property is another one, or missing."""
    return [it if it[0] != PROP or it[1] != name else (PROP, name, value) for it in tokens if value is not None or it[0] != PROP or it[1] != name]


def shortened(tokens, size):
    """A key whose modulus has another number of octets."""
    return [(PROP, it[1], it[2][:size].ljust(size, b"\1")) if it[0] == PROP and it[1] == b"rsa,modulus" else it for it in tokens]


def trees(base):
    """Yields what each tree is, and its bytes. The base has the keys dev and other."""
    blob = Blob(base)
    for first, second, mode in itertools.product(REQUIRED[:4], REQUIRED[:3], MODES):
        keys = [key_node(blob, b"dev", first), key_node(blob, b"other", second)]
        yield f"dev {first}, other {second}, mode {mode}", tree(base, mode, keys)
    for first, second in itertools.product(REQUIRED, REQUIRED):
        keys = [key_node(blob, b"dev", first), key_node(blob, b"other", second)]
        yield f"dev {first}, other {second}", tree(base, None, keys)
    for required in REQUIRED:
        yield f"dev {required} alone", tree(base, None, [key_node(blob, b"dev", required)])
    dev, other = (key_node(blob, it, b"conf\0") for it in (b"dev", b"other"))
    for name, values in PROPERTIES.items():
        for value in values:
            found = changed(dev, name, value)
            short = "none" if value is None else value[:24]
            yield f"dev's {name.decode()} {short}", tree(base, None, [found])
            yield f"dev's {name.decode()} {short}, other right, any", tree(base, b"any\0", [found, other])
            yield f"other right, dev's {name.decode()} {short}, any", tree(base, b"any\0", [other, found])
    for size in (255, 257, 384, 512):
        yield f"modulus of {size} octets", tree(base, None, [shortened(dev, size)])
    yield "no key", tree(base, None, [])
    yield "twice the same key", tree(base, None, [dev, [(BEGIN, b"key-dev2"), *dev[1:]]])
    yield "a key below a key", tree(base, None, [[*other[:-1], *dev, (END,)]])
    yield "a key without properties", tree(base, None, [dev, [(BEGIN, b"key-x"), (END,)]])
    yield "a required node without a key", tree(base, None, [dev, [(BEGIN, b"key-x"), (PROP, b"required", b"conf\0"), (END,)]])
    bare = Blob(base)
    bare.tokens = [(BEGIN, b""), (END,)]
    yield "no signature node", bare.bytes(is_moved=True)
    bare.tokens = [(BEGIN, b""), (BEGIN, b"signature@1"), *dev, (END,), (END,)]
    yield "a signature node with a unit address", bare.bytes(is_moved=True)
    for first, second in ((b"signature@1", b"signature"), (b"signature", b"signature@1"), (b"signatures", b"signature")):
        bare.tokens = [(BEGIN, b""), (BEGIN, first), *other, (END,), (BEGIN, second), *dev, (END,), (END,)]
        yield f"{first} before {second}", bare.bytes(is_moved=True)
    bare.tokens = [(BEGIN, b""), (BEGIN, b"signature"), *other, (END,), (BEGIN, b"signature"), *dev, (END,), (END,)]
    yield "two signature nodes", bare.bytes(is_moved=True)
