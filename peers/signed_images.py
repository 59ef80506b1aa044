"""FIT images that mkimage builds and signs, with their keys as PEM and as a control devicetree.

There are keys of 2048, 3072 and 4096 bits, four hashes, both paddings, three placements of the
payloads and three shapes: a configuration; three configurations with a ramdisk, loadables and
firmware; and a configuration with signatures by another key and by the key. In the control
devicetree the key is required for configurations."""

import itertools
import os
import shutil
from dataclasses import dataclass

from signing import Key, run

BITS = (2048, 3072, 4096)
DIGESTS = ("sha1", "sha256", "sha384", "sha512")
PADDINGS = ("pkcs-1.5", "pss")
PLACEMENTS = ((), ("-E",), ("-E", "-p", "6000"))
# The lines of an image, and those of configurations, by shape.
IMAGE = """        {name} {{ description = "{name}"; type = "{kind}"; arch = "arm64"; os = "linux"; compression = "none";
            {lines} data = /incbin/("{data}"); hash-1 {{ algo = "{algo}"; }}; {more} }};
"""
SIGNATURE = '{name} {{ algo = "{algo}"; key-name-hint = "{key}"; padding = "{padding}"; sign-images = {images}; }};'
IMAGES = {
    "kernel": ("kernel", "load = <0x80000>; entry = <0x80000>;", "kernel.bin", "sha256"),
    "fdt-1": ("flat_dt", "", "fdt.dtb", "sha512"),
    "fdt-2": ("flat_dt", "", "fdt.dtb", "sha256"),
    "ramdisk": ("ramdisk", "", "ramdisk.bin", "sha1"),
    "firmware": ("firmware", "load = <0>;", "ramdisk.bin", "sha384"),
    "extra": ("standalone", "load = <0>; entry = <0>;", "kernel.bin", "crc32"),
}
SECOND_HASH = {"fdt-1": 'hash-2 { algo = "crc32"; };', "ramdisk": 'hash { algo = "md5"; };'}
# Configurations by shape: their images by property, and the keys that sign them.
ONE = {"conf-1": ({"kernel": ["kernel"], "fdt": ["fdt-1"]}, ["dev"])}
SHAPES = {
    "one": ONE,
    "three": {
        **ONE,
        "conf-2": ({"kernel": ["kernel"], "fdt": ["fdt-2"], "ramdisk": ["ramdisk"]}, ["dev"]),
        "conf-3": ({"firmware": ["firmware"], "loadables": ["kernel", "extra"], "fdt": ["fdt-1", "fdt-2"]}, ["dev"]),
    },
    "two keys": {"conf-1": (ONE["conf-1"][0], ["other", "dev"])},
}
# The shapes of all kinds of images. Others are added for single images.
KINDS = tuple(SHAPES)


@dataclass
class Case:
    """An image, its keys, the names of its configurations, and what it is."""

    what: str
    path: str
    key: Key
    tree: str
    names: tuple

    def changed(self, what, path, data):
        """A case with other bytes."""
        with open(path, "wb") as file:
            file.write(data)
        return Case(what, path, self.key, self.tree, self.names)

    def data(self):
        with open(self.path, "rb") as file:
            return file.read()


def texts(words):
    return ", ".join(f'"{it}"' for it in words)


def configuration(name, images, keys, algo, padding):
    """The lines of a configuration."""
    lines = "".join(f" {it} = {texts(named)};" for it, named in images.items())
    for number, key in enumerate(keys):
        called = f"signature-{number}" if len(keys) > 1 else "signature"
        signed = texts(images)
        lines += f"\n            {SIGNATURE.format(name=called, algo=algo, key=key, padding=padding, images=signed)}"
    return f'        {name} {{ description = "{name}";{lines} }};\n'


def source(shape, algo, padding, hashes):
    """The source of an image. The hashes of its images may be of one algorithm."""
    images = ""
    for name, (kind, lines, data, own) in IMAGES.items():
        more = "" if hashes else SECOND_HASH.get(name, "")
        images += IMAGE.format(name=name, kind=kind, lines=lines, data=data, algo=hashes or own, more=more)
    confs = "".join(configuration(name, *it, algo, padding) for name, it in SHAPES[shape].items())
    head = '/dts-v1/;\n/ { description = "signed"; #address-cells = <1>;\n'
    return f'{head}    images {{\n{images}    }};\n    configurations {{ default = "conf-1";\n{confs}    }};\n}};\n'


class Signer:
    """Signs images in a folder, with the keys dev and other of a size in bits."""

    def __init__(self, folder):
        self.folder, self.made, self.signed, self.kinds = folder, {}, {}, []
        os.makedirs(folder, exist_ok=True)
        for name, size in (("kernel.bin", 700), ("ramdisk.bin", 301)):
            with open(f"{folder}/{name}", "wb") as file:
                file.write(bytes(it * it % 251 for it in range(size)))
        for name, lines in (("fdt", 'model = "a board"; compatible = "a,board";'), ("empty", "")):
            with open(f"{folder}/{name}.dts", "w", encoding="ascii") as file:
                file.write(f"/dts-v1/; / {{ {lines} }};\n")
            run("dtc", "-q", "-o", f"{folder}/{name}.dtb", f"{folder}/{name}.dts")

    def keys(self, bits):
        """The keys of a size, which are made once."""
        if bits not in self.made:
            self.made[bits] = {name: Key(f"{self.folder}/keys{bits}", name, bits) for name in ("dev", "other")}
        return self.made[bits]

    def sign(self, name, shape, bits, digest, padding, placement=(), hashes=""):
        """Builds and signs an image. Returns its case."""
        algo = f"{digest},rsa{bits}"
        path = f"{self.folder}/{name}.itb"
        key, tree = self.keys(bits)["dev"], self.tree(bits, digest)
        self.build(path, shape, bits, algo, padding, placement, hashes)
        return Case(name, path, key, tree, tuple(SHAPES[shape]))

    def build(self, path, shape, bits, algo, padding, placement=(), hashes="", more=()):
        self.keys(bits)
        its = f"{self.folder}/a.its"
        with open(its, "w", encoding="ascii") as file:
            file.write(source(shape, algo, padding, hashes))
        run("mkimage", *placement, "-f", its, "-k", f"{self.folder}/keys{bits}", *more, path)

    def tree(self, bits, digest):
        """The control devicetree in which the key dev is required for configurations."""
        path = f"{self.folder}/{digest}-{bits}.dtb"
        if not os.path.exists(path):
            shutil.copy(f"{self.folder}/empty.dtb", path)
            algo = f"{digest},rsa{bits}"
            self.build(f"{self.folder}/for-tree.itb", "one", bits, algo, "pkcs-1.5", more=("-K", path, "-r"))
        return path

    def both(self, place):
        """A control devicetree with the keys dev and other of 2048 bits."""
        path = f"{place}/both.dtb"
        shutil.copy(f"{self.folder}/empty.dtb", path)
        self.build(f"{place}/both.itb", "two keys", 2048, "sha256,rsa2048", "pkcs-1.5", more=("-K", path, "-r"))
        with open(path, "rb") as file:
            return file.read()

    def signed_by(self, keys, place):
        """An image whose configuration these keys of 2048 bits sign."""
        name = f"{place}/by-{'-'.join(keys)}"
        if name not in self.signed:
            SHAPES[name] = {"conf-1": (ONE["conf-1"][0], keys)}
            self.signed[name] = self.sign(f"by-{'-'.join(keys)}", name, 2048, "sha256", "pkcs-1.5")
        return self.signed[name]

    def all(self):
        """An image of each kind, which are made once."""
        found = self.kinds
        if found:
            return found
        for bits, digest, padding, shape, placement in itertools.product(BITS, DIGESTS, PADDINGS, KINDS, PLACEMENTS):
            name = f"{digest}-{bits}-{padding}-{shape}{''.join(placement)}".replace(" ", "-")
            found.append(self.sign(name, shape, bits, digest, padding, placement))
        return found
