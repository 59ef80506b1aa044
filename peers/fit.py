"""FIT images of many shapes, made from a seed, for the real mkimage to build.

`fits(seed, count)` gives `count` `Fit`s: the contents of a FIT image, whose `source()` is its
image-tree source. `build(folder, fit, placement)` has the real mkimage make it, with its payloads
inside (no words), after the tree (`-E`) or at a position (`-E -p`). `report(fit)` is the report
that each image has to get, and `report(fit, changed)` the one after a byte of a payload was
changed.

`sections(text)` are the lines of a listing, by image, and `differs(own, real)` gives the
differences of two of them, except for `OWN_LINES` and lines that end with `MISSING`. dumpimage
lists the default configuration only if the configurations directly follow the images (it looks for
it in the node after these); otherwise `listed(fit, sections)` leaves it out.
"""

import os
import random
import subprocess

ALGOS = ["crc32", "md5", "sha1", "sha256", "sha384", "sha512"]
KINDS = ["kernel", "ramdisk", "flat_dt", "firmware", "script", "standalone", "kernel_noload"]
ARCHS = ["arm", "arm64", "x86", "x86_64", "mips", "ppc", "riscv", "sandbox"]
SYSTEMS = ["linux", "u-boot", "netbsd", "vxworks", "arm-trusted-firmware", "tee", "opensbi", "efi"]
COMPRESSIONS = ["none", "gzip", "bzip2", "lzma", "lzo", "lz4", "zstd"]
ADDRESSES = ["<0>", "<0x80000>", "<0xffffffff>", "<0 0x80000>", "<1 0x80000000>", "<0xffffffff 0>"]
SIZES = [32, 33, 35, 100, 8191, 8192, 8193, 20000, 100000]

# What uimg lists of each image that has it, and dumpimage only for some types of images.
OWN_LINES = (b"  Architecture", b"  OS", b"  Load Address", b"  Entry Point")

# What dumpimage prints of a missing property; uimg leaves the line out.
MISSING = (b" unavailable", b" Unknown OS")


class Image:
    """An image: its name, its payload, its properties and the algorithms of its hash nodes."""

    def __init__(self, name, pick):
        self.name = name
        self.payload = pick.randbytes(pick.choice(SIZES))
        self.algos = pick.sample(ALGOS, pick.choice([0, 1, 1, 2, 4, 6]))
        self.values = [("description", f'"{pick.choice(["Linux", "a b", "x" * 60])}"')]
        self.values.append(("type", f'"{pick.choice(KINDS)}"'))
        self.values.append(("arch", f'"{pick.choice(ARCHS)}"'))
        if pick.random() < 0.8:
            self.values.append(("os", f'"{pick.choice(SYSTEMS)}"'))
        self.values.append(("compression", f'"{pick.choice(COMPRESSIONS)}"'))
        for name in ("load", "entry"):
            if pick.random() < 0.7:
                self.values.append((name, pick.choice(ADDRESSES)))
        pick.shuffle(self.values)

    def hashes(self):
        """The names of the hash nodes, with their algorithms."""
        return [(f"hash-{number + 1}", algo) for number, algo in enumerate(self.algos)]

    def source(self):
        lines = [f'data = /incbin/("{self.name}.bin");']
        lines += [f"{name} = {value};" for name, value in self.values]
        lines += [f'{name} {{ algo = "{algo}"; }};' for name, algo in self.hashes()]
        return f"{self.name} {{\n" + "\n".join(lines) + "\n};\n"


class Fit:
    """The contents of a FIT image."""

    def __init__(self, pick):
        names = ["kernel", "fdt-1", "fdt@2", "ramdisk,a", "fw_1", "script+x"]
        self.description = pick.choice(["demo", "Kernel and trees", "x"])
        self.images = [Image(name, pick) for name in names[: pick.choice([1, 2, 3, 6])]]
        self.configurations = pick.choice([0, 1, 3])
        self.before = pick.random() < 0.5

    def configuration(self, number):
        names = [image.name for image in self.images]
        lines = [f'description = "Board {number}";', f'kernel = "{names[0]}";']
        if number != 1:
            lines.append(f'fdt = {", ".join(chr(34) + name + chr(34) for name in names[1:3])};')
        if number == 2:
            lines.append(f'ramdisk = "{names[-1]}";')
            lines.append(f'loadables = "{names[0]}", "{names[-1]}";')
        lines = [line for line in lines if "= ;" not in line]
        return f"conf-{number} {{\n" + "\n".join(lines) + "\n};\n"

    def source(self):
        images = "images {\n" + "".join(image.source() for image in self.images) + "};\n"
        below = "".join(self.configuration(number) for number in range(self.configurations))
        blocks = [images]
        if self.configurations:
            default = 'default = "conf-0";\n' if self.configurations > 1 else ""
            blocks.append("configurations {\n" + default + below + "};\n")
        if self.before:
            blocks.reverse()
        head = f'description = "{self.description}";\n#address-cells = <1>;\n'
        return "/dts-v1/;\n/ {\n" + head + "".join(blocks) + "};\n"


def fits(seed, count):
    """A number of them, always the same for a seed."""
    pick = random.Random(seed)
    return [Fit(pick) for _ in range(count)]


def build(folder, fit, placement, tool=("mkimage",)):
    """The path of the image that the real mkimage makes, or another tool."""
    for image in fit.images:
        with open(os.path.join(folder, f"{image.name}.bin"), "wb") as file:
            file.write(image.payload)
    with open(os.path.join(folder, "fit.its"), "w") as file:
        file.write(fit.source())
    environment = dict(os.environ, SOURCE_DATE_EPOCH="1700000000", TZ="UTC")
    command = [*tool, *placement, "-f", "fit.its", "fit.itb"]
    subprocess.run(command, cwd=folder, env=environment, check=True, capture_output=True)
    return os.path.join(folder, "fit.itb")


def report(fit, changed=None):
    """The status of a verification and its report, after the payload of one image was changed."""
    lines = []
    for image in fit.images:
        word = "bad" if image is changed else "ok"
        lines += [f"{image.name} {name} {algo} {word}" for name, algo in image.hashes()]
        if not image.algos:
            lines.append(f"{image.name} - none unhashed")
    bad = changed is not None and changed.algos != []
    return (1 if bad else 0), "".join(line + "\n" for line in lines).encode()


def sections(text):
    """The lines of a listing, cut before each image and each configuration."""
    cut = [[]]
    for line in text.split(b"\n"):
        if line.startswith((b" Image ", b" Configuration ", b" Default ")):
            cut.append([])
        if line:
            cut[-1].append(line)
    return cut


def listed(fit, cut):
    """The sections of a listing that dumpimage has too."""
    return [part for part in cut if not (fit.before and part[0].startswith(b" Default "))]


def differs(own, real):
    """The differences of two sections: the lines of one that the other has to have."""
    lacks = [line for line in real if line not in own and not line.endswith(MISSING)]
    more = [line for line in own if line not in real and not line.startswith(OWN_LINES)]
    both = [line for line in own if line in real] == [line for line in real if line in own]
    return lacks + more + ([] if both else [b"another order"])
