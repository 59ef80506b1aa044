"""FITs of Linux for MIPS, with uimg in the place of mkimage.

The sources arch/mips/generic/*.its.S and the rules of arch/mips/boot/Makefile are of Debian's package
linux-source-6.1. The rules run as they are; stand-ins take the place of the kernel and of the device
trees."""

import os
import re
import shutil
import tarfile

from trees import compared

PACKAGE, TOP = "linux-source-6.1", "arch/mips"
BOARDS = ("boston", "ni169445", "ocelot", "luton", "jaguar2", "serval", "xilfpga", "marduk")
# The boards of each image, the bits of its addresses, and the kernel's compression.
IMAGES = [
    ((), 32, ""),
    (("boston",), 64, ".gz"),
    (("ni169445",), 32, ".bz2"),
    (("ocelot",), 32, ".lzma"),
    (("luton",), 32, ".lzo"),
    (("jaguar2",), 64, ""),
    (("serval",), 32, ".gz"),
    (("xilfpga",), 32, ""),
    (("marduk",), 32, ".lzma"),
    (BOARDS, 64, ".gz"),
]
# What the rules need of Linux's other makefiles. As in scripts/Makefile.lib, cmd_x is what x runs.
RULES = """srctree := {source}
objtree := {built}
obj := {built}/arch/mips/boot
if_changed = $(cmd_$(1))
real-prereqs = $(filter-out FORCE,$^)
CPP := cpp
MKIMAGE := mkimage
OBJCOPY := true
KERNELRELEASE := 6.1.0
PLATFORM := generic
VMLINUX := $(obj)/vmlinux
VMLINUX_LOAD_ADDRESS := 0xffffffff80100000
VMLINUX_ENTRY_ADDRESS := 0xffffffff80a3c5e0
ADDR_BITS := {bits}
ITS_INPUTS := {inputs}
first: {target}
include {source}/arch/mips/boot/Makefile
FORCE:
"""


def fetch(suites):
    """The folder of Linux's source, with the sources of the FITs and the rules. They are read from the
    package's tar file up to the last one."""
    place = f"{suites.folder}/linux"
    if os.path.exists(f"{place}/complete"):
        return place
    packed = f"{suites.package(PACKAGE)}/usr/src/{PACKAGE}.tar.xz"
    begun = False
    with tarfile.open(packed, "r|xz") as files:
        for file in files:
            name = file.name.partition("/")[2]
            if re.fullmatch(rf"{TOP}/(boot/Makefile|generic/.*\.its\.S)", name):
                os.makedirs(os.path.dirname(f"{place}/{name}"), exist_ok=True)
                with open(f"{place}/{name}", "wb") as out:
                    shutil.copyfileobj(files.extractfile(file), out)
            if begun and not name.startswith(TOP):
                break
            begun = begun or name.startswith(TOP)
    os.close(os.open(f"{place}/complete", os.O_CREAT))
    return place


class Mips:
    """The images, in a folder of the suites."""

    def __init__(self, suites):
        self.suites, self.folder = suites, f"{suites.folder}/mips"
        self.source = fetch(suites)

    def run(self, way):
        """Makes all images with the tools of a way. Returns each image's end: it passes if its tree is
        that of U-Boot's tools."""
        kept = f"{self.folder}-{os.path.basename(self.suites.ways[way])}"
        shutil.rmtree(kept, ignore_errors=True)
        os.makedirs(kept)
        ends = {}
        for number, (boards, bits, compression) in enumerate(IMAGES):
            name = f"{number}-{bits}{compression}-{boards[0] if len(boards) == 1 else len(boards)}"
            image = self.make(way, boards, bits, compression)
            ends[name] = "FAILED"
            if os.path.exists(image):
                shutil.copyfile(image, f"{kept}/{name}")
                first = f"{self.folder}-original/{name}"
                if os.path.exists(first) and compared(first, f"{kept}/{name}") != "other":
                    ends[name] = "PASSED"
        return ends

    def make(self, way, boards, bits, compression):
        """Makes an image by Linux's rules. Returns its path, whether or not it is there."""
        self.stand_ins(compression)
        image = f"{self.folder}/{TOP}/boot/vmlinux{compression}.itb"
        inputs = " ".join(["vmlinux.its.S", *(f"board-{it}.its.S" for it in boards)])
        text = RULES.format(source=self.source, built=self.folder, bits=bits, inputs=inputs, target=image)
        with open(f"{self.folder}/rules", "w", encoding="utf-8") as file:
            file.write(text)
        more = {**self.suites.more(way, self.suites.ways[way]), "SOURCE_DATE_EPOCH": "1700000000"}
        log = f"mips-{os.path.basename(self.suites.ways[way])}{compression}"
        self.suites.call(["make", "-f", f"{self.folder}/rules"], log, self.folder, **more)
        return image

    def stand_ins(self, compression):
        """Makes the folder anew, with files for the kernel and for each device tree that a source
        includes."""
        shutil.rmtree(self.folder, ignore_errors=True)
        paths = {f"boot/vmlinux{it}": 1_500_003 for it in ("", ".bin", f".bin{compression}")}
        for board in BOARDS:
            with open(f"{self.source}/{TOP}/generic/board-{board}.its.S", encoding="utf-8") as file:
                paths.update(dict.fromkeys(re.findall(r'incbin/\("([^"]*)"', file.read()), 20_002))
        for path, size in paths.items():
            full = f"{self.folder}/{TOP}/{path}"
            os.makedirs(os.path.dirname(full), exist_ok=True)
            with open(full, "wb") as file:
                file.write((f"{path} ".encode() * size)[:size])
