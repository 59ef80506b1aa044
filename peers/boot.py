#!/usr/bin/env python3
"""boot.py UIMG [IMAGES]: compares `uimg check --strict` and `uimg unpack` with U-Boot itself.

Debian's u-boot-qemu is started in qemu for 64-bit ARM, ARM and x86, with images in its memory, and
its console is driven. A half of the IMAGES (200) for each processor is made: FIT and legacy images
that `uimg` and mkimage build from the same source, and odd FITs of strict.py; the other half is
mutated. Where `check --strict` prints ok,

  - `iminfo` of U-Boot must find the image right;
  - `imxtract` must find each payload by the name of its image, or each part by its number, and put
    into memory exactly the bytes that `uimg unpack` writes (`cmp.b`), if the name can be typed;
  - of made images, `source` must run a script, and `bootm loados` must put a kernel for ARM at its
    load address.

A strict check that refuses what U-Boot takes is counted on standard error: it may. It prints rows of
the table of docs/PEERS.md, and the first differences. It needs the packages u-boot-qemu,
qemu-system-arm, qemu-system-x86 and u-boot-tools."""
import collections
import json
import os
import random
import re
import select
import shutil
import struct
import subprocess
import sys
import tempfile
import time
import zlib

import strict
from counting import heading, row

SEED, IMAGES = 20301, 200
# How many images one boot has, and how many seconds a command may take.
BATCH, PATIENCE = 20, 20
# The bytes from one image in memory to the next, and from one payload to the next.
IMAGE_STEP, PAYLOAD_STEP = 0x20000, 0x4000
ALGOS = ("crc32", "md5", "sha1", "sha256")
LEGACY_MAGIC = b"\x27\x05\x19\x56"
# The types of legacy images that are used, by their codes.
KERNEL, MULTI, SCRIPT = 2, 4, 6
TYPED = re.compile(r"[\w@.+-]+", re.ASCII)


class Processor:
    """Where U-Boot runs: its name in images, the command that starts it, and where in memory
    images, payloads, and what it extracts are."""

    def __init__(self, arch, command, images):
        self.arch, self.command, self.images = arch, command, images
        self.payloads, self.to = images + 0x4000000, images + 0x8000000


PROCESSORS = (
    Processor("arm64", "qemu-system-aarch64 -machine virt -cpu cortex-a57 -m 1024 -bios /usr/lib/u-boot/qemu_arm64/u-boot.bin", 0x50000000),
    Processor("arm", "qemu-system-arm -machine virt -m 1024 -bios /usr/lib/u-boot/qemu_arm/u-boot.bin", 0x50000000),
    Processor("x86", "qemu-system-i386 -m 1024 -bios /usr/lib/u-boot/qemu-x86/u-boot.rom", 0x4000000),
)


class Console:
    """The console of a U-Boot that has files in memory, given by their addresses."""

    def __init__(self, processor, files):
        words = [*processor.command.split(), "-nographic", "-no-reboot", "-net", "none"]
        for address, path in files:
            words += ["-device", f"loader,file={path},addr={address:#x},force-raw=on"]
        self.running = subprocess.Popen(words, stdin=subprocess.PIPE, stdout=subprocess.PIPE, stderr=subprocess.STDOUT)
        self.until(re.compile(rb"stop autoboot"))
        self.send("\n")
        self.until(re.compile(rb"=> "))

    def send(self, line):
        self.running.stdin.write(line.encode() + b"\n")
        self.running.stdin.flush()

    def until(self, mark):
        """Returns what is printed, up to a mark, and the mark. Fails if it does not come."""
        printed, end = b"", time.monotonic() + PATIENCE
        while time.monotonic() < end:
            if select.select([self.running.stdout], [], [], 0.2)[0]:
                more = os.read(self.running.stdout.fileno(), 1 << 16)
                printed += more
                found = mark.search(printed)
                if found:
                    return printed.decode("latin-1"), found
                if not more:
                    break
        raise TimeoutError(printed[-300:].decode("latin-1"))

    def does(self, command):
        """Carries out a command. Returns whether its status is 0, and what it prints."""
        self.send(f"{command}; echo @$?@")
        printed, found = self.until(re.compile(rb"@(\d+)@"))
        return found[1] == b"0", printed

    def stop(self):
        self.running.kill()
        self.running.wait()


class Images:
    """The images for a processor: their bytes, in the order in which they are made."""

    def __init__(self, uimg, processor, folder, chance):
        self.processor, self.folder, self.chance = processor, folder, chance
        self.odd = strict.Maker(chance)
        self.tools = [f"{folder}/mkimage", "mkimage"]
        if not os.path.exists(self.tools[0]):
            os.symlink(os.path.abspath(uimg), self.tools[0])

    def built(self, *words):
        """Builds one source with both tools. Returns their images."""
        out, environment = f"{self.folder}/out", dict(os.environ, SOURCE_DATE_EPOCH="0")
        images = []
        for tool in self.tools:
            done = subprocess.run([tool, *words, out], cwd=self.folder, env=environment, capture_output=True, check=False)
            if done.returncode:
                sys.exit(f"boot.py: {tool} {' '.join(words)}: {done.stderr.decode()}")
            with open(out, "rb") as file:
                images.append(file.read())
        return images

    def payload(self, name):
        with open(f"{self.folder}/{name}", "wb") as file:
            file.write(self.chance.randbytes(self.chance.randrange(1, 3000)))
        return name

    def fits(self):
        images = [self.image("kernel", "kernel", f"os = \"linux\"; load = <{self.processor.to:#x}>; entry = <{self.processor.to:#x}>;")]
        for number in range(self.chance.randrange(3)):
            images.append(self.image(f"part-{number}", self.chance.choice(["firmware", "ramdisk", "standalone"]), "os = \"linux\"; load = <0>; entry = <0>;"))
        with open(f"{self.folder}/a.its", "w", encoding="utf-8") as file:
            file.write("/dts-v1/;\n/ { description = \"boot\"; images {\n" + "".join(images) + "};\n")
            file.write("configurations { default = \"conf\"; conf { description = \"c\"; kernel = \"kernel\"; }; }; };\n")
        return self.built(*self.chance.choice([[], ["-E"], ["-E", "-p", "2000"]]), "-f", "a.its")

    def image(self, name, kind, rest):
        data, hashes = self.payload(f"{name}.bin"), self.chance.sample(ALGOS, self.chance.randrange(1, 3))
        nodes = "".join(f"hash-{i} {{ algo = \"{it}\"; }}; " for i, it in enumerate(hashes))
        return f"{name} {{ description = \"{name}\"; data = /incbin/(\"{data}\"); type = \"{kind}\"; arch = \"{self.processor.arch}\"; compression = \"none\"; {rest} {nodes}}};\n"

    def legacies(self):
        words = ["-A", self.processor.arch, "-O", "linux", "-C", "none", "-a", f"{self.processor.to:x}", "-e", f"{self.processor.to:x}", "-n", "boot"]
        kind = self.chance.choice(["multi", "script", "kernel"])
        if kind == "script":
            with open(f"{self.folder}/a.sh", "w", encoding="utf-8") as file:
                file.write(f"echo said {self.chance.randrange(10**6)}\n")
            return self.built(*words, "-T", kind, "-d", "a.sh")
        names = [self.payload(f"{i}.bin") for i in range(self.chance.randrange(1, 4) if kind == "multi" else 1)]
        return self.built(*words, "-T", kind, "-d", ":".join(names))

    def made(self, count):
        images = []
        while len(images) < count:
            images += self.chance.choice([self.fits, self.legacies, lambda: [self.odd.fit()]])()
        return images[:count]

    def mutated(self, image):
        """Mutates a FIT as strict.py does; of a legacy image a byte, in half of them with right sums."""
        if not image.startswith(LEGACY_MAGIC):
            return self.odd.mutated(image)
        image = bytearray(image)
        image[self.chance.randrange(4, len(image))] ^= 1 << self.chance.randrange(8)
        if self.chance.randrange(2):
            image[24:28] = struct.pack(">I", zlib.crc32(image[64:]))
            image[4:8] = bytes(4)
            image[4:8] = struct.pack(">I", zlib.crc32(image[:64]))
        return bytes(image)


class Trial:
    """The images of one boot, and what U-Boot says of them."""

    def __init__(self, uimg, processor, folder, images, is_made):
        self.uimg, self.processor, self.folder, self.is_made, self.paths = uimg, processor, folder, is_made, []
        for number, image in enumerate(images):
            self.paths.append(f"{folder}/{number}.img")
            with open(self.paths[-1], "wb") as file:
                file.write(image)
        self.verdicts = strict.verdicts(uimg, self.paths)
        self.files = [(self.address(it), path) for it, path in enumerate(self.paths)]
        self.unpacked = {it: self.unpack(it) for it, path in enumerate(self.paths) if self.verdicts[path] == "ok"}
        self.console = None

    def address(self, number):
        return self.processor.images + number * IMAGE_STEP

    def unpack(self, number):
        """Unpacks an image, and puts its payloads into memory. Returns the name of each, its size and
        its address."""
        to, found = f"{self.folder}/{number}", []
        os.mkdir(to)
        done = subprocess.run([self.uimg, "unpack", "--no-sync", "--json", "-C", to, self.paths[number]], capture_output=True, text=True, check=True)
        for at, it in enumerate(map(json.loads, done.stdout.splitlines())):
            address = self.processor.payloads + number * IMAGE_STEP + at * PAYLOAD_STEP
            self.files.append((address, f"{to}/{it['file']}"))
            found.append((it.get("image", it["file"].rpartition("-")[2]), it["size"], address))
        return found

    def told(self, number):
        """Returns what U-Boot says of an image: whether it is right, and how what it loads differs."""
        self.console = self.console or Console(self.processor, self.files)
        try:
            is_right, _ = self.console.does(f"iminfo {self.address(number):x}")
            return is_right, self.differences(number) if number in self.unpacked else []
        except TimeoutError as why:
            self.console.stop()
            self.console = None
            return False, [f"no answer: {why}"]

    def differences(self, number):
        at, to, tried = self.address(number), f"{self.processor.to:x}", []
        with open(self.paths[number], "rb") as file:
            image = file.read()
        kind = image[30] if image.startswith(LEGACY_MAGIC) else None
        for name, size, payload in self.unpacked[number]:
            if kind in (None, MULTI, SCRIPT) and TYPED.fullmatch(name):
                tried.append(f"mw.b {to} a5 {size + 16:x}; imxtract {at:x} {name} {to} && cmp.b {to} {payload:x} {size:x}")
        name, size, payload = (self.unpacked[number] or [("", 0, 0)])[0]
        if self.is_made and kind == SCRIPT:
            tried.append(f"source {at:x}")
        if self.is_made and self.processor.arch != "x86" and (kind == KERNEL or name == "kernel"):
            tried.append(f"bootm start {at:x}{'' if kind else '#conf'} && bootm loados && cmp.b {to} {payload:x} {size:x}")
        return [said[-300:] for done, said in map(self.console.does, tried) if not done]


def compare(uimg, processor, count):
    """Prints the rows of a processor. Returns how many images differ."""
    folder, chance = tempfile.mkdtemp(prefix="uimg-boot-"), random.Random(f"{SEED} {processor.arch}")
    maker = Images(uimg, processor, folder, chance)
    made = maker.made(count // 2)
    sets = {"made": made, "mutated": [maker.mutated(chance.choice(made)) for _ in range(count - count // 2)]}
    bad = []
    for kind, images in sets.items():
        counts = collections.Counter()
        for begin in range(0, len(images), BATCH):
            place = tempfile.mkdtemp(dir=folder)
            trial = Trial(uimg, processor, place, images[begin : begin + BATCH], kind == "made")
            for number, path in enumerate(trial.paths):
                is_ok, (is_right, differences) = trial.verdicts[path] == "ok", trial.told(number)
                counts[is_ok, is_right] += 1
                counts["payloads"] += len(trial.unpacked.get(number, []))
                if is_ok and (not is_right or differences):
                    bad.append((kind, begin + number, differences or "iminfo finds it wrong"))
            if trial.console:
                trial.console.stop()
        here = sum(1 for it in bad if it[0] == kind)
        row(f"images in U-Boot's memory, {processor.arch}, {kind}", len(images), here,
            f"{counts[True, True] + counts[True, False]} are ok; payloads: {counts['payloads']}")  # fmt: skip
        print(f"{processor.arch}, {kind}: U-Boot takes {counts[False, True]} that a strict check refuses", file=sys.stderr)
    for kind, number, why in bad[:5]:
        print(f"{processor.arch}, {kind} {number}: {why}", file=sys.stderr)
    shutil.rmtree(folder)
    return len(bad)


def main():
    uimg, count = sys.argv[1], int(sys.argv[2]) if len(sys.argv) > 2 else IMAGES
    heading()
    sys.exit(sum(compare(os.path.abspath(uimg), it, count) for it in PROCESSORS) > 0)


if __name__ == "__main__":
    main()
