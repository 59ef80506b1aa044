#!/usr/bin/env python3
"""hostile.py UIMG [COUNT]: reads hostile images with every command, and holds the answers together.

It makes COUNT images (20000) from a seed: mutations of the examples, of the files of cases/, and of
images that `uimg mkimage` builds, and images from nothing: FITs with odd nodes, cells, names, hashes
and headers, and legacy images with odd headers and tables. Each goes through check, check --strict,
verify, info, map and unpack. No peer is needed. These are findings:

  - a signal, a status other than 0 and 1, or no end within a minute
  - a control character in a line (names in the lines of verify excepted)
  - two commands that contradict each other: all must report the same fault, or none; what check
    finds right, unpack must write, byte for byte what info lists; check --strict must find nothing
    right that check does not
  - a file outside the folder of unpack, or one that a refused unpack leaves
  - a second run, or the JSON, that differs

It prints rows of the table of docs/PEERS.md, and the first findings. The smallest image of each is
kept in out/hostile."""
import collections
import concurrent.futures
import glob
import json
import os
import random
import re
import shutil
import struct
import subprocess
import sys
import tempfile
import zlib

import fit
import strict
from counting import row

TOP = os.path.dirname(os.path.dirname(os.path.abspath(__file__)))
sys.path.insert(0, os.path.join(TOP, "scripts"))
import broken  # noqa: E402
import json_test  # noqa: E402

SEED, COUNT = 6021, 20000
WORKERS = 2
# How many images one check has, and how many seconds a command may take.
BATCH, PATIENCE = 500, 60
# One in this many images is read twice.
TWICE = 10
MAGIC = 0x27051956
COMMANDS = {"verify": (), "info": (), "map": (), "unpack": ("--no-sync", "-C", "outer/inner")}
# The lines of those that escape names.
LINES = {"info": re.compile(rb"\{.*\}"), "map": re.compile(rb"[0-9a-f]+-[0-9a-f]+ +\d+ [.#]+ .+"), "unpack": re.compile(rb"\S*: [^:]+")}
NAMES = ["", ".", "..", "../out", "../../out", "/tmp/uimg-hostile", "a/b", "a b", "a: ok", "a\nb: ok", "\x1b[2J", "\x01\x7f", "-x", ".hidden", "A", "a",
         ".uimg-new1", "image-0", "images", "hash", "@", "a@1@2", "\udcff\udcfe", "\udce2\udc80", "\u202eb", "\u2028", "%s%n", "'$(x)'", "x" * 255,
         "x" * 256, "ok\\x0a", "uboot-ignore"]  # fmt: skip
ALGOS = ["crc16", "crc16-ccitt", "sha3", "sha1,rsa2048", "CRC32", "crc32 ", "", "\n", "sha512", "x" * 300]
PLACEMENTS = [[], ["-E"], ["-E", "-p", "4000"]]
NUMBERS = [0, 1, 3, 4, 63, 2**16, 2**31 - 1, 2**31, 2**32 - 4, 2**32 - 1]

# Which answers of the others agree with that of check: "bad" stands for what is not right of
# checksums and hashes, and F2, F3, L6 and L7 for what comes after the first of these. unpack also
# counts payloads without a hash, of which check reads none.
LATER = ("F2", "F3", "L6", "L7")
AGREES = {
    "ok": {it: ("ok",) for it in COMMANDS},
    "unhashed": {"verify": ("ok",), "info": ("ok",), "map": ("ok",), "unpack": ("ok", "overlapping")},
    "bad": {"verify": ("bad", *LATER), "info": ("ok", *LATER), "map": ("ok", *LATER), "unpack": ("bad", "overlapping", *LATER)},
    "overlapping": {"verify": ("ok", "bad", *LATER), "info": ("ok", *LATER), "map": ("ok", *LATER), "unpack": ("overlapping", *LATER)},
}
AGREES |= {it: {**{command: (it,) for command in COMMANDS}, "unpack": (it, "overlapping")} for it in ("F2", "F3")}
# verify reports on the checksums alone.
AGREES |= {it: {**{command: (it,) for command in COMMANDS}, "verify": ("ok", "bad")} for it in ("L3", "L6", "L7")}

class Maker(strict.Maker):
    """Images from a source of chance; one thing in `rate` is odd."""

    rate = 14

    def odd(self):
        return self.chance.randrange(self.rate) == 0

    def name(self, word):
        return self.chance.choice(NAMES) if self.odd() else super().name(word)

    def cell(self, number):
        return strict.cell(self.chance.choice([number + 1, *NUMBERS])) if self.odd() else super().cell(number)

    def hash(self, number, data):
        name, properties, below = super().hash(number, data)
        if self.odd():
            at = self.chance.randrange(len(properties))
            key, value = properties[at]
            properties[at] = key, self.chance.choice([value[:-1], bytes(len(value)), b"", value + b"\0", strict.text(self.chance.choice(ALGOS))])
        if self.odd():
            properties.append((self.chance.choice(NAMES), b"x" * self.chance.randrange(9)))
        return name, properties, below

    def image(self, number, base):
        image, behind = super().image(number, base)
        if self.odd():
            image[1][:0] = [("data-position", self.cell(0)), ("data-size", strict.cell(self.chance.choice([64, 400, 1000])))]
        return image, behind

    def root(self, kind, start):
        (name, properties, parents), after = super().root(kind, start)
        if self.odd():
            name = self.chance.choice(NAMES)
        if self.odd():
            below = ("deep", [], [])
            for _ in range(self.chance.choice([3, 70, 300])):
                below = (self.name("deep"), [], [below])
            self.chance.choice(parents)[2].append(below)
        if self.odd():
            shared = [("data-position", strict.cell(0)), ("data-size", strict.cell(300))]
            self.chance.choice(parents)[2].extend((f"shared{it}", shared, []) for it in range(8))
        if self.odd():
            parents.append((self.name("more"), [(self.chance.choice(NAMES), b"")], []))
        if self.odd():
            self.chance.choice(parents)[1].append((self.chance.choice(["default", "kernel", *NAMES]), strict.text(self.chance.choice(NAMES))))
        return (name, properties, parents), after

    def spoiled(self, image):
        """The image, cut, with bytes behind it, or mutated, most often unchanged."""
        how = self.chance.randrange(8)
        if how == 0:
            return image[: self.chance.randrange(len(image) + 1)]
        if how == 1:
            return image + self.chance.choice([b"\0", bytes(4096), image])
        return self.mutated(image) if how == 2 and len(image) >= 40 else image

    def odd_fit(self):
        self.rate = self.chance.choice([3, 10, 40, 200])
        return self.spoiled(self.fit())

    def parts(self):
        """Data of the types multi and script: a table of sizes, and parts."""
        sizes = [self.chance.choice(NUMBERS) if self.odd() else self.chance.randrange(1, 9) for _ in range(self.chance.randrange(5))]
        end = self.chance.choice([b"", b"\0", strict.cell(1)]) if self.odd() else strict.cell(0)
        parts = [strict.padded(self.chance.randbytes(it)) for it in sizes if it < 2**17]
        return b"".join(map(strict.cell, sizes)) + end + b"".join(parts)

    def odd_legacy(self):
        self.rate = self.chance.choice([3, 10, 40, 200])
        kind = self.chance.choice([4, 6, 2, self.chance.randrange(256)])
        data = self.parts() if kind in (4, 6) else self.chance.randbytes(self.chance.randrange(40))
        size = self.chance.choice([len(data) + 1, len(data) // 2, *NUMBERS]) if self.odd() else len(data)
        name = self.chance.choice(NAMES).encode(errors="surrogateescape")[:32]
        codes = [self.chance.choice([5, 255, self.chance.randrange(40)]) for _ in range(2)] + [kind, self.chance.choice([0, 1, 200])]
        magic = self.chance.choice(NUMBERS) if self.chance.randrange(60) == 0 else MAGIC
        image = struct.pack(">7I4B32s", magic, 0, self.chance.choice(NUMBERS), size, 0, 2**32 - 1, 0, *codes, name) + data
        return self.spoiled(image if self.odd() else summed(image))

    def mutation(self, image):
        """A mutation; of a legacy image often with sums that are right."""
        image = self.mutated(image) if len(image) >= 40 else image
        return summed(image) if self.chance.randrange(2) else image


def summed(image):
    """A legacy image with both checksums, any other one unchanged."""
    if len(image) < 64 or image[:4] != strict.cell(MAGIC):
        return image
    size = int.from_bytes(image[12:16], "big")
    head = image[:4] + bytes(4) + image[8:24] + strict.cell(zlib.crc32(image[64 : 64 + size])) + image[28:64]
    return head[:4] + strict.cell(zlib.crc32(head)) + head[8:] + image[64:]


def contents(path):
    with open(path, "rb") as file:
        return file.read()


def built(uimg, folder):
    """Images that `uimg mkimage` makes, of each type, with payloads at each place."""
    images = []
    for number, given in enumerate(fit.fits(SEED, 12)):
        for it in given.images:
            it.payload = it.payload[:200]
        images.append(contents(fit.build(folder, given, PLACEMENTS[number % 3], (uimg, "mkimage"))))
    for kind in ("standalone", "kernel", "ramdisk", "multi", "firmware", "script", "filesystem", "kernel_noload"):
        files = ["examples/abc.bin"] * (3 if kind in ("multi", "script") else 1)
        subprocess.run([uimg, "mkimage", "-T", kind, "-n", kind, "-d", ":".join(files), f"{folder}/u.img"], check=True, capture_output=True)
        images.append(contents(f"{folder}/u.img"))
    return images


def kinds_of(uimg, count):
    """Yields each kind of images with its images."""
    maker, share = Maker(random.Random(SEED)), count // 4
    cases = [contents(it) for it in sorted(glob.glob("cases/files/*.i[tm][bg]"))] + [json_test.shared()] * 3
    yield "mutated examples", [*broken.images(share // 2), *(maker.mutation(maker.chance.choice(cases)) for _ in range(share - share // 2))]
    with tempfile.TemporaryDirectory() as folder:
        made = built(uimg, folder)
    yield "mutated, of `uimg mkimage`", [maker.mutation(maker.chance.choice(made)) for _ in range(share)]
    yield "FITs from nothing", [maker.odd_fit() for _ in range(share)]
    yield "legacy images from nothing", [maker.odd_legacy() for _ in range(count - 3 * share)]


def ran(words, **how):
    """Runs a command. Returns its status, or "hang", and what it printed."""
    try:
        ended = subprocess.run(words, capture_output=True, timeout=PATIENCE, **how)
    except subprocess.TimeoutExpired:
        return "hang", b"", b""
    return ended.returncode, ended.stdout, ended.stderr


def answer_of(command, status, out, said):
    """The answer of a command: ok, bad, the code of a fault, or a status that is not 0 or 1."""
    if status in (0, 1):
        told = re.search(rb'"fault":"([A-Z]\d+)"' if command == "info" else rb"^uimg: ([A-Z]\d+) ", out if command == "info" and status else said, re.M)
        code = told[1].decode() if told else "overlapping" if b": overlapping" in out else None
        return "ok" if status == 0 else "bad" if code in (None, "L5") else code
    return "hang" if status == "hang" else f"signal {-status}" if status < 0 else f"status {status}"


def answer_of_check(told):
    """The answer of a check."""
    verdict = told["verdict"]
    if verdict in ("refused", "failed"):
        return told.get("fault", verdict)
    return verdict if verdict in ("ok", "unhashed", "overlapping") else "bad"


class Reader:
    """Reads images in a folder of each, and keeps the findings."""

    def __init__(self, uimg, room):
        self.uimg, self.room, self.findings, self.words = uimg, room, [], collections.Counter()

    def find(self, what, path, detail=""):
        self.findings.append((what, path, detail))

    def check(self, paths, *options):
        """A check of all, as text and as JSON. Returns what it says of each as JSON."""
        words = [self.uimg, "check", *options, "-0", "--files-from", "-"]
        how = {"input": b"".join(os.fsencode(it) + b"\0" for it in paths)}
        (status, lines, said), (json_status, objects, _) = ran(words, **how), ran([*words, "--json"], **how)
        if (status, lines, said) != ran(words, **how):
            self.find("a second check is another", paths[0])
        lines, objects = lines.decode(errors="replace").split("\n"), objects.split(b"\n")
        if status not in (0, 1) or status != json_status or said or len(lines) != len(paths) + 1 or len(objects) != len(lines):
            self.find(f"check of {len(paths)} images: status {status} and {json_status}", paths[0], said[:200])
            return [None] * len(paths)
        told = [json.loads(it) for it in objects[:-1]]
        for path, line, it in zip(paths, lines, told):
            if line != json_test.text_of(it) or re.search("[\0-\x1f\x7f]", line):
                self.find("check: the line and the object differ", path, line)
        return told

    def compare_checks(self, path, plain, strictly):
        """A strict check is right only if a check is."""
        both = f"{plain['verdict']} and {strictly['verdict']}"
        self.words[strictly.get("fault", strictly["verdict"])] += 1
        if plain["status"] not in (0, 1) or strictly["status"] < plain["status"]:
            self.find(f"check and check --strict: {both}", path)
        if strictly["verdict"] == "ok" and any(plain.get(it) != strictly.get(it) for it in ("verdict", "images", "hashes")):
            self.find(f"check and check --strict: {both}, or other counts", path)

    def read(self, path, plain):
        """Each other command, beside the answer of a check."""
        folder, answers = os.path.dirname(path), {}
        for command, words in COMMANDS.items():
            ended = ran([self.uimg, command, *words, path], cwd=folder)
            answers[command] = ended
            answer, here = answer_of(command, *ended), answer_of_check(plain)
            agrees = AGREES.get(here, {command: (here,)})[command]
            if answer not in agrees:
                self.find(f"check {here}, {command} {answer}", path, ended[2][:200])
            is_odd = re.search(rb"[\0-\x09\x0b-\x1f\x7f]", ended[1] + ended[2])
            if command in LINES and (is_odd or not all(LINES[command].fullmatch(it) for it in ended[1].splitlines())):
                self.find(f"{command}: a line of another form", path, ended[1][:200])
            if command != "unpack" and int(os.path.basename(folder)) % TWICE == 0 and ended != ran([self.uimg, command, *words, path], cwd=folder):
                self.find(f"a second {command} is another", path)
        self.compare_files(path, plain, answers)
        shutil.rmtree(folder)

    def compare_files(self, path, plain, answers):
        """The files of unpack have to be the payloads that info lists, and no others exist."""
        folder = os.path.dirname(path)
        if sorted(os.listdir(folder)) != ["image", "outer"] or os.listdir(f"{folder}/outer") != ["inner"]:
            self.find("unpack: a file outside the folder", path)
        names = os.listdir(f"{folder}/outer/inner")
        if answers["unpack"][0] != 0 or answers["info"][0] != 0:
            if names and answers["unpack"][0] != 0:
                self.find("unpack: a refused one leaves a file", path, names)
            return
        image, facts = contents(path), json.loads(answers["info"][1])
        places = [(it["offset"], it["size"]) for it in facts.get("parts", ())] + [(it.get("offset", 0), it.get("data-size", 0)) for it in facts.get("images", ())]
        if sorted(contents(f"{folder}/outer/inner/{it}") for it in names) != sorted(image[at : at + size] for at, size in places):
            self.find("unpack: other bytes than info lists", path, names)
        counts = len(facts.get("images", ())), sum(len(it["hashes"]) for it in facts.get("images", ()))
        if "images" in plain and counts != (plain["images"], plain["hashes"]):
            self.find("check counts others than info lists", path)

    def batch(self, images, number):
        """Reads some images. Returns how many are right, and the findings by their images."""
        paths = [f"{self.room}/{number + it}/image" for it in range(len(images))]
        for path, image in zip(paths, images):
            os.makedirs(f"{os.path.dirname(path)}/outer/inner")
            with open(path, "wb") as file:
                file.write(image)
        by_path = dict(zip(paths, images))
        plain, strictly = self.check(paths), self.check(paths, "--strict")
        jobs = [it for it in zip(paths, plain, strictly) if it[1] and it[2]]
        with concurrent.futures.ThreadPoolExecutor(WORKERS) as pool:
            for it in jobs:
                self.compare_checks(*it)
            list(pool.map(lambda it: self.read(it[0], it[1]), jobs))
        for left in [*os.listdir(self.room), "/tmp/uimg-hostile"]:
            if left not in {str(number + it) for it in range(len(images))} and os.path.exists(os.path.join(self.room, left)):
                self.find("unpack: a file outside the folder", paths[0], left)
        found = [(what, by_path[path], detail) for what, path, detail in self.findings]
        self.findings.clear()
        return sum(it is not None and it["verdict"] == "ok" for it in plain), found


def keep(findings):
    """Keeps the smallest image of each finding, and prints it."""
    shutil.rmtree("out/hostile", ignore_errors=True)
    os.makedirs("out/hostile")
    smallest = {}
    for what, image, detail in findings:
        if what not in smallest or len(image) < len(smallest[what][0]):
            smallest[what] = image, detail
    for number, (what, (image, detail)) in enumerate(smallest.items()):
        with open(f"out/hostile/{number}.img", "wb") as file:
            file.write(image)
        times = sum(it[0] == what for it in findings)
        print(f"{what}: {times} times, as out/hostile/{number}.img {detail or ''}")


def main():
    uimg, count = os.path.abspath(sys.argv[1]), int(sys.argv[2]) if len(sys.argv) > 2 else COUNT
    os.chdir(TOP)
    os.environ["SOURCE_DATE_EPOCH"] = "1700000000"
    if os.path.exists("/tmp/uimg-hostile"):
        sys.exit("/tmp/uimg-hostile exists, which some images name")
    unknown, number = [], 0
    with tempfile.TemporaryDirectory() as room:
        reader = Reader(uimg, room)
        for kind, images in kinds_of(uimg, count):
            right, found = 0, []
            for begin in range(0, len(images), BATCH):
                ok, some = reader.batch(images[begin : begin + BATCH], number + begin)
                right, found = right + ok, found + some
            number += len(images)
            unknown += found
            row(f"hostile images, {kind}", len(images), len(found), f"{right} are ok")
    print("--strict: " + ", ".join(f"{word} {times}" for word, times in sorted(reader.words.items())), file=sys.stderr)
    if unknown:
        keep(unknown)
    return 1 if unknown else 0


if __name__ == "__main__":
    sys.exit(main())
