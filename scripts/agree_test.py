#!/usr/bin/env python3
"""agree_test.py PROGRAM: holds `info`, `check --json`, `unpack` and `map` of each image together.

The images are all files of examples/ and cases/files/ and 1000 made ones of both formats, whole
and spoilt, the same at each run. The rules:

1. If one of the four refuses the image, all four do, by the same line (with its code and offset)
   and with status 1. What is refused: a wrong header, blob or table of parts, and a payload or part
   that is not in the file. But `check` and `unpack` take the images of a FIT in their order: a wrong
   hash of one, or payloads that overlap, may come before the refused one.
2. Otherwise `info` and `map` have status 0: they read no payload.
3. Otherwise `check` and `unpack` have the same status: 0, or 1 for a wrong hash, a wrong checksum of
   a legacy image's data, or payloads that overlap. Those of images without a hash are not read by
   `check`, and may overlap (`unhashed`).

The last line is 'N passed, M failed'."""
import concurrent.futures
import glob
import json
import os
import random
import re
import struct
import subprocess
import sys
import tempfile
import zlib

TOP = os.path.dirname(os.path.dirname(os.path.abspath(__file__)))
sys.path[:0] = [os.path.join(TOP, "peers"), os.path.join(TOP, "bench")]
import broken  # noqa: E402
import fits  # noqa: E402
import kit  # noqa: E402
import strict  # noqa: E402

MADE = 1000
# A line of a refusal: a code and what is wrong.
REFUSAL = re.compile(r"[LBF]\d+ .*")
# The line of `unpack` for a wrong checksum of the data, which a check reports as `bad`.
BAD_DATA = "L5 bad data CRC"
# The refusals of a payload.
MISSING = ("F2 no data", "F3 data outside")


def legacy(pick):
    """A legacy image of any type, whole or spoilt: its table of parts, its header or its data."""
    kind = pick.choice([2, 4, 4, 4, 6])
    parts = [pick.randbytes(pick.choice([0, 1, 3, 4, 50])) for _ in range(pick.choice([1, 1, 2, 5]))]
    sizes = [len(part) for part in parts]
    if pick.random() < 0.3:
        sizes[pick.randrange(len(sizes))] = pick.choice([0, 1, 60, 2**31, 2**32 - 1])
    table = b"".join(struct.pack(">I", size) for size in (*sizes, *pick.choice([[0]] * 5 + [[]])))
    data = (table if kind in (4, 6) else b"") + b"".join(map(strict.padded, parts))
    data = data[: pick.choice([len(data)] * 9 + [pick.randrange(len(data) + 1)])]
    return with_header(data, kind, pick)


def with_header(data, kind, pick):
    """A header before some data; one in five is wrong in its checksums or its size."""
    size = len(data) + pick.choice([0] * 12 + [1, -1])
    sum_of_data = zlib.crc32(data[: max(size, 0)]) ^ pick.choice([0] * 9 + [1])
    words = [0x27051956, 0, 0, max(size, 0), 0, 0, sum_of_data]
    head = bytearray(struct.pack(">7I4B32s", *words, 5, 22, kind, 0, b"made"))
    struct.pack_into(">I", head, 4, zlib.crc32(head) ^ pick.choice([0] * 15 + [1]))
    return bytes(head) + data


def payload_of(pick, data, at):
    """The properties of a payload in the tree, after it, outside the file, or of none."""
    size = fits.prop("data-size", struct.pack(">I", len(data)))
    where = pick.choice(["data"] * 6 + ["after"] * 3 + ["outside", "none"])
    if where == "data":
        return fits.prop("data", data)
    if where == "none":
        return b""
    offset = at if where == "after" else 2 ** pick.choice([10, 20, 31])
    return fits.prop("data-offset", struct.pack(">I", offset)) + size


def shared(pick):
    """A FIT image whose images share the bytes after the tree, with right hashes, wrong ones or
    none; the last one may have no payload."""
    data, images = bytes(2000), []
    place = fits.prop("data-offset", bytes(4)) + fits.prop("data-size", struct.pack(">I", len(data)))
    for number in range(pick.choice([1, 2, 3])):
        value = zlib.crc32(data) ^ pick.choice([0] * 5 + [1])
        hashes = [("crc32", struct.pack(">I", value))] * pick.choice([0, 1, 1])
        images.append(fits.image(f"image{number}", place, hashes))
    images += [fits.image("none", b"", [])] * pick.choice([0, 0, 1])
    return fits.fit(images) + data


def fit(pick):
    """A FIT image of some images, each with a payload or none, and with hashes, right or wrong."""
    images, after = [], b""
    for number in range(pick.choice([0, 1, 1, 2, 3])):
        data = pick.randbytes(pick.choice([0, 1, 33, 500]))
        given = payload_of(pick, data, len(after))
        after += strict.padded(data)
        wrong = pick.choice([0] * 5 + [1])
        hashes = [("crc32", struct.pack(">I", zlib.crc32(data) ^ wrong))] * pick.choice([0, 1, 1])
        images.append(fits.image(f"image{number}", given, hashes))
    return fits.fit(images) + after


def made():
    """1000 images: each maker has its share."""
    pick = random.Random(2026)
    maker = strict.Maker(pick)
    images = broken.images(MADE // 5)
    images += [legacy(pick) for _ in range(MADE * 2 // 5)]
    images += [fit(pick) for _ in range(MADE * 3 // 20)] + [shared(pick) for _ in range(MADE // 20)]
    whole = [maker.fit() for _ in range(MADE // 10)]
    return images + whole + [maker.mutated(pick.choice(whole)) for _ in range(MADE // 10)]


def run(words):
    """Runs a command. Returns its status and its output, that on standard error last."""
    ended = subprocess.run(words, capture_output=True, text=True, errors="replace", check=False)
    return ended.returncode, ended.stdout, ended.stderr


def read(line):
    """The status in a JSON object, and its refusal or its first finding on payloads."""
    told = json.loads(line)
    return told["status"], told["message"] if told.get("verdict") == "refused" else told.get("verdict")


def checked(program, paths):
    """What a check says of each path."""
    command = [program, "check", "--json", "--files-from", "-"]
    ended = subprocess.run(command, input="\n".join(paths), capture_output=True, text=True, check=False)
    return [read(line) for line in ended.stdout.splitlines()]


def told(program, path, room):
    """The same for the other three."""
    found = {"info": read(run([program, "info", path])[1])}
    for name, words in (("map", ["map"]), ("unpack", ["unpack", "--no-sync", "-C", room])):
        status, _, said = run([program, *words, path])
        line = said.removeprefix("uimg: ").rstrip("\n")
        found[name] = status, "bad" if line == BAD_DATA else line or None
    return found


def refusal_of(found):
    """The line of a refusal, or None."""
    return found[1] if REFUSAL.fullmatch(found[1] or "") else None


def fault_of(found):
    """What is wrong by the rules with what the four said, or None."""
    refusal, check, unpack = refusal_of(found["map"]), found["check"], found["unpack"]
    for name in ("info", "check", "unpack"):
        may_differ = name != "info" and refusal in MISSING and refusal_of(found[name]) is None
        if refusal_of(found[name]) != refusal and not may_differ:
            return f"{name} and map refuse it by different lines"
    if {it[0] for it in found.values()} != {1} and refusal:
        return "a refusal has another status than 1"
    if not refusal and (found["info"][0] or found["map"][0]):
        return "info or map has another status than 0"
    if check[0] != unpack[0] and check[1] != "unhashed" or {check[0], unpack[0]} - {0, 1}:
        return "check and unpack have different statuses"
    return None


def judge(program, path, check):
    """Holds the four of an image together. Returns what they said and what is wrong."""
    with tempfile.TemporaryDirectory() as room:
        found = {"check": check, **told(program, path, room)}
    return found, fault_of(found)


def written(folder):
    """The paths of all images, with the made ones in a folder."""
    paths = [it for it in sorted(glob.glob("examples/*") + glob.glob("cases/files/*")) if os.path.isfile(it)]
    for number, image in enumerate(made()):
        paths.append(f"{folder}/{number}.img")
        with open(paths[-1], "wb") as file:
            file.write(image)
    return paths


def main():
    program, failed, refused = os.path.abspath(sys.argv[1]), 0, {}
    os.chdir(TOP)
    with tempfile.TemporaryDirectory() as folder, concurrent.futures.ThreadPoolExecutor(kit.processors()) as pool:
        paths = written(folder)
        checks = checked(program, paths)
        assert len(checks) == len(paths), "the check has not a line for each image"
        for path, (found, fault) in zip(paths, pool.map(lambda *it: judge(program, *it), paths, checks)):
            code = (refusal_of(found["map"]) or "none").split()[0]
            refused[code] = refused.get(code, 0) + 1
            if fault:
                failed += 1
                print(f"{path}: {fault}: {found}")
    print(", ".join(f"{code} {count}" for code, count in sorted(refused.items())))
    print(f"{len(paths) - failed} passed, {failed} failed")
    return 1 if failed else 0


if __name__ == "__main__":
    sys.exit(main())
