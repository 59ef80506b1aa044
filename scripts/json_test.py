#!/usr/bin/env python3
"""json_test.py PROGRAM: validates the output of `PROGRAM check --json`, `PROGRAM info`,
`PROGRAM unpack --json` and `PROGRAM diff --json` by the schemas docs/*.schema.json, and looks for
each of their members in docs/JSON.md.

It checks all files of examples/ and cases/files/, FIT images of a fixed seed, whole and damaged,
and some with hostile names. Each line must be JSON without a control character and without a
repeated member, be valid by the schema, and have the path and the line of text of
the same image; for `info`, what a reader of device trees in this file finds in it (of a refused
image, the line of a check); for `unpack`, what is in the files, and as many lines as without
--json; for `diff`, of each image and the next one, the lines without --json. It needs jsonschema, and reports if no Python here has it. The last
line is 'N passed, M failed'."""
import base64
import binascii
import glob
import hashlib
import json
import os
import random
import re
import struct
import subprocess
import sys
import tempfile
import zlib

TOP = os.path.dirname(os.path.dirname(os.path.abspath(__file__)))
SYSTEM_PYTHON = "/usr/bin/python3"

sys.path.insert(0, os.path.join(TOP, "bench"))
import fits  # noqa: E402

# The commands that print JSON, each with a schema in docs/.
COMMANDS = ("check", "info", "unpack", "diff")
# The key of examples/signed.itb.
KEY = os.path.join(TOP, "examples/dev.pem")
# How many FIT images are made.
BUILT = 200
ALGOS = ["crc16-ccitt", "crc32", "md5", "sha1", "sha256", "sha384", "sha512"]
# Names of nodes of six bytes, in place of `kernel` and `hash-0`.
IMAGES = [b"k\nel\"\\", b"\xff\xfe\x80abc", b"\xe2\x80\xa8\xe2\x80\xa9", b"\x01\x02\x1f\x7f\xc2\x85", b"\xed\xa0\x80\xf0\x9f\x98",
          b"\xf0\x9f\x98\x80\xc3x", b"</a>&\t", b"\r\n{}[]", b"\xe2\x80\xae\xe2\x80\x8b"]  # fmt: skip
HASHES = [b"hash\"\n", b"hash\xff\xc3", b"hash\\u", b"hash\xc2\xa0", b"hash\x08\x0c"]
# Names of files.
PATHS = [b'a"b', b"new\nline", b"back\\slash", b"\xff\xfe", b"\xe2\x80\xa8sep", b"\x01\x1b[31m", b"caf\xc3\xa9", b"\xed\xa0\x80", b"tab\t", b"%s{}$(x)"]  # fmt: skip


def schema_of(command):
    """The schema of what a command prints."""
    with open(os.path.join(TOP, "docs", f"{command}.schema.json"), encoding="utf-8") as file:
        return json.load(file)


def members(schema):
    """Yields the names of all members that a schema allows."""
    if isinstance(schema, dict):
        yield from schema.get("properties", {})
        for key, value in schema.items():
            for below in value.values() if key in ("properties", "$defs") else [value]:
                yield from members(below)
    elif isinstance(schema, list):
        for value in schema:
            yield from members(value)


def left_out(schemas):
    """The members of these schemas that docs/JSON.md does not name."""
    with open(os.path.join(TOP, "docs", "JSON.md"), encoding="utf-8") as file:
        named = set(re.findall(r"`([\w-]+)`", file.read()))
    found = {it.removesuffix("_base64").removesuffix("_length") for schema in schemas for it in members(schema)}
    return sorted(found - named)


def digest(algo, data):
    if algo == "crc16-ccitt":
        return binascii.crc_hqx(data, 0).to_bytes(2, "big")
    return zlib.crc32(data).to_bytes(4, "big") if algo == "crc32" else hashlib.new(algo, data).digest()


def fit_of(pick):
    """A FIT image with some images and hash nodes, some of which are wrong."""
    images = []
    for number in range(pick.choice([0, 1, 1, 2, 5])):
        data = pick.randbytes(pick.choice([0, 1, 33, 5000]))
        hashes = []
        for algo in pick.sample(ALGOS, pick.choice([0, 1, 1, 2])):
            value = digest(algo, data)
            spoilt = pick.choice([value] * 12 + [value[:-1], bytes(len(value))])
            hashes.append((pick.choice([algo] * 12 + ["sha3", ""]), spoilt))
        images.append(fits.image(f"kernel-{number}", fits.prop("data", data), hashes))
    return fits.fit(images)


def damaged(image, pick):
    """The image unchanged, cut, or with one other byte."""
    choice = pick.random()
    if choice < 0.5:
        return image
    if choice < 0.6:
        return image[: pick.randrange(len(image))]
    at = pick.randrange(min(len(image), pick.choice([40, 200, len(image)])))
    return image[:at] + bytes([image[at] ^ 1 << pick.randrange(8)]) + image[at + 1 :]


def with_names(image, hash_name):
    """A FIT image whose one hash is wrong, with these names of six bytes."""
    whole = fits.fit([fits.image("kernel", fits.prop("data", b"abcd"), [("crc32", bytes(4))])])
    return whole.replace(b"kernel\0", image + b"\0", 1).replace(b"hash-0\0", hash_name + b"\0", 1)


def shared():
    """A FIT image of two images with the same bytes after the blob."""
    data = bytes(5000)
    place = fits.prop("data-offset", bytes(4)) + fits.prop("data-size", len(data).to_bytes(4, "big"))
    return fits.fit([fits.image(name, place, [("crc32", digest("crc32", data))]) for name in ("one", "two")]) + data


def with_configurations(pick):
    """A FIT image whose hash is right, with configurations that have nodes and further
    properties, some of them twice or with a name that is not UTF-8, and some of which name no
    image."""
    images = [fits.image("kernel", fits.prop("data", b"abc"), [("crc32", digest("crc32", b"abc"))])]
    below = []
    for number in range(pick.choice([0, 1, 2, 5])):
        given = fits.text(pick.choice(["kernel", "fdt", "loadables"]), pick.choice(["kernel"] * 9 + ["gone"]))
        nodes = [fits.node(f"hash-{child}", fits.text("algo", "sha1")) for child in range(pick.choice([0, 0, 1, 3]))]
        more = [fits.prop(pick.choice(["value", "default", "estamp"]), pick.randbytes(pick.choice([0, 1, 5]))) for _ in range(pick.choice([0, 1, 3]))]
        below.append(fits.node(f"conf-{number}", given, *more, *nodes))
    whole = fits.blob(fits.node("", fits.node("images", *images), fits.node("configurations", *below)))
    return whole.replace(b"estamp\0", pick.choice(IMAGES) + b"\0", 1)


def write(folder, name, data):
    path = os.path.join(os.fsencode(folder), name)
    with open(path, "wb") as file:
        file.write(data)
    return path


def made(folder):
    """The paths of all images that are made for the test, and of some that cannot be read."""
    pick = random.Random(2023)
    paths = [write(folder, b"built-%d.itb" % number, damaged(fit_of(pick), pick)) for number in range(BUILT)]
    pairs = [(image, b"hash-0") for image in IMAGES] + [(b"kernel", name) for name in HASHES] + list(zip(IMAGES, HASHES))
    paths += [write(folder, b"names-%d.itb" % number, with_names(*pair)) for number, pair in enumerate(pairs)]
    paths += [write(folder, name, fit_of(pick)) for name in PATHS]
    paths.append(write(folder, b"shared.itb", shared()))
    paths += [write(folder, b"named-%d.itb" % number, with_configurations(pick)) for number in range(40)]
    return paths + [os.fsencode(folder), os.path.join(os.fsencode(folder), b"none"), b""]


def listed():
    folders = ("examples", "cases/files")
    return [os.fsencode(path) for folder in folders for path in sorted(glob.glob(os.path.join(TOP, folder, "*"))) if os.path.isfile(path)]


def check(program, paths, *options):
    """Checks these paths. Returns the status, the lines, and standard error."""
    command = [program, "check", "-0", "--files-from", "-", *options]
    end = subprocess.run(command, input=b"".join(path + b"\0" for path in paths), capture_output=True)
    return end.returncode, end.stdout, end.stderr


def spelled(name):
    """A name as it is printed in a line of text."""
    hidden = re.compile("[\0-\x1f\\\\\x7f-\x9f\u2028-\u202e\u200b-\u200f]")
    escaped = lambda text: "".join(f"\\x{byte:02x}" for byte in text)
    try:
        return hidden.sub(lambda found: escaped(found[0].encode()), name.decode())
    except UnicodeDecodeError:
        return "".join(chr(byte) if 32 <= byte < 127 and byte != 92 else f"\\x{byte:02x}" for byte in name)


def word_of(name):
    """The name of a node as it is printed in a line of text: one word."""
    return re.sub("[ :,]", lambda found: f"\\x{ord(found[0]):02x}", spelled(name))


def bytes_of(told, key):
    """The bytes of a name, which its text has to represent."""
    if f"{key}_base64" not in told:
        return told[key].encode()
    name = base64.b64decode(told[f"{key}_base64"], validate=True)
    assert name.decode("utf-8", "replace") == told[key], f"{key} is not that of its bytes"
    return name


def once(pairs):
    """The object of these members."""
    assert len({key for key, _ in pairs}) == len(pairs), "a member comes twice"
    return dict(pairs)


def text_of(told):
    """The line of text of an image."""
    verdict = told["verdict"]
    if "images" in told:
        counts = [(told["images"], "payload", "payloads"), (told["hashes"], "hash", "hashes")]
        if told.get("unchecked"):
            counts.append((told["unchecked"], "node of configurations unchecked", "nodes of configurations unchecked"))
        rest = ", ".join(f"{count} {one if count == 1 else many}" for count, one, many in counts)
        rest += ", all configurations signed" if "configurations" in told else ""
    elif "checksums" in told:
        rest = f"{told['checksums']} checksums"
    elif "image" in told:
        rest = " ".join(word_of(bytes_of(told, key)) for key in ("image", "hash") if key in told)
    elif "node" in told:
        rest = word_of(bytes_of(told, "node"))
    elif "property" in told:
        rest = " ".join(word_of(bytes_of(told, key)) for key in ("configuration", "property", "name") if key in told)
    else:
        rest = told.get("message") or told.get("algo") or ("checksum" if verdict == "bad" else None)
    return f"{spelled(bytes_of(told, 'path'))}: {verdict}" + ("" if rest is None else f" {rest}")


def unchecked_of(path):
    """How many nodes the configurations of a FIT image have."""
    with open(path, "rb") as file:
        below = Tree(file.read()).root[2]
    configurations = next((node[2] for node in below if node[0] == b"configurations"), [])
    return sum(len(configuration[2]) for configuration in configurations)


def judge(line, text, path, validator, options):
    """Raises an error if a line does not agree with the line of text."""
    assert not re.search(rb"[\0-\x1f]", line), "it has a control character"
    told = json.loads(line.decode(), object_pairs_hook=once)
    validator.validate(told)
    assert bytes_of(told, "path") == path, "it has another path"
    assert text_of(told) == text.decode(), f"the line of text is {text!r}"
    if "fault" in told:
        assert told["message"].startswith(told["fault"] + " "), "the fault is not that of its line"
    if "offset" in told:
        assert told["message"].endswith(f" at {told['offset']}"), "the offset is not that of the line"
    assert ("unchecked" in told) == ("images" in told and "--strict" in options), "a count lacks, or is too much"
    assert ("configurations" in told) == ("images" in told and "--key" in options), "signatures lack, or are too much"
    if "unchecked" in told:
        assert told["unchecked"] == unchecked_of(path), f"{unchecked_of(path)} nodes are not checked"
    return told


def try_all(program, paths, validator, options):
    """Checks all paths once as JSON and once as text. Returns the number of failures, and the
    messages."""
    status, lines, said = check(program, paths, "--json", *options)
    text_status, texts, text_said = check(program, paths, *options)
    lines, texts, failures, all_told = lines.split(b"\n"), texts.split(b"\n"), 0, []
    named = [path for path in paths if path]
    if (status, said, lines[-1], len(lines)) != (text_status, text_said, b"", len(named) + 1):
        print(f"status {status} and {len(lines) - 1} lines, not {text_status} and {len(named)}; {said!r}")
        failures += 1
    for line, text, path in zip(lines, texts, named):
        try:
            all_told.append(judge(line, text, path, validator, options))
        except Exception as error:
            print(f"{path!r}: {str(error).splitlines()[0]}\n    {line!r}")
            failures += 1
    if all_told and max(told["status"] for told in all_told) != status:
        print(f"status {status} is not the greatest")
        failures += 1
    return failures, all_told


class Tree:
    """The nodes of a blob: each has a name, its properties by name, its children, and all its
    properties in order."""

    def __init__(self, image):
        self.image = image
        _, self.total, self.at, self.strings = struct.unpack(">4I", image[:16])
        self.root = None
        while self.root is None:
            word = self.word()
            self.root = self.node() if word == 1 else None

    def word(self):
        self.at += 4
        return struct.unpack(">I", self.image[self.at - 4 : self.at])[0]

    def node(self):
        end = self.image.index(0, self.at)
        name, own, below, properties = self.image[self.at : end], {}, [], []
        self.at = (end + 4) // 4 * 4
        while (word := self.word()) != 2:
            if word == 1:
                below.append(self.node())
            elif word == 3:
                length, key = self.word(), self.strings + self.word()
                properties.append((self.image[key : self.image.index(0, key)], length))
                own.setdefault(properties[-1][0].decode("latin-1"), (self.at, length))
                self.at = (self.at + length + 3) // 4 * 4
        return name, own, below, properties


class Facts:
    """The facts of a FIT image, as `info` has to print them."""

    def __init__(self, path, image):
        tree = Tree(image)
        self.image, self.total = image, tree.total
        _, own, below, _ = tree.root
        images, configurations = (next((node for node in below if node[0] == key), (b"", {}, [], [])) for key in (b"images", b"configurations"))
        self.told = {"path": path.decode(), "status": 0, "format": "fit", "size": len(image), "totalsize": tree.total}
        self.text(self.told, own, "description")
        self.number(self.told, own, "timestamp", (4,))
        self.text(self.told, configurations[1], "default")
        self.reservations()
        self.told["images"] = [self.image_facts(node) for node in images[2]]
        self.told["configurations"] = [self.configuration(node) for node in configurations[2]]
        self.told["signatures"] = [self.signature(node, child) for node in configurations[2] for child in node[2] if child[0].startswith(b"signature")]

    def reservations(self):
        """The entries of the block up to one of zeros, if it has one within the blob and 65,536
        bytes."""
        at = int.from_bytes(self.image[16:20], "big")
        block, entries = self.image[at : min(at + 65536, self.total)], []
        for start in range(0, len(block) - 15, 16):
            entry = struct.unpack(">2Q", block[start : start + 16])
            if entry == (0, 0):
                self.told["reservations"] = entries
                return
            entries.append({"address": entry[0], "size": entry[1]})

    def value(self, own, key):
        at, length = own[key]
        return self.image[at : at + length]

    def spell(self, told, key, text):
        told[key] = text.decode("utf-8", "replace")
        if told[key].encode() != text:
            told[f"{key}_base64"] = base64.b64encode(text).decode()

    def is_told(self, told, own, key):
        if key in own and own[key][1] > 65536:
            told[f"{key}_length"] = own[key][1]
        return key in own and own[key][1] <= 65536

    def text(self, told, own, key):
        if self.is_told(told, own, key):
            self.spell(told, key, self.value(own, key).split(b"\0")[0])

    def texts(self, told, own, key):
        if self.is_told(told, own, key):
            value = self.value(own, key)
            texts = value[: -1 if value.endswith(b"\0") else None].split(b"\0") if value else []
            told[key] = [text.decode("utf-8", "replace") for text in texts]
            if [text.encode() for text in told[key]] != texts:
                told[f"{key}_base64"] = [base64.b64encode(text).decode() for text in texts]

    def number(self, told, own, key, lengths):
        if key in own and own[key][1] in lengths:
            told[key] = int.from_bytes(self.value(own, key), "big")

    def place(self, told, own):
        cells = {}
        for key in ("data-position", "data-offset", "data-size"):
            self.number(cells, own, key, (4,))
        if "data-position" in cells and "data-size" in cells:
            at, size = cells["data-position"], cells["data-size"]
        elif "data-offset" in cells and "data-size" in cells:
            at, size = (self.total + 3) // 4 * 4 + cells["data-offset"], cells["data-size"]
        else:
            at, size = own["data"]
        assert at + size <= len(self.image), "a payload ends outside the file"
        told.update({"offset": at, "data-size": size})

    def hash(self, node):
        told = {}
        self.spell(told, "name", node[0])
        self.text(told, node[1], "algo")
        if self.is_told(told, node[1], "value"):
            told["value"] = self.value(node[1], "value").hex()
        return told

    def image_facts(self, node):
        told = {}
        self.spell(told, "name", node[0])
        for key in ("description", "type", "arch", "os", "compression"):
            self.text(told, node[1], key)
        for key in ("load", "entry"):
            self.number(told, node[1], key, (4, 8))
        self.place(told, node[1])
        told["hashes"] = [self.hash(child) for child in node[2] if child[0].startswith(b"hash")]
        return told

    def configuration(self, node):
        told = {}
        self.spell(told, "name", node[0])
        for key in ("description", "kernel", "ramdisk", "firmware", "fpga", "setup", "standalone", "script"):
            self.text(told, node[1], key)
        for key in ("fdt", "loadables"):
            self.texts(told, node[1], key)
        told["nodes"] = [self.name(child[0]) for child in node[2]]
        told["properties"] = [{**self.name(name), "size": size} for name, size in node[3]]
        return told

    def signature(self, configuration, node):
        told = {}
        self.spell(told, "configuration", configuration[0])
        self.spell(told, "node", node[0])
        for key in ("algo", "padding", "key-name-hint"):
            self.text(told, node[1], key)
        return {key.replace("key-name-hint", "key"): value for key, value in told.items()}

    def name(self, name):
        told = {}
        self.spell(told, "name", name)
        return told


def legacy_facts(path, image):
    """The facts of a legacy image, except for the listing's names of its codes."""
    _, head, time, size, load, entry, data, os_code, arch, kind, comp, name = struct.unpack(">7I4B32s", image[:64])
    told = {"path": path.decode(), "status": 0, "format": "legacy", "size": len(image), "time": time, "load": load, "entry": entry}
    told.update({"header-crc": head, "data-crc": data, "os-code": os_code, "arch-code": arch, "type-code": kind})
    told.update({"compression-code": comp, "data-size": size, "parts": [{"offset": 64, "size": size}]})
    Facts.spell(None, told, "name", name.split(b"\0")[0])
    if kind in (4, 6):
        words = struct.unpack(f">{size // 4}I", image[64 : 64 + size // 4 * 4])
        sizes = words[: words.index(0)]
        starts = [64 + 4 * (len(sizes) + 1) + sum((one + 3) // 4 * 4 for one in sizes[:i]) for i in range(len(sizes))]
        told["parts"] = [{"offset": at, "size": one} for at, one in zip(starts, sizes)]
    return told


def judge_facts(program, path, validator):
    """Raises an error if the line of `info` of an image is wrong."""
    end = subprocess.run([program, "info", "--json", path], capture_output=True)
    plain = subprocess.run([program, "info", path], capture_output=True)
    assert (end.stdout, end.returncode) == (plain.stdout, plain.returncode), "--json makes a difference"
    assert end.stderr == b"", f"on standard error: {end.stderr!r}"
    line, _, rest = end.stdout.partition(b"\n")
    assert rest == b"" and not re.search(rb"[\0-\x1f]", line), "it is not one line"
    told = json.loads(line.decode(), object_pairs_hook=once)
    validator.validate(told)
    assert told["status"] == end.returncode, "it has another status"
    if told["status"]:
        checked = subprocess.run([program, "check", "--json", path], capture_output=True).stdout
        # A check may end by a finding on an earlier payload.
        assert checked == end.stdout or told.get("fault") in ("F2", "F3") and b'"message"' not in checked, f"a check tells {checked!r}"
        return told
    with open(path, "rb") as file:
        image = file.read()
    if told["format"] == "fit":
        assert told == Facts(path, image).told, f"it says {Facts(path, image).told}"
    else:
        own = legacy_facts(path, image)
        names = {key: told[key] for key in ("os", "arch", "type", "compression")}
        assert told == {**own, **names}, f"it says {own}"
        listing = subprocess.run([program, "dumpimage", "-l", path], capture_output=True).stdout.decode("utf-8", "replace")
        line = f"Image Type:   {names['arch']} {names['os']} {names['type']} ({names['compression']})"
        assert listing == "" or line in listing.splitlines(), f"the listing has another type than {line}"
    return told


def try_facts(program, paths, validator):
    """Holds `info` of each of these paths to the schema. Returns the number of failures, and the
    messages."""
    failures, told = 0, []
    for path in paths:
        try:
            path.decode()
        except UnicodeDecodeError:
            continue
        try:
            told.append(judge_facts(program, path, validator))
        except Exception as error:
            print(f"info {path!r}: {(str(error).splitlines() or [repr(error)])[0]}")
            failures += 1
    return failures, told


def judge_unpacked(program, path, validator, folder, options):
    """Raises an error if the lines of `unpack` of an image, or the files, are wrong. Returns the
    lines."""
    with tempfile.TemporaryDirectory(dir=folder) as out, tempfile.TemporaryDirectory(dir=folder) as plain_out:
        end = subprocess.run([program, "unpack", "--json", *options, "-C", out, path], capture_output=True)
        plain = subprocess.run([program, "unpack", *options, "-C", plain_out, path], capture_output=True)
        assert end.stderr == b"", f"on standard error: {end.stderr!r}"
        assert end.returncode == plain.returncode, f"without --json the status is {plain.returncode}"
        lines = end.stdout.split(b"\n")
        assert lines.pop() == b"" and not re.search(rb"[\0-\x09\x0b-\x1f\x7f]|\xc2[\x80-\x9f]", end.stdout), "a control character"
        assert len(lines) == len(plain.stdout.splitlines() + plain.stderr.splitlines()), f"without --json {plain.stdout!r}"
        told = [json.loads(line.decode(), object_pairs_hook=once) for line in lines]
        for one in told:
            validator.validate(one)
            assert one["path"] == path.decode(), "it has another path"
        assert max([one["status"] for one in told], default=0) == end.returncode, "it has another status"
        kept = [one for one in told if "file" in one]
        assert sorted(one["file"] for one in kept) == sorted(os.listdir(out)), f"the folder has {os.listdir(out)}"
        for one in kept:
            with open(os.path.join(out, one["file"]), "rb") as file:
                data = file.read()
            assert one["size"] == len(data), f"the file has {len(data)} bytes"
            if "digest" in one:
                assert one["digest"] == digest(one["algo"], data).hex(), "the file has another digest"
        if kept and "data-crc" in kept[0]:
            with open(path, "rb") as file:
                assert kept[0]["data-crc"] == int.from_bytes(file.read(28)[24:], "big"), "another checksum"
        return told


def try_unpacking(program, paths, validator, folder):
    """Holds `unpack` of each of these paths to the schema. Returns the number of failures, and the
    messages."""
    failures, told = 0, []
    for path in paths:
        try:
            path.decode()
        except UnicodeDecodeError:
            continue
        for options in ([], ["--keep-good"], ["--need", "sha256"], ["--key", KEY]):
            try:
                told += judge_unpacked(program, path, validator, folder, [*options, "--no-sync"])
            except Exception as error:
                print(f"unpack {path!r}: {(str(error).splitlines() or [repr(error)])[0]}")
                failures += 1
    return failures, told


def difference_line(told):
    """The line of text of a difference."""
    ending = lambda text: f": {text}" if text else ""
    if "old" not in told:
        return f"+ {told['key']}{ending(told['new'])}"
    if "new" not in told:
        return f"- {told['key']}{ending(told['old'])}"
    return f"{told['key']}{ending(told['old'])} -> {told['new']}"


def try_differences(program, paths, validator):
    """Compares each image with the next one, as JSON and as text. Returns the number of failures,
    and the objects."""
    failures, told = 0, []
    for pair in zip(paths, paths[1:]):
        try:
            end = subprocess.run([program, "diff", "--json", *pair], capture_output=True)
            plain = subprocess.run([program, "diff", *pair], capture_output=True)
            assert (end.returncode, end.stderr) == (plain.returncode, plain.stderr), "without --json the end is another"
            objects = [json.loads(line, object_pairs_hook=once) for line in end.stdout.decode().split("\n")[:-1]]
            for one in objects:
                validator.validate(one)
            assert [difference_line(one) for one in objects] == plain.stdout.decode().split("\n")[:-1], "other lines"
            told += objects
        except Exception as error:
            print(f"diff {pair!r}: {(str(error).splitlines() or [repr(error)])[0]}")
            failures += 1
    return failures, told


def main():
    program = os.path.abspath(sys.argv[1])
    try:
        import jsonschema
    except ImportError:
        if sys.executable != SYSTEM_PYTHON and os.path.exists(SYSTEM_PYTHON):
            os.execv(SYSTEM_PYTHON, [SYSTEM_PYTHON, *sys.argv])
        print("json_test: skipped, since no Python here has jsonschema (apt install python3-jsonschema)")
        return 0
    schemas = [schema_of(command) for command in COMMANDS]
    for schema in schemas:
        jsonschema.Draft202012Validator.check_schema(schema)
    validator, of_facts, of_payloads, of_differences = (jsonschema.Draft202012Validator(schema) for schema in schemas)
    failures, told = 0, []
    for member in left_out(schemas):
        print(f"docs/JSON.md does not name the member {member}")
        failures += 1
    with tempfile.TemporaryDirectory() as folder:
        paths = listed() + made(folder)
        for options in ([], ["--need", "crc32"], ["--need", "sha256"], ["--strict"], ["--key", KEY]):
            failed, some = try_all(program, paths, validator, options)
            failures, told = failures + failed, told + some
        failed, facts = try_facts(program, [path for path in paths if path], of_facts)
        failures += failed
        failed, payloads = try_unpacking(program, [path for path in paths if path], of_payloads, folder)
        failures += failed
        failed, differences = try_differences(program, [path for path in paths if path], of_differences)
        failures += failed
    verdicts = sorted({one["verdict"] for one in told})
    print(f"{len(told)} lines, verdicts: {' '.join(verdicts)}; {len({one.get('fault') for one in told}) - 1} faults")
    print(f"info: {len(facts)} lines, {sum(one['status'] == 0 for one in facts)} with facts")
    verdicts = sorted({one["verdict"] for one in payloads})
    print(f"unpack: {len(payloads)} lines, verdicts: {' '.join(verdicts)}")
    print(f"diff: {len(differences)} lines")
    print(f"{len(told) + len(facts) + len(payloads) + len(differences)} passed, {failures} failed")
    return 1 if failures else 0


if __name__ == "__main__":
    sys.exit(main())
