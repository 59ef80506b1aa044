#!/usr/bin/env python3
"""lib_test.py PROGRAM FOLDER: tests libuimg in FOLDER, as callers in C and Python use it,
against the program. It compares symbols and headers; the example programs; listings, reports and
payloads of the example images and of 1000 broken ones; checks of images that mkimage signs; and the
library over a block. It builds and tries the bindings for Rust, Python, Go and C++ whose tools are
installed, and runs valgrind, and names what is left out. The last line counts."""
import array
import ctypes
import importlib.util
import json
import os
import re
import shutil
import subprocess
import sys
import tempfile

import broken

PROGRAM, LIBRARY = (os.path.abspath(it) for it in sys.argv[1:3])
ONE = '/dts-v1/; / { description = "d"; images { %s }; };'
IMAGE = 'k%d { description = "k"; data = "abc"; %s };'
HASHED = 'hash-1 { algo = "%s"; };'
# An image with a hash node and one thing more, which U-Boot reads in another way, or not at all.
LOOSE_SOURCES = [
    '/dts-v1/; / { images { %s }; };' % (IMAGE % (1, HASHED % "crc32")),
    ONE % (IMAGE % (1, HASHED % "crc32")).replace("k1", "k1@1"),
    ONE % (IMAGE % (1, "uboot-ignore = <1>; " + HASHED % "crc32")),
    ONE % (IMAGE % (1, HASHED % "crc32") * 2),
]
CC = os.environ.get("CC", "cc")
os.environ["LIBUIMG"] = f"{LIBRARY}/libuimg.so.0"
os.environ |= {"PYTHONPATH": os.path.abspath("bindings/python"), "PYTHONDONTWRITEBYTECODE": "1"}
sys.path.insert(0, "bindings/python")
sys.dont_write_bytecode = True
import uimg

passed, failed = 0, []


def case(name, is_right, told=""):
    """Counts a case, and reports one that fails."""
    global passed
    if is_right:
        passed += 1
    elif len(failed) < 20:
        failed.append(name)
        print(f"{name}: {told or 'not as it should be'}", flush=True)


def ran(*words, **how):
    return subprocess.run(words, capture_output=True, **how)


def has(tool, what):
    """Returns whether a tool is installed. If not, it prints what was left out."""
    if not shutil.which(tool):
        print(f"{tool} is not installed, so {what} not tried")
    return shutil.which(tool)


def symbols(*words):
    found = ran("nm", *words).stdout.decode()
    return sorted({it[1] for it in re.finditer(r" T (\w+)(?:@.*)?$", found, re.M)})


def compiled(name, *words, compiler=CC, standard="c99"):
    """Compiles a program of the work folder, and counts a warning as a failure."""
    made = ran(compiler, f"-std={standard}", "-Wall", "-Wextra", "-Werror", "-Iinclude", "-o", f"{WORK}/{name}", *words)
    case(f"{name} compiles", made.returncode == 0, made.stderr.decode())
    return f"{WORK}/{name}"


def check_symbols():
    with open("library/symbols", encoding="ascii") as file:
        wanted = file.read().split()
    case("symbols of libuimg.so", symbols("-D", f"{LIBRARY}/libuimg.so.0") == wanted)
    case("symbols of libuimg.a", symbols(f"{LIBRARY}/libuimg.a") == wanted)
    block = sorted([*wanted, "uimg_block_most", "uimg_use_block"])
    case("symbols of libuimg_block.a", symbols(f"{LIBRARY}/libuimg_block.a") == block)
    needed = re.findall(r" U (\w+)", ran("nm", f"{LIBRARY}/libuimg_block.a").stdout.decode())
    case("libuimg_block.a needs no malloc", set(needed) <= {"memcpy", "memmove", "memset"}, str(needed))


# A program of C and of C++.
CALLER = """#include <uimg.h>
#include <uimg_block.h>

int main(void)
{
    uint8_t text[64] = {0};

    return uimg_fault_line(UIMG_FAULT('L', 8), text, sizeof text) != sizeof "L8 no such part" - 1;
}
"""


def check_headers():
    for standard, compiler in (("c99", CC), ("c++11", os.environ.get("CXX", "c++"))):
        if has(compiler, f"a caller in {standard} was"):
            path = f"{WORK}/caller.{'cc' if '++' in standard else 'c'}"
            with open(path, "w", encoding="ascii") as file:
                file.write(CALLER)
            program = compiled(f"caller in {standard}", path, "-pedantic", f"{LIBRARY}/libuimg.a", compiler=compiler, standard=standard)
            case(f"a caller in {standard}", ran(program).returncode == 0)


def by_program(*words):
    """Returns the program's result: status, output, and the fault's line."""
    told = ran(PROGRAM, *words)
    return told.returncode, told.stdout, told.stderr.decode().removeprefix("uimg: ").rstrip("\n")


def payload_by_program(path, position):
    out = f"{WORK}/payload"
    if os.path.exists(out):
        os.remove(out)
    status, _, line = by_program("dumpimage", "-p", str(position), "-o", out, path)
    return (open(out, "rb").read() if status == 0 else b""), line


def payload(image, position):
    try:
        return uimg.payload(image, position), ""
    except uimg.Refused as refused:
        return b"", str(refused)


def front(image, room):
    """Returns as much of a listing as fits into a buffer, and the length of all of it."""
    pointer, size, _keep = uimg._passed(image)
    text, report = (ctypes.c_uint8 * room)(), uimg._Report()
    uimg._library.uimg_list(pointer, size, text, room, ctypes.byref(report))
    return bytes(text[: report.written]), report.needed


def compare(images):
    path = f"{WORK}/image"
    for number, image in enumerate(images):
        with open(path, "wb") as file:
            file.write(image)
        found = uimg.listing(image)
        wanted = by_program("dumpimage", "-l", path)
        case(f"listing of image {number}", (found.status, found.text, found.fault) == wanted, f"{found} and {wanted}")
        case(f"front of image {number}", front(image, 30) == (wanted[1][:30], len(wanted[1])))
        found = uimg.verify(image)
        wanted = by_program("verify", path)
        case(f"report on image {number}", (found.status, found.text, found.fault) == wanted, f"{found} and {wanted}")
        lines = []
        for position in range(4):
            found, wanted = payload(image, position), payload_by_program(path, position)
            case(f"payload {position} of image {number}", found == wanted, f"{found} and {wanted}")
            lines.append(wanted[1])
        (count, line), wanted = told(lambda: uimg.count(image)), count_by_positions(lines)
        case(f"count of image {number}", wanted in (count, line) if wanted is not None else count >= 4, f"{count}, {line} and {wanted}")


def check_names():
    """A payload by its image's name is the one at the position of the first image of that name."""
    image = open("examples/kernel.itb", "rb").read()
    two = image.replace(b"kernel\0\0", b"KERNEL\0\0")
    case("the payload of kernel", uimg.place(image, "kernel") == uimg.place(image, 0))
    for name, wanted in (("kerne", "F4 no such image"), ("kernel2", "F4 no such image"), ("", "F4 no such image"), (b"KERNEL", "F4 no such image")):
        case(f"no image {name!r}", payload(image, name) == (b"", wanted), str(payload(image, name)))
    case("another name", two != image and payload(two, "KERNEL")[0] == b"abc" and payload(two, "kernel")[1] == "F4 no such image")
    legacy = open("examples/abc-kernel.img", "rb").read()
    case("a name", uimg.name(image, 0) == b"kernel")
    three = made(ONE % "".join(IMAGE % (number, "") for number in (1, 2, 3)))
    case("three names", [uimg.name(three, it) for it in range(uimg.count(three))] == [b"k1", b"k2", b"k3"])
    for refused, wanted in ((lambda: uimg.name(three, 3), "F4 no such image"), (lambda: uimg.name(b"", 0), "B1 too short at 0")):
        case("a refusal", told(refused) == (None, wanted), str(told(refused)))
    case("a legacy image has no names", payload(legacy, "kernel") == (b"", "B2 bad magic at 0"), str(payload(legacy, "kernel")))


def told(call):
    """Returns the result of a call, or None with the line of its refusal."""
    try:
        return call(), ""
    except uimg.Refused as refused:
        return None, str(refused)


def peaks_of_places(image):
    """Returns the peak memory of the calls that find a payload or a name, and of a count."""
    pointer, size, _keep = uimg._passed(image)
    word, length, _kept = uimg._passed(b"k1")
    at, named, name, count = uimg._Payload(), uimg._Payload(), uimg._Payload(), uimg._Count()
    uimg._library.uimg_payload_at(pointer, size, 0, ctypes.byref(at))
    uimg._library.uimg_payload_named(pointer, size, word, length, ctypes.byref(named))
    uimg._library.uimg_payload_name(pointer, size, 0, ctypes.byref(name))
    uimg._library.uimg_payload_count(pointer, size, ctypes.byref(count))
    return [it.peak for it in (at, named, name, count)]


def check_counts():
    """The counts of images and parts, and the peak memory of a call: 8192 bytes, and 128 for
    each node."""
    parts = [(open(f"examples/{it}", "rb").read(), count) for it, count in (("abc-kernel.img", 1), ("three-part.img", 3))]
    for image, count in [*parts, (made(ONE % ""), 0), (open("examples/kernel.itb", "rb").read(), 1)]:
        case(f"a count of {count}", uimg.count(image) == count)
    case("a count of nothing", told(lambda: uimg.count(b"")) == (None, "L1 too short"))
    for image, count in parts:
        case("the peak of a legacy image", [it(image).peak for it in (uimg.listing, uimg.verify, uimg.check)] == [8192] * 3)
    five = made(ONE % "".join(IMAGE % (number, "") for number in (1, 2, 3)))
    case("the peak of five nodes", [it(five).peak for it in (uimg.listing, uimg.verify, uimg.check)] == [8192 + 128 * 5] * 3)
    case("the peak of five nodes by place", peaks_of_places(five) == [8192 + 128 * 5] * 4)


def count_by_positions(lines):
    """Returns the right result of a count, from the faults at the first positions: a number, the
    line of a refusal, or None if the count is beyond them."""
    for position, line in enumerate(lines):
        if line in ("L8 no such part", "F4 no such image"):
            return position
        if line and line[:2] not in ("F2", "F3", "L7"):
            return line
    return None


STRENGTHS = ("crc32", "md5", "sha1", "sha256", "sha384", "sha512")


def is_vouched(image, need):
    """Returns whether a check has to succeed, by the report, whose lines have the algorithms."""
    report = uimg.verify(image)
    if report.status != uimg.DONE or not image.startswith(b"\xd0\x0d\xfe\xed"):
        return report.status == uimg.DONE and need == "crc32"
    strongest = {}
    for line in report.text.decode("latin-1").splitlines():
        name, _, algo, word = line.rsplit(" ", 3)
        strength = STRENGTHS.index(algo) if word == "ok" else -1
        strongest[name] = max(strength, strongest.get(name, -1))
    return bool(strongest) and min(strongest.values()) >= STRENGTHS.index(need)


def checked(image, need, *options):
    """Returns what `uimg check --need` says of an image."""
    with open(f"{WORK}/checked", "wb") as file:
        file.write(image)
    return json.loads(ran(PROGRAM, "check", "--json", "--need", need, *options, f"{WORK}/checked").stdout)


# What the program's strict check refuses besides the library's: a name in a configuration.
NOT_LOOKED_AT = "missing"
# The lines of what strictness refuses, by their words: each has the number of its place here.
LOOSE = """no-description no-timestamp unit-address doubled-node doubled-property ignored-hash odd-cell two-payloads half-place
unsound-blob misplaced empty-data unknown-type unknown-architecture unknown-system unknown-compression unsigned
unknown-signature weak-signature signed-strings signed-nodes signature-length signature-range bad-signature""".split()


def strictly(told):
    """Returns the status and the line that the library's strict check has to return, where the
    program's says this."""
    if told["verdict"] in LOOSE:
        return loose(told["verdict"])
    return (0, "") if told["verdict"] == NOT_LOOKED_AT else (told["status"], told.get("message", ""))


def made(source):
    with open(f"{WORK}/k.its", "w", encoding="ascii") as file:
        file.write(source)
    case("an image is made", ran(PROGRAM, "mkimage", "-f", f"{WORK}/k.its", f"{WORK}/k.itb").returncode == 0)
    with open(f"{WORK}/k.itb", "rb") as file:
        return file.read()


def check_checks(images):
    """A check succeeds if the report does and each image has a hash of the strength, and ends as
    the program's, on images of each type."""
    key = read("examples/dev.pem")
    sources = [ONE % "", ONE % IMAGE % (1, ""), ONE % (IMAGE % (1, HASHED % "sha256") + IMAGE % (2, ""))]
    sources += [ONE % (IMAGE % (1, HASHED % "sha512") + IMAGE % (2, HASHED % algo)) for algo in STRENGTHS]
    of_each = [made(it) for it in [*sources, *LOOSE_SOURCES]]
    case("an image that is not hashed", uimg.verify(of_each[1]).status == 0 and uimg.check(of_each[1], "crc32").status == 1)
    case("no image at all", uimg.verify(of_each[0]).status == 0 and uimg.check(of_each[0], "crc32").status == 1)
    for number, it in enumerate([*images, *of_each]):
        for need in STRENGTHS:
            found = uimg.check(it, need)
            case(f"check of image {number} for {need}", (found.status == 0) == is_vouched(it, need), str(found))
            told = checked(it, need)
            case(f"as the program checks image {number} for {need}", (found.status, found.fault) == (told["status"], told.get("message", "")), str(found))
        found, wanted = uimg.check_strict(it, "crc32"), strictly(checked(it, "crc32", "--strict"))
        case(f"as the program checks image {number} strictly", (found.status, found.fault) == wanted, f"{found} and {wanted}")
        # None of them has a signature.
        check_signed(f"of image {number}", it, key, found.status or uimg.NOT_RIGHT, found.fault if found.status else "S17 unsigned", "crc32")


def read(path):
    with open(path, "rb") as file:
        return file.read()


def check_signed(name, image, keys, status, fault, need="sha256", config=""):
    """Compares a check of signatures with a status and the line of a fault."""
    found = uimg.check_signed(image, keys, need, config)
    is_right = (found.status, found.fault, found.text) == (status, fault, b"")
    case(f"a check of signatures, {name}", is_right, f"{found} and {status} {fault}")


def loose(word):
    """Returns the status and the line of what strictness refuses."""
    return uimg.NOT_RIGHT, f"S{LOOSE.index(word) + 1} {word}"


def check_signatures():
    """The image of examples/ by its key, changed, and by a changed key."""
    image, key = read("examples/signed.itb"), read("examples/dev.pem")
    done, wrong, refused = (uimg.DONE, ""), (uimg.NOT_RIGHT, ""), (uimg.BAD_KEYS, "")
    check_signed("by the key", image, key, *done)
    check_signed("with other ends of lines", image, key.replace(b"\n", b"\r\n"), *done)
    check_signed("of bytes after the blob", image + b"abc", bytearray(key), *done)
    check_signed("for a stronger hash", image, key, *wrong, "sha512")
    check_signed("of a configuration", image, key, *done, config="conf")
    check_signed("of no configuration", image, key, *loose("unsigned"), config="con")
    partly, newer = read("cases/files/partly-signed.itb"), read("cases/files/newer.pem")
    check_signed("of a signed configuration and another", partly, newer, *loose("unsigned"))
    check_signed("of the signed configuration", partly, newer, *done, config="conf-1")
    check_signed("of the other configuration", partly, newer, *loose("unsigned"), config="conf-2")
    check_signed("of a configuration by another key", partly, key, *loose("bad-signature"), config=b"conf-1")
    check_signed("of a changed payload", image.replace(b"abc\0", b"abd\0"), key, *wrong)
    for name, old, new, word in (
        ("description", b"c\0\0\0\0\0\0\x03", b"x\0\0\0\0\0\0\x03", "bad-signature"),
        ("value", b"\x45\x4b\x81\xc4", b"\x45\x4b\x81\xc5", "bad-signature"),
        ("largest value", b"\x45\x4b\x81\xc4", b"\xff\x4b\x81\xc4", "signature-range"),
        ("algorithm", b"sha256,rsa2048", b"sha255,rsa2048", "unknown-signature"),
        ("size of the key", b"sha256,rsa2048", b"sha256,rsa4096", "unknown-signature"),
        ("longer algorithm", b"sha256,rsa2048\0\0", b"sha1,rsa2048\0\0\0\0", "unknown-signature"),
        ("name of the signature", b"signature-1\0", b"Signature-1\0", "unsigned"),
        ("name of the configurations", b"configurations\0", b"Configurations\0", "unsigned"),
    ):
        changed = image.replace(old, new)
        case(f"a changed {name}", len(changed) == len(image) and changed != image)
        check_signed(f"of a changed {name}", changed, key, *loose(word))
    check_signed("of an unsigned image", read("examples/kernel.itb"), key, *loose("unsigned"))
    check_signed("of a legacy image", read("examples/abc-kernel.img"), key, *loose("unsigned"), "crc32")
    for name, other in (("no bytes", b""), ("a front", key[:-30]), ("an end", key[1:]), ("bytes after it", key + b" "),
                        ("two keys", key * 2), ("an image", image), ("10000 bytes", key + b"\n" * 10000)):  # fmt: skip
        for it in (image, b"", read("examples/abc-kernel.img")):
            check_signed(f"by {name}", it, other, *refused)


SIGNED_SOURCE = """/dts-v1/; / { description = "d"; images { k { description = "k"; type = "firmware"; arch = "arm64";
compression = "none"; data = "abc"; hash-1 { algo = "sha256"; }; }; }; configurations { default = "c"; c {
firmware = "k"; signature-1 { algo = "%s"; padding = "%s"; key-name-hint = "%s"; sign-images = "firmware"; }; }; }; };"""


def public_key(name, *words):
    """Makes a key and its certificate. Returns the public key."""
    key = f"{WORK}/keys/{name}.key"
    ran("openssl", "genpkey", "-out", key, "-algorithm", *words)
    ran("openssl", "req", "-batch", "-new", "-x509", "-key", key, "-out", f"{WORK}/keys/{name}.crt")
    return ran("openssl", "pkey", "-in", key, "-pubout").stdout


def signed_by_mkimage(algo, padding, name, *options):
    with open(f"{WORK}/s.its", "w", encoding="ascii") as file:
        file.write(SIGNED_SOURCE % (algo, padding, name))
    made = ran("mkimage", "-f", f"{WORK}/s.its", "-k", f"{WORK}/keys", *options, f"{WORK}/s.itb")
    case(f"mkimage signs by {algo} and {padding}", made.returncode == 0, made.stderr.decode())
    return read(f"{WORK}/s.itb")


def check_peer_signatures():
    """Images that mkimage signs with keys of OpenSSL."""
    if not (has("mkimage", "signed images were") and has("openssl", "signed images were")):
        return
    os.mkdir(f"{WORK}/keys")
    keys = {bits: public_key(f"of{bits}", "RSA", "-pkeyopt", f"rsa_keygen_bits:{bits}") for bits in (1024, 2048, 3072, 4096)}
    curve = public_key("curve", "EC", "-pkeyopt", "ec_paramgen_curve:P-256")
    for bits in (2048, 3072, 4096):
        for algo, padding in ((algo, padding) for algo in ("sha1", "sha256", "sha384", "sha512") for padding in ("pkcs-1.5", "pss")):
            image = signed_by_mkimage(f"{algo},rsa{bits}", padding, f"of{bits}")
            for other, key in keys.items():
                wanted = (uimg.BAD_KEYS, "") if other == 1024 else loose("unknown-signature")
                if other == bits:
                    wanted = loose("weak-signature") if algo == "sha1" else (uimg.DONE, "")
                check_signed(f"{algo},rsa{bits} {padding} by {other}", image, key, *wanted)
            check_signed("by a curve", image, curve, uimg.BAD_KEYS, "")
    rsa = subprocess.run(["openssl", "rsa", "-pubin", "-RSAPublicKey_out"], input=keys[4096], capture_output=True).stdout
    check_signed("by an RSAPublicKey", image, rsa, uimg.DONE, "")
    if has("dtc", "control devicetrees were"):
        check_control_trees()


def check_control_trees():
    """Keys that mkimage writes to a devicetree."""
    tree = f"{WORK}/control.dtb"
    for options, status in (([], uimg.BAD_KEYS), (["-r"], uimg.DONE)):
        subprocess.run(["dtc", "-q", "-o", tree], input=b"/dts-v1/; / { };", check=True)
        check_signed("by a devicetree without keys", read("examples/signed.itb"), read(tree), uimg.BAD_KEYS, "")
        image = signed_by_mkimage("sha256,rsa2048", "pkcs-1.5", "of2048", "-K", tree, *options)
        check_signed(f"by a devicetree and {options}", image, read(tree), status, "")
    check_signed("by the key of another", read("examples/signed.itb"), read(tree), *loose("bad-signature"))
    larger = signed_by_mkimage("sha256,rsa4096", "pss", "of4096", "-K", tree, "-r")
    for it in (image, larger):
        check_signed("by one of two keys", it, read(tree), *loose("unknown-signature"))
    subprocess.run(["fdtput", "-ts", tree, "/signature", "required-mode", "any"], check=True)
    for it in (image, larger):
        check_signed("by any of two keys", it, read(tree), uimg.DONE, "")


def check_faults():
    """Each fault has the line of the manual page."""
    page = open("docs/uimg-faults.7", encoding="utf-8").read().replace("\\-", "-")
    for letter, count in (("L", 10), ("B", 11), ("F", 10), ("S", 24)):
        for number in range(count + 2):
            line = uimg._text(uimg._library.uimg_fault_line, ord(letter) * 256 + number)
            is_one = 1 <= number <= count
            case(f"line of {letter}{number}", line in page and line.startswith(f"{letter}{number} ") if is_one else not line, line)
    case("no fault", uimg._text(uimg._library.uimg_fault_line, 0) == "")


def check_example(*words):
    """An example program unpacks and refuses, also by a key, and reports a wrong command line and
    a failed write by its status."""
    image, key = "examples/kernel.itb", "examples/dev.pem"
    told = ran(*words, image, "0")
    case(f"{words[-1]} unpacks", (told.returncode, told.stdout) == (0, b"abc"), str(told))
    for path, by, status, line in (
        ("examples/signed.itb", key, 0, b""), (image, key, 1, b"S17 unsigned"), (image, image, 2, b"no keys"), (image, f"{WORK}/none", 3, b""),
    ):  # fmt: skip
        told = ran(*words, path, "0", by)
        case(f"{words[-1]} of {path} by {by}", (told.returncode, told.stdout) == (status, b"" if status else b"abc") and line in told.stderr, str(told))
    told = ran(*words, image, "1")
    case(f"{words[-1]} refuses", (told.returncode, told.stdout) == (1, b"") and b"F4 no such image" in told.stderr, str(told))
    made(ONE % IMAGE % (1, ""))
    told = ran(*words, f"{WORK}/k.itb", "0")
    case(f"{words[-1]} refuses a payload without a hash", (told.returncode, told.stdout) == (1, b""), str(told))
    for position in ("", "abc", "1x", "-1", "4294967296"):
        told = ran(*words, image, position)
        case(f"{words[-1]} at {position!r}", (told.returncode, told.stdout) == (2, b""), str(told))
    case(f"{words[-1]} of no file", ran(*words, f"{WORK}/none", "0").returncode == 3)
    with open("/dev/full", "wb") as full:
        told = subprocess.run([*words, image, "0"], stdout=full, stderr=subprocess.PIPE)
    case(f"{words[-1]} to a full device", told.returncode == 3 and b"Traceback" not in told.stderr, str(told))


def check_calls():
    """The version, and images in other buffers than bytes."""
    case("version", uimg.version() == by_program("--version")[1].decode().split()[1], uimg.version())
    image = open("examples/kernel.itb", "rb").read()
    numbers = array.array("I", image + bytes(-len(image) % 4))
    for other in (bytearray(image), memoryview(image), numbers, memoryview(numbers)):
        case(f"a payload of a {type(other).__name__}", uimg.payload(other) == b"abc")
    for position in (-1, 2**32):
        for call in (uimg.place, uimg.name):
            try:
                case(f"position {position}", call(image, position) is None)
            except ValueError:
                case(f"position {position}", True)


def statuses(told):
    return re.findall(r"^(?!count|name)\w+: (\d) (.*)$", told.stdout.decode(errors="replace"), re.M)


def check_programs(files):
    """The example programs, and the library over a block, beside the library over malloc."""
    image = "examples/kernel.itb"
    check_example(compiled("unpack", "examples/c/unpack.c", f"{LIBRARY}/libuimg.a", standard="gnu99"))
    way = f"-Wl,-rpath,{LIBRARY}"
    check_example(compiled("unpack with libuimg.so", "examples/c/unpack.c", f"-L{LIBRARY}", way, "-luimg", standard="gnu99"))
    check_example(sys.executable, "examples/python/unpack.py")
    report = compiled("report", "library/report.c", f"{LIBRARY}/libuimg.a")
    block = compiled("report over a block", "-DOVER_A_BLOCK", "library/report.c", f"{LIBRARY}/libuimg_block.a")
    wanted = ran(report, *files)
    case("a report on each image", wanted.returncode == 0 and wanted.stdout.count(b"\nsigned: 0 0 0 0 0 0\n") == 1, str(wanted.returncode))
    case("the same over a block", ran(block, *files).stdout == wanted.stdout)
    for size in (0, 10, 64, 512, 2048):
        told = ran(block, "-b", str(size), *files)
        # If the block is too small or missing, the status is 3, and no text is written.
        pairs = list(zip(statuses(told), statuses(wanted)))
        is_right = all(one in (other, ("3", "3 0 0 0 0")) for one, other in pairs)
        case(f"a block of {size}", told.returncode == 0 and len(pairs) == len(statuses(wanted)) and is_right)
    if has("valgrind", "memory was"):
        told = ran("valgrind", "-q", "--leak-check=full", "--error-exitcode=9", report, *files[:200])
        case("valgrind", told.returncode == 0 and not told.stderr, told.stderr.decode())


def check_command(name, *words, **how):
    """Runs a command that has to succeed."""
    told = ran(*words, **how)
    case(name, told.returncode == 0, (told.stdout + told.stderr).decode(errors="replace"))


def check_rust(tree):
    """The tests of the crate, over libuimg.a, and over libuimg.so where a folder has that alone."""
    if not has("cargo", "the binding for Rust was"):
        return
    shared = f"{WORK}/shared"
    os.mkdir(shared)
    for name in ("libuimg.so", "libuimg.so.0"):
        os.symlink(f"{LIBRARY}/libuimg.so.0", f"{shared}/{name}")
    for folder in (LIBRARY, shared):
        environment = {**os.environ, "LIBUIMG_DIR": folder, "LD_LIBRARY_PATH": folder}
        check_command(f"the crate over {folder}", "cargo", "test", "--offline", cwd=f"{tree}/bindings/rust", env=environment)


def check_python(tree):
    """The wheel, twice the same, and as installed in an environment that has no other library."""
    if sys.version_info < (3, 11) or not importlib.util.find_spec("ensurepip"):
        print("Python has no tomllib or no ensurepip, so the wheel was not tried")
        return
    environment = {**os.environ, "LIBUIMG_DIR": LIBRARY}
    wheels = []
    for folder in (f"{WORK}/one", f"{WORK}/two"):
        os.mkdir(folder)
        check_command("the wheel", sys.executable, f"{tree}/bindings/python/backend.py", folder, env=environment)
        wheels += [f"{folder}/{it}" for it in os.listdir(folder)]
    case("the wheel twice", len(wheels) == 2 and open(wheels[0], "rb").read() == open(wheels[1], "rb").read())
    case("the version of the wheel", f"/uimg-{uimg.version()}-py3-none-linux_" in wheels[0], wheels[0])
    for name in ("LIBUIMG", "PYTHONPATH"):
        del os.environ[name]
    python = f"{WORK}/venv/bin/python3"
    check_command("an environment", sys.executable, "-m", "venv", f"{WORK}/venv")
    check_command("the wheel installs", python, "-m", "pip", "install", "--no-index", wheels[0])
    check_example(python, "examples/python/unpack.py")


def check_go(tree):
    """The tests of the module, and the example that uses it."""
    if not has("go", "the binding for Go was"):
        return
    flags = {"CGO_CFLAGS": f"-I{os.getcwd()}/include", "CGO_LDFLAGS": f"-L{LIBRARY} -Wl,-rpath,{LIBRARY}"}
    environment = {**os.environ, **flags, "GOCACHE": f"{WORK}/go", "GOPATH": f"{WORK}/gopath", "GOPROXY": "off"}
    for verb in ("vet", "test"):
        check_command(f"go {verb}", "go", verb, "./...", cwd=f"{tree}/bindings/go", env=environment)
    check_command("unpack.go", "go", "build", "-o", f"{WORK}/unpack-go", ".", cwd=f"{tree}/examples/go", env=environment)
    check_example(f"{WORK}/unpack-go")


def check_bindings():
    """The bindings, in a copy: cargo writes beside its sources."""
    for it in ("bindings", "examples"):
        shutil.copytree(it, f"{WORK}/tree/{it}")
    check_rust(f"{WORK}/tree")
    check_go(f"{WORK}/tree")
    check_python(f"{WORK}/tree")


def main():
    images = broken.images(1000)
    files = []
    for number, image in enumerate(images):
        files.append(f"{WORK}/{number}.img")
        with open(files[-1], "wb") as file:
            file.write(image)
    check_symbols()
    check_headers()
    check_faults()
    check_names()
    check_counts()
    check_calls()
    check_signatures()
    check_peer_signatures()
    check_programs(["examples/signed.itb", *files])
    compare(images)
    check_checks(images)
    check_bindings()
    print(f"{passed} passed, {len(failed)} failed")
    return 1 if failed else 0


with tempfile.TemporaryDirectory() as WORK:
    sys.exit(main())
