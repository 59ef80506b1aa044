#!/usr/bin/env python3
"""Compares uimg with the real mkimage, dumpimage and dtc: peers.py UIMG UIMG_PEERS

It needs u-boot-tools and device-tree-compiler, and installs nothing. It prints rows of the table of
docs/PEERS.md, and the first differences:

  legacy images read   mkimage builds images of each type with seven sets of codes, three names, three
                       times and three pairs of addresses. The listings are compared line by line,
                       without mkimage's `Offset` lines for scripts. uimg verifies each image. Each
                       part that uimg extracts is compared with the input and, except for scripts,
                       with what dumpimage extracts.
  legacy images built  each architecture, system and compression of the tables for each type, with
                       varying names, times, addresses, numbers of parts and data. Both build it with
                       the same arguments and SOURCE_DATE_EPOCH. The images are compared byte for
                       byte, the listings line by line; mkimage and dumpimage list uimg's image. For
                       the system tee the addresses and the header's CRC are not compared, since
                       mkimage takes them from an OP-TEE header that it expects in the data.
  FIT images read      60 FITs from a seed (fit.py), each built by mkimage with its payloads inside,
                       after the tree, and from an offset on. The listings are compared line by line
                       where both print the same fact, uimg verifies each hash node, each extracted
                       payload is compared with the input, and with the first or last byte of one
                       payload changed `uimg verify` must print `bad` for its hash nodes only.
  FIT images built     60 more, built by both from the same source (fit_builds.py)
  sources              image-tree sources from seeds, compiled by uimg_peers and dtc: those of the
                       profile of `uimg mkimage` (its.py), and those in dtc's whole language (dts.py)
  command lines        of mkimage and dumpimage, by their names (old_names.py, dtc_rows.py)
  signed FIT images    by the wrapper, and by mkimage only (signed.py)
  README's example     dumpimage lists and extracts the changed image with status 0
"""

import itertools
import os
import shutil
import subprocess
import sys
import tempfile

import fit
import fit_builds
import dts
import its
import old_names
import signed
from counting import Count, heading, output, row

SINGLE = ["standalone", "kernel", "ramdisk", "firmware", "filesystem", "kernel_noload"]
PARTS = ["multi", "script"]
NAMES = ["", "kernel 6.1", "0123456789012345678901234567890123456789"]
TIMES = ["0", "1700000000", "4294967295"]
ADDRESSES = [("0", "0"), ("80000", "80040"), ("fffffff0", "ffffffff")]
ARCHS = "arm x86 mips mips64 ppc powerpc sandbox arm64 x86_64 riscv".split()
SYSTEMS = (
    "netbsd linux vxworks qnx u-boot rtems plan9 arm-trusted-firmware tee opensbi efi".split()
)
COMPRESSIONS = "none gzip bzip2 lzma lzo lz4 zstd".split()
ENTRIES = [(), ("-a", "80000"), ("-a", "0x1000", "-e", "1040"), ("-e", "fffffff0")]
PLACEMENTS = [
    ("inside", []),
    ("after the tree, `-E`", ["-E"]),
    ("from an offset on, `-E -p`", ["-E", "-p", "8000"]),
]
DATA = [b"abc", b"defg", b"hijkl" * 2000, b"\0", bytes(range(256)) * 33, b"ab"]
CODES = [
    ("arm", "linux", "none"),
    ("arm64", "linux", "gzip"),
    ("mips", "netbsd", "bzip2"),
    ("ppc", "vxworks", "lzma"),
    ("riscv", "opensbi", "lz4"),
    ("x86_64", "u-boot", "zstd"),
    ("sandbox", "efi", "lzo"),
]


def write_parts(folder, parts):
    """Writes parts to files of their own, and returns the word of -d."""
    paths = []
    for number, part in enumerate(parts):
        path = os.path.join(folder, f"part{number}")
        with open(path, "wb") as file:
            file.write(part)
        paths.append(path)
    return ":".join(paths)


def real_image(folder, image, kind, code, name, time, addresses, parts):
    """Makes an image with the real mkimage."""
    arch, system, compression = code
    load, entry = addresses
    command = ["mkimage", "-A", arch, "-O", system, "-T", kind, "-C", compression]
    command += ["-a", load, "-e", entry, "-n", name, "-d", write_parts(folder, parts), image]
    environment = dict(os.environ, SOURCE_DATE_EPOCH=time, TZ="UTC")
    subprocess.run(command, env=environment, check=True, capture_output=True)


def listing(text):
    """The lines of a listing that both tools print: mkimage's `Offset` lines are left out."""
    return [line for line in text.split(b"\n") if b"Offset = " not in line]


def compare(count, uimg, folder, kind, code, name, time, addresses, parts):
    image = os.path.join(folder, "u.img")
    real_image(folder, image, kind, code, name, time, addresses, parts)
    count.images += 1
    case = f"{kind} {'/'.join(code)} {name!r} {time} {addresses}"
    _, real = output(["mkimage", "-l", image])
    status, own = output([uimg, "dumpimage", "-l", image])
    count.expect(f"listing of {case}", (status, listing(own)), (0, listing(real)))
    report = (0, b"header crc32 ok\ndata crc32 ok\n")
    count.expect(f"report on {case}", output([uimg, "verify", image]), report)
    for position, part in enumerate(parts):
        payload = os.path.join(folder, "payload")
        words = ["dumpimage", "-p", str(position), "-o", payload, image]
        status, _ = output([uimg, *words])
        with open(payload, "rb") as file:
            count.expect(f"part {position} of {case}", (status, file.read()), (0, part))
        # The real dumpimage needs a type, and takes a script for a single file.
        if kind != "script":
            os.remove(payload)
            status, _ = output(["dumpimage", "-T", kind, *words[1:]])
            with open(payload, "rb") as file:
                there = (status, file.read())
            count.expect(f"dumpimage's part {position} of {case}", there, (0, part))


def built(tool, words, time):
    """The status and output of a mkimage, and the image that it made."""
    environment = dict(os.environ, SOURCE_DATE_EPOCH=time, TZ="UTC")
    done = subprocess.run([*tool, *words], env=environment, capture_output=True)
    with open(words[-1], "rb") as file:
        return done.returncode, listing(done.stdout), file.read()


def without_addresses(answer):
    """The same without load address, entry point and header CRC.

    For a TEE the real mkimage takes both addresses from the OP-TEE header that it expects at the
    front of the file, even if there is none, and ignores -a and -e.
    """
    status, lines, image = answer
    lines = [line for line in lines if not line.startswith((b"Load Address", b"Entry Point"))]
    return status, lines, image[:4] + image[8:16] + image[24:]


def compare_built(count, uimg, folder, kind, codes, words, time):
    """Builds one image with both, and lists it with the real tools."""
    count.images += 1
    own, real = (os.path.join(folder, name) for name in ("own.img", "real.img"))
    arch, system, compression = codes
    words = ["-A", arch, "-O", system, "-T", kind, "-C", compression, *words]
    here = built([uimg, "mkimage"], [*words, own], time)
    there = built(["mkimage"], [*words, real], time)
    same = without_addresses if system == "tee" else lambda answer: answer
    count.expect(f"image by {' '.join(words)} at {time}", same(here), same(there))
    for tool in (["mkimage", "-l"], ["dumpimage", "-l"]):
        status, text = output([*tool, own])
        count.expect(f"{tool[0]} on {' '.join(words)}", (status, listing(text)), (0, here[1]))
    os.remove(own)
    os.remove(real)


def compare_builds(uimg, kind):
    """Every architecture, operating system and compression; the other options take turns."""
    count = Count()
    names, times, entries = (itertools.cycle(values) for values in (NAMES, TIMES, ENTRIES))
    counts = itertools.cycle([1, 2, 3, 6, 5]) if kind in PARTS else itertools.cycle([1])
    firsts = itertools.cycle(range(len(DATA)))
    with tempfile.TemporaryDirectory() as folder:
        for codes in itertools.product(ARCHS, SYSTEMS, COMPRESSIONS):
            first, number = next(firsts), next(counts)
            parts = (DATA[first:] + DATA[:first])[:number]
            words = [*next(entries), "-n", next(names), "-d", write_parts(folder, parts)]
            compare_built(count, uimg, folder, kind, codes, words, next(times))
    return count


def compare_reading(uimg, kind):
    """Images that the real mkimage made: listed, verified and unpacked."""
    count = Count()
    parts = [b"abc"] if kind in SINGLE else [b"abc", b"defg", b"hijkl" * 2000]
    with tempfile.TemporaryDirectory() as folder:
        for case in itertools.product(CODES, NAMES, TIMES, ADDRESSES):
            compare(count, uimg, folder, kind, *case, parts)
    return count


def own_blob(own, folder, text):
    """The blob that uimg makes of a source, or None if it refuses the source."""
    source = os.path.join(folder, "source.its")
    with open(source, "w") as file:
        file.write(text)
    status, blob = output([own, "compile", source])
    return blob if status == 0 else None


def compare_source(count, own, folder, name, text):
    """The tree that dtc reads in the blobs of both; dtc's blob is indexed, with all its nodes."""
    count.images += 1
    real = its.blob(folder, text)
    tree = its.tree(folder, real)
    blob = own_blob(own, folder, text)
    count.expect(f"tree of {name}", blob and its.tree(folder, blob), tree)
    path = os.path.join(folder, "real.dtb")
    with open(path, "wb") as file:
        file.write(real)
    nodes = sum(line.endswith(b"{") for line in tree.split(b"\n"))
    count.expect(f"index of {name}", output([own, "index", path]), (0, b"%d nodes\n" % nodes))


def compare_sources(own):
    """Sources that both compile, and sources that one or both refuse."""
    same, refused = Count(), Count()
    with tempfile.TemporaryDirectory() as folder:
        its.files(folder)
        for name, text in its.sources(1, 300) + its.examples():
            compare_source(same, own, folder, name, text)
        for name, text in its.refused():
            refused.images += 1
            here = (own_blob(own, folder, text) is None, its.blob(folder, text) is None)
            named = (name not in its.DTC_OWN, name not in its.OUR_OWN)
            refused.expect(f"refusal of {name}", here, named)
    return same, refused


def print_sources(own):
    """Prints the table of the sources. Returns the differences."""
    if shutil.which("dtc") is None:
        print("\npeers: dtc is not installed (Debian: device-tree-compiler); no source was compared")
        return []
    same, refused = compare_sources(own)
    row("sources of the profile, compiled by both", same.images, len(same.differences))
    row("sources that one of both refuses", refused.images, len(refused.differences), "each with its reason in `its.py`")
    return same.differences + refused.differences


def print_whole_sources(own):
    """Prints the row of the sources in the whole language of dtc. Returns the differences."""
    if shutil.which("dtc") is None:
        return []
    count, compiled = Count(), 0
    with tempfile.TemporaryDirectory() as folder:
        dts.files(folder)
        for name, text, included in dts.sources(1, 5000):
            dts.write(folder, text, included)
            count.images += 1
            found, both = dts.difference(folder, own, "source.dts")
            count.expect(f"whole language, {name}", found, None)
            compiled += both
    row("sources in dtc's whole language", count.images, len(count.differences), f"{compiled} are compiled by both")
    return count.differences


def compare_listing(count, uimg, path, case, given):
    """The listing of a FIT by both, image by image, as far as both print the same facts."""
    status, own = output([uimg, "dumpimage", "-l", path])
    _, real = output(["dumpimage", "-l", path])
    own, real = fit.listed(given, fit.sections(own)), fit.sections(real)
    count.expect(f"listing of {case}", (status, len(own)), (0, len(real)))
    for here, there in zip(own, real):
        count.expect(f"lines of {case}", fit.differs(here, there), [])


def compare_payloads(count, uimg, folder, path, case, images):
    """Each payload as uimg and dumpimage unpack it, and the original bytes."""
    for position, image in enumerate(images):
        for tool in ([uimg, "dumpimage"], ["dumpimage"]):
            out = os.path.join(folder, "payload")
            status, _ = output([*tool, "-T", "flat_dt", "-p", str(position), "-o", out, path])
            with open(out, "rb") as file:
                same = file.read() == image.payload
            count.expect(f"payload {position} of {case} by {tool[-1]}", (status, same), (0, True))
            os.remove(out)


def compare_changed(count, uimg, folder, path, case, given):
    """The report on a FIT with one changed byte in one payload."""
    with open(path, "rb") as file:
        whole = file.read()
    changed = os.path.join(folder, "changed.itb")
    for number, image in enumerate(given.images):
        at = whole.index(image.payload) + (0, len(image.payload) - 1)[number % 2]
        with open(changed, "wb") as file:
            file.write(whole[:at] + bytes([whole[at] ^ 1]) + whole[at + 1 :])
        there = fit.report(given, image)
        count.expect(f"report on {case}, payload {number} changed", output([uimg, "verify", changed]), there)


def compare_fits(uimg, placement):
    """FIT images that the real mkimage made: listed, verified, unpacked, and verified after a
    change."""
    count = Count()
    with tempfile.TemporaryDirectory() as folder:
        for number, given in enumerate(fit.fits(7, 60)):
            count.images += len(given.images)
            path = fit.build(folder, given, placement)
            case = f"FIT {number} by mkimage {' '.join(placement)}"
            compare_listing(count, uimg, path, case, given)
            count.expect(f"report on {case}", output([uimg, "verify", path]), fit.report(given))
            compare_payloads(count, uimg, folder, path, case, given.images)
            compare_changed(count, uimg, folder, path, case, given)
    return count


def print_fits(uimg):
    """Prints the tables of the FIT images. Returns the differences."""
    if shutil.which("dtc") is None:
        print("\npeers: dtc is not installed (Debian: device-tree-compiler); no FIT was compared")
        return []
    differences = []
    for name, placement in PLACEMENTS:
        read, made = compare_fits(uimg, placement), fit_builds.compare_builds(uimg, placement)
        row(f"payloads of 60 FIT images read, {name}", read.images, len(read.differences))
        row(f"payloads of 60 FIT images built by both, {name}", made.images, len(made.differences))
        differences += read.differences + made.differences
    return differences


def print_lines(uimg):
    """Prints the table of command lines with the old names."""
    count, known = old_names.compare(uimg)
    row("command lines by the old names", count.images, len(count.differences), f"{known} differ for a reason in `old_names.py`")
    return count.differences


def print_signed(uimg):
    """Prints the table of images that the wrapper signs."""
    if shutil.which("openssl") is None or shutil.which("dtc") is None:
        print("\npeers: openssl or dtc is not installed; no signed image was compared")
        return []
    count = signed.compare(uimg)
    row("FIT images signed by the wrapper", count.images, len(count.differences))
    return count.differences


def print_example(uimg):
    """Prints the row of README's example: a FIT image with a changed byte of its payload, which the
    real dumpimage lists and extracts with status 0. Returns the differences."""
    count = Count()
    count.images += 1
    source = os.path.join(os.path.dirname(os.path.abspath(__file__)), "..", "examples", "kernel.its")
    with tempfile.TemporaryDirectory() as folder:
        image, payload = (os.path.join(folder, name) for name in ("changed.itb", "payload"))
        status, _ = output([uimg, "mkimage", "-f", source, image])
        with open(image, "r+b") as file:
            file.seek(168)
            file.write(b"X")
        found = [status, output([uimg, "verify", image])[0], output(["dumpimage", "-l", image])[0]]
        found += [output(["dumpimage", "-T", "flat_dt", "-p", "0", "-o", payload, image])[0]]
        with open(payload, "rb") as file:
            count.expect("README's example", (found, file.read()), ([0, 1, 0, 0], b"Xbc"))
    row("README's example", count.images, len(count.differences))
    return count.differences


def main():
    uimg, own = (os.path.abspath(path) for path in sys.argv[1:3])
    if shutil.which("mkimage") is None:
        print("peers: mkimage is not installed (Debian: u-boot-tools); nothing was compared")
        return
    heading()
    differences = []
    for what, compare_type in (("read", compare_reading), ("built by both", compare_builds)):
        counts = [compare_type(uimg, kind) for kind in SINGLE + PARTS]
        found = [it for count in counts for it in count.differences]
        number = sum(count.images for count in counts)
        row(f"legacy images {what}", number, len(found), f"{number // len(counts)} of each of {len(counts)} types")
        differences += found
    differences += print_fits(uimg)
    differences += print_sources(own)
    differences += print_whole_sources(own)
    differences += print_lines(uimg)
    differences += print_signed(uimg)
    differences += print_example(uimg)
    for what, here, there in differences[:10]:
        print(f"\n{what}\n  uimg: {str(here)[:400]}\n  peer: {str(there)[:400]}")
    sys.exit(1 if differences else 0)


main()
