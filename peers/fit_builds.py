"""FIT images that uimg and the real mkimage build from the same sources.

The trees are compared, with properties and nodes sorted by dtc (mkimage puts the cells of a payload
after the blob elsewhere, and its own properties last or first). Of uimg's image the real mkimage
and dumpimage print the same listing as of mkimage's, dumpimage unpacks each payload to its original
bytes, fdtget reads each hash's value, which is that of the digest tools, and uimg verifies it.
"""

import os
import subprocess
import tempfile
import zlib

import fit
from counting import Count, output

TIME = "1700000000"


def made(tool, folder, placement, image):
    """The status and output of a mkimage that makes an image of the source in a folder."""
    environment = dict(os.environ, SOURCE_DATE_EPOCH=TIME, TZ="UTC")
    command = [*tool, *placement, "-f", "fit.its", image]
    done = subprocess.run(command, cwd=folder, env=environment, capture_output=True)
    return done.returncode, done.stdout


def tree(image):
    """The tree of an image as dtc reads it, with nodes and properties sorted by name."""
    return output(["dtc", "-q", "-s", "-I", "dtb", "-O", "dts", image])


def digest(path, algo):
    """The digest of a file by the tools of coreutils, and CRC-32 by zlib."""
    if algo == "crc32":
        with open(path, "rb") as file:
            return f"{zlib.crc32(file.read()):08x}"
    return output([f"{algo}sum", path])[1].split()[0].decode()


def value(image, name, node):
    """The value of a hash node, as fdtget reads it."""
    status, text = output(["fdtget", "-t", "bx", image, f"/images/{name}/{node}", "value"])
    return status, "".join(f"{int(byte, 16):02x}" for byte in text.split())


def compare_hashes(count, folder, own, case, given):
    """The value of each hash node, and the digest of its image's file."""
    for image in given.images:
        path = os.path.join(folder, f"{image.name}.bin")
        for node, algo in image.hashes():
            there = (0, digest(path, algo))
            count.expect(f"{node} of {image.name} in {case}", value(own, image.name, node), there)


def compare_unpacked(count, folder, own, case, given):
    """The payloads of uimg's image, as the real dumpimage unpacks them."""
    out = os.path.join(folder, "payload")
    for position, image in enumerate(given.images):
        words = ["dumpimage", "-T", "flat_dt", "-p", str(position), "-o", out, own]
        status, _ = output(words)
        with open(out, "rb") as file:
            same = file.read() == image.payload
        count.expect(f"dumpimage's payload {position} of {case}", (status, same), (0, True))
        os.remove(out)


def loses_a_size(image, placement, given):
    """Whether an image lacks a data-size, which mkimage 2023.01 leaves out if its blob has no
    room."""
    words = ["fdtget", "-t", "x", image]
    sizes = [output([*words, f"/images/{one.name}", "data-size"])[0] for one in given.images]
    return placement != [] and any(sizes)


def compare_build(count, uimg, folder, placement, case, given):
    """One image that both build. One whose size mkimage lost is not compared."""
    real = fit.build(folder, given, placement)
    own = os.path.join(folder, "own.itb")
    count.images += len(given.images)
    answer = made([uimg, "mkimage"], folder, placement, "own.itb")
    count.expect(f"making of {case}", answer, output([uimg, "dumpimage", "-l", own]))
    if not loses_a_size(real, placement, given):
        count.expect(f"tree of {case}", tree(own), tree(real))
        for tool in ("mkimage", "dumpimage"):
            count.expect(f"{tool} on {case}", output([tool, "-l", own]), output([tool, "-l", real]))
    count.expect(f"report on {case}", output([uimg, "verify", own]), fit.report(given))
    compare_hashes(count, folder, own, case, given)
    compare_unpacked(count, folder, own, case, given)


def compare_builds(uimg, placement):
    """FIT images that both build, with one placement of the payloads."""
    count = Count()
    with tempfile.TemporaryDirectory() as folder:
        for number, given in enumerate(fit.fits(11, 60)):
            case = f"FIT {number} by mkimage {' '.join(placement)}"
            compare_build(count, uimg, folder, placement, case, given)
    return count
