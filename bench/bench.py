#!/usr/bin/env python3
"""bench.py [PROGRAM]: times uimg beside mkimage, dumpimage and, if `make signatures` built it,
fit_check_sign, and prints bench/TABLE.md.

PROGRAM is by default that of the archive for this machine in release/, or else bin/uimg. The
commands of a row take turns, RUNS times each. The table has the median of their times, and the peak
resident memory of one more run. BENCH_RUNS and BENCH_MIB, the size of a payload, are for tries.

The files are in the folder that BENCH_DIR names, or else in /dev/shm if it exists: on a disk the
noise of the writes would hide everything else."""

import datetime
import os
import shutil
import statistics
import struct
import subprocess
import sys
import tempfile
import time
import zlib

import fits
import released
import shapes
import signed_fits

RUNS = int(os.environ.get("BENCH_RUNS", "5"))
# The bytes of a payload, and the number of images that are checked.
SIZE = int(os.environ.get("BENCH_MIB", "512")) * 1024 * 1024
CHECKED = 10000
# A check or a verification may find something.
FINDS = ("check", "verify")


class Row:
    """A task, uimg's command, the peer's name and command. Where a peer runs once for each file, its
    memory is not measured."""

    def __init__(self, task, uimg, peer, command, is_measured=True):
        self.task, self.uimg, self.peer, self.command, self.is_measured = task, uimg, peer, command, is_measured


def make_file(path):
    """Fills a file with bytes that do not repeat in short periods."""
    state = 1
    block = bytearray()
    while len(block) < 1024 * 1024:
        state = (state * 6364136223846793005 + 1442695040888963407) % 2**64
        block += state.to_bytes(8, "little")
    with open(path, "wb") as file:
        for _ in range(SIZE // len(block)):
            file.write(block)


def make_image(payload, image):
    """Makes a legacy image of a payload: a kernel for arm64 Linux, not compressed."""
    with open(payload, "rb") as file:
        data = file.read()
    fields = [0x27051956, 0, 1700000000, len(data), 0x80000, 0x80000, zlib.crc32(data)]
    codes = bytes([5, 22, 2, 0]) + b"bench".ljust(32, b"\0")
    fields[1] = zlib.crc32(struct.pack(">7I", *fields) + codes)
    with open(image, "wb") as file:
        file.write(struct.pack(">7I", *fields) + codes + data)


def seconds(command):
    """Returns the wall time of a command in seconds."""
    begin = time.monotonic()
    status = subprocess.run(command, stdout=subprocess.DEVNULL, stderr=subprocess.DEVNULL).returncode
    spent = time.monotonic() - begin
    if status > any(it in command for it in FINDS):
        sys.exit(f"bench: {' '.join(command)} failed")
    return spent


def peak_memory(command):
    """Returns the peak resident memory of a command in KiB, in a run of its own."""
    peak = 0
    child = subprocess.Popen(command, stdout=subprocess.DEVNULL, stderr=subprocess.DEVNULL)
    while child.poll() is None:
        with open(f"/proc/{child.pid}/status", encoding="ascii") as status:
            for line in status:
                if line.startswith("VmHWM:"):
                    peak = int(line.split()[1])
        time.sleep(0.0005)
    return peak


def legacy_rows(uimg, folder, payload):
    """Yields the rows of legacy images."""
    image, copy = (os.path.join(folder, name) for name in ("payload.img", "copy"))
    make_image(payload, image)
    listing = ["dumpimage", "-l", image]
    yield Row("list a legacy image", [uimg, *listing], "`dumpimage -l`", listing)
    yield Row("verify a legacy image", [uimg, "verify", image], "`dumpimage -l`", listing)
    extract = ["dumpimage", "-T", "kernel", "-p", "0", "-o", copy, image]
    yield Row("extract its payload", [uimg, *extract], "`dumpimage -o`", extract)
    build = ["mkimage", "-A", "arm64", "-C", "none", "-n", "bench", "-d", payload, copy]
    yield Row("build a legacy image", [uimg, *build], "`mkimage -d`", build)
    os.remove(image)


def fit_rows(uimg, folder, payload):
    """Yields the rows of FIT images: the payload follows the tree, with a SHA-256."""
    source, image, copy = (os.path.join(folder, name) for name in ("fit.its", "fit.itb", "copy"))
    fits.write_source(source, [fits.source_image(0, fits.included(payload), ["sha256"])])
    subprocess.run([uimg, "mkimage", "-E", "-f", source, image], stdout=subprocess.DEVNULL, check=True)
    extract = ["dumpimage", "-T", "flat_dt", "-p", "0", "-o", copy, image]
    yield Row("extract from a FIT image", [uimg, *extract], "`dumpimage -o`", extract)
    build = ["mkimage", "-E", "-f", source, copy]
    yield Row("build a FIT image, SHA-256", [uimg, *build], "`mkimage -f`", build)
    yield Row("verify a FIT image, SHA-256", [uimg, "verify", image], "`sha256sum` of the payload", ["sha256sum", payload])


def check_row(uimg, folder):
    """Returns the row of many small FIT images."""
    names, data = os.path.join(folder, "names"), bytes(100)
    image = fits.fit([fits.image("kernel", fits.prop("data", data), [("crc32", zlib.crc32(data).to_bytes(4, "big"))])])
    paths = [os.path.join(folder, f"{number}.itb") for number in range(CHECKED)]
    for path in paths:
        with open(path, "wb") as file:
            file.write(image)
    with open(names, "w", encoding="ascii") as file:
        file.write("\n".join(paths))
    each = ["xargs", "-n", "1", "-a", names, "dumpimage", "-l"]
    return Row(f"check {CHECKED:,} FIT images", [uimg, "check", "--files-from", names], "`dumpimage -l` of each", each, False)


def shape_rows(uimg, folder):
    """Yields the rows of costly files."""
    called = os.path.join(folder, "mkimage")
    os.symlink(os.path.abspath(uimg), called)
    commands = {"list": [uimg, "dumpimage", "-l"], "verify": [uimg, "verify"], "check": [uimg, "check"]}
    commands["make"], commands["make -E"] = [called, "-q", "-f"], [called, "-q", "-E", "-f"]
    for command, shape, *files in shapes.shapes():
        paths = [os.path.join(folder, name) for name in ("costly", "ordinary")]
        for path, parts in zip(paths, files):
            shapes.write(path, parts)
        made = [os.path.join(folder, "made")] if command.startswith("make") else []
        costly, ordinary = ([*commands[command], path, *made] for path in paths)
        yield Row(f"{command} {shape}", costly, "an ordinary file", ordinary)


def memory(peak):
    """Spells a number of KiB as MiB."""
    return f"{peak / 1024:.1f}" if peak else ""


def print_row(row):
    """Measures a row and prints it."""
    both = [[], []]
    for _ in range(RUNS):
        for command, times in zip((row.uimg, row.command), both):
            times.append(seconds(command))
    own, other = (statistics.median(times) for times in both)
    peaks = memory(peak_memory(row.uimg)), memory(row.is_measured and peak_memory(row.command))
    print(f"| {row.task} | {own:.3f} | {peaks[0]} | {row.peer} | {other:.3f} | {peaks[1]} | {own / other:.2g} |", flush=True)


def print_heading(title, peer):
    """Prints the heading of a table."""
    print(f"\n| {title} | uimg, s | MiB | {peer} | s | MiB | time, ratio |\n|---|--:|--:|---|--:|--:|--:|")


def machine():
    """Returns the processor's name and the number of processors."""
    with open("/proc/cpuinfo", encoding="ascii") as file:
        name = next((line.partition(": ")[2].strip() for line in file if line.startswith("model name")), "unknown")
    return f"{name.replace('(R)', '')}, {os.cpu_count()} processors"


def said(*command):
    """Returns the last word that a command prints."""
    return (subprocess.run(command, capture_output=True, text=True).stdout.split() or ["unknown"])[-1]


def main():
    memory_folder = "/dev/shm" if os.path.isdir("/dev/shm") else None
    with tempfile.TemporaryDirectory(dir=os.environ.get("BENCH_DIR", memory_folder)) as folder:
        uimg, commit, what = released.chosen(sys.argv[1:], folder)
        lacking = [it for it in ("mkimage", "dumpimage", "dtc", "sha256sum", "xargs") if shutil.which(it) is None]
        if lacking:
            sys.exit(f"bench: not installed: {', '.join(lacking)}")
        payload = os.path.join(folder, "payload.bin")
        print("# Speed and memory\n")
        print(f"`make bench` on {datetime.date.today()}: {what}, commit {commit}, mkimage {said('mkimage', '-V')},")
        print(f"{machine()}, files in {os.path.dirname(folder)}. Medians of {RUNS} runs; memory is the")
        print(f"peak of one more. Payloads have {SIZE // 1024 // 1024} MiB. Less is better.\n\n![chart](chart.svg)")
        make_file(payload)
        print_heading("Task", "peer")
        for row in legacy_rows(uimg, folder, payload):
            print_row(row)
        for row in fit_rows(uimg, folder, payload):
            print_row(row)
        os.remove(payload)
        print_row(check_row(uimg, folder))
        print("\n`dumpimage -l` compares the checksums of a legacy image, and no hash of a FIT image.")
        print("\nSigned FIT images, each configuration checked by its key, beside U-Boot's tool:")
        print_heading("Task", "peer")
        for row in signed_fits.rows(Row, uimg, folder):
            print_row(row)
        print("\nFiles that are made to cost much, each beside an ordinary file of the same length:")
        print_heading("Task", "beside")
        for row in shape_rows(uimg, folder):
            print_row(row)


if __name__ == "__main__":
    main()
