#!/usr/bin/env python3
"""arm64_test.py FOLDER: tests what was made for 64-bit ARM in FOLDER/aarch64, under qemu, beside
what was made for x86-64 in FOLDER/x86_64 (release.py): the C calls of both programs; both programs
where a folder without a C library is the root directory, if this user may chroot; all command
lines, for ARM but for those that limit memory, stack or open files, which are named; listings,
reports, maps and facts of 1000 images, and the images that both make; the library for C, by its
report on each image. The last line is 'N passed, M failed'."""
import concurrent.futures
import glob
import os
import shlex
import shutil
import subprocess
import sys
import tempfile

import broken
import kit
import test

QEMU = shutil.which("qemu-aarch64-static")
EPOCH = {"SOURCE_DATE_EPOCH": "1700000000"}
WRAPPER = '#!/bin/sh\nexec {qemu} -0 "$0" {program} "$@"\n'
# Where qemu finds the shared C library.
SYSROOT = "/usr/aarch64-linux-gnu"
FLAGS = ("-std=c11", "-O2", "-Wall", "-Wextra", "-Werror")
# Under a limit of the address space of this many bytes, a test requests 2 GiB.
SPACE = 1_000_000_000
# What is run where there is no C library, in a copy of examples/.
ALONE = (
    "--version", "dumpimage -l kernel.itb", "verify kernel.itb", "check --strict --need sha256 kernel.itb", "map kernel.itb",
    "info kernel.itb", "unpack kernel.itb", "mkimage -E -f kernel.its made.itb", "dumpimage -o payload made.itb", "verify abc-kernel.img",
    "mkimage -A arm64 -O linux -T kernel -C none -n n -d abc.bin made.img",
)  # fmt: skip
COMMANDS = (["dumpimage", "-l"], ["verify"], ["map"], ["info"], ["check", "--json"], ["check", "--strict", "--need", "sha256"])
passed, failed = 0, 0


def case(name, is_right):
    global passed, failed
    passed, failed = passed + is_right, failed + (not is_right)
    if not is_right and failed <= 20:
        print(f"{name}: not the same, or not as it should be", flush=True)


def result_of(words, **how):
    """Runs a command. Returns its status and what it printed."""
    ended = subprocess.run(words, capture_output=True, **how)
    return ended.returncode, ended.stdout, ended.stderr


class Machine:
    """A machine: the folder of its programs, its compiler, and the words that run a program."""

    def __init__(self, folder, tools, runner):
        self.folder, self.compiler, self.runner = os.path.abspath(folder), f"{tools}gcc", runner

    def compiled(self, made, *words):
        """Compiles a C program. Returns the words that run it."""
        ended = subprocess.run([self.compiler, *FLAGS, "-Iinclude", "-o", made, *words])
        case(f"{self.compiler} {' '.join(words)}", ended.returncode == 0)
        return [*self.runner, made]

    def ran(self, words, folder=None):
        """Runs the program in a folder. Returns its status and what it printed."""
        return result_of([*self.runner, f"{self.folder}/uimg", *words], cwd=folder)

    def ran_alone(self, words, folder):
        """Runs a copy of the program with a folder as root directory, which has that copy, and
        what runs it, in bin/. Returns its status and what it printed."""
        paths = [f"/bin/{os.path.basename(it)}" for it in (*self.runner[:1], "uimg")]
        return result_of([*paths, *words], cwd=folder, env=EPOCH, preexec_fn=lambda: os.chroot(folder))


def test_calls(machine, room):
    """The C calls of the program: without arguments, with empty ones, 100,000, and one of 128 KiB;
    without an environment, and with a large one; if memory is refused. Under qemu neither the list
    of arguments can be empty nor memory be limited."""
    words = machine.compiled(f"{room}/calls", "-static", "library/program.c", "library/program_test.c")
    for count, more in ((1, []), (3, ["", ""]), (100_001, ["x"] * 100_000), (2, ["x" * (2**17 - 1)])):
        case(f"{count} arguments", result_of([*words, *more]) == (0, b"%d\n" % count, b""))
    for environment in ({}, {"A": "", "B": "x" * (2**17 - 3)}):
        case("environment", result_of([*words, "x"], env=environment)[0] == 0)
    if not machine.runner:
        case("an empty list of arguments", result_of([*words, "exec"]) in ((0, b"0\n", b""), (0, b"1\n", b"")))
        case("refused memory", result_of(["prlimit", f"--as={SPACE}", *words, "memory"])[0] == 0)


def files_in(folder):
    """Returns the files in a folder and what they hold."""
    names = [it for it in os.listdir(folder) if os.path.isfile(f"{folder}/{it}")]
    return {it: open(f"{folder}/{it}", "rb").read() for it in names}


def test_alone(machine, room):
    """The program where there is no C library and no other file of a system, beside what it does
    and makes here."""
    here, alone = (f"{room}/{machine.compiler}-{it}" for it in ("here", "alone"))
    for folder in (here, alone):
        shutil.copytree("examples", folder)
        os.mkdir(f"{folder}/bin")
    for it in (*machine.runner[:1], f"{machine.folder}/uimg"):
        shutil.copy2(it, f"{alone}/bin")
    for it in ALONE:
        case(f"alone: uimg {it}", machine.ran(it.split(), here) == machine.ran_alone(it.split(), alone))
    case("what it made alone", files_in(here) == files_in(alone) and "made.img" in files_in(here))


def may_chroot():
    try:
        subprocess.run(["true"], preexec_fn=lambda: os.chroot("/"), check=True)
    except subprocess.SubprocessError:
        return False
    return True


def play(words):
    """All command lines, by play.py with these words before their files."""
    global passed, failed
    played = subprocess.run(["scripts/play.py", *words, *test.PLAYED], stdout=subprocess.PIPE, text=True)
    *lines, count = played.stdout.splitlines()
    print("\n".join(lines), flush=True)
    passed, failed = passed + int(count.split()[0]), failed + int(count.split()[2])


def play_both(x86, arm, room):
    os.mkdir(f"{room}/bin")
    with open(f"{room}/bin/uimg", "w", encoding="utf-8") as file:
        file.write(WRAPPER.format(qemu=QEMU, program=shlex.quote(f"{arm.folder}/uimg")))
    os.chmod(f"{room}/bin/uimg", 0o755)
    play([f"{x86.folder}/uimg"])
    play(["--tried", f"{room}/bin/uimg"])


def compare(x86, arm, files):
    """What both programs print of images, and end with."""
    jobs = [(words, path) for path in files for words in COMMANDS]
    with concurrent.futures.ThreadPoolExecutor(kit.processors()) as pool:
        for (words, path), is_same in zip(jobs, pool.map(lambda job: x86.ran([*job[0], job[1]]) == arm.ran([*job[0], job[1]]), jobs)):
            case(f"{' '.join(words)} {os.path.basename(path)}", is_same)


def compare_images(x86, arm, room):
    """The images that both programs make."""
    builds = [["-f", "kernel.its"], ["-E", "-f", "kernel.its"], ["-E", "-p", "1000", "-f", "kernel.its"]]
    builds += [["-T", kind, "-A", "arm64", "-O", "linux", "-C", "none", "-n", "n", "-d", parts] for kind, parts in (("kernel", "abc.bin"), ("multi", "abc.bin:kernel.itb"))]
    for number, words in enumerate(builds):
        both = [it.ran(["mkimage", *words, f"{room}/{name}-{number}"], "examples") for name, it in (("x86", x86), ("arm", arm))]
        images = [open(f"{room}/{name}-{number}", "rb").read() for name in ("x86", "arm") if os.path.exists(f"{room}/{name}-{number}")]
        case(f"mkimage {' '.join(words)}", both[0] == both[1] and both[0][0] == 0 and len(images) == 2 and images[0] == images[1])


def compare_library(x86, arm, files, room):
    """The reports of the library: over malloc, over a block, and shared. What the example program
    unpacks with it."""
    for library, *flags in (("libuimg.a", "-static"), ("libuimg_block.a", "-static", "-DOVER_A_BLOCK"), ("libuimg.so",)):
        reports = []
        for machine in (x86, arm):
            linked = [f"{machine.folder}/lib/{library}", f"-Wl,-rpath,{machine.folder}/lib"]
            words = machine.compiled(f"{room}/report", *flags, "library/report.c", *linked)
            reports.append(result_of([*words, *files]))
        case(f"reports of {library}", reports[0] == reports[1] and reports[0][0] == 0 and reports[0][1] != b"")
    programs = [it.compiled(f"{room}/{it.compiler}-unpack", "-static", "examples/c/unpack.c", f"{it.folder}/lib/libuimg.a") for it in (x86, arm)]
    for path in sorted(glob.glob("examples/*.i[tm][bg]")):
        for position in "012":
            case(f"unpack {path} {position}", result_of([*programs[0], path, position]) == result_of([*programs[1], path, position]))


def main(folder):
    os.environ |= EPOCH
    x86, arm = Machine(f"{folder}/x86_64", "", []), Machine(f"{folder}/aarch64", "aarch64-linux-gnu-", [QEMU, "-L", SYSROOT])
    with tempfile.TemporaryDirectory() as room:
        files = []
        for number, image in enumerate(broken.images(1000)):
            files.append(f"{room}/{number}.img")
            with open(files[-1], "wb") as file:
                file.write(image)
        for machine in (x86, arm):
            test_calls(machine, room)
            if may_chroot():
                test_alone(machine, room)
        if not may_chroot():
            print("the programs alone in a root directory: left out, since this user may not chroot", flush=True)
        compare_images(x86, arm, room)
        compare_library(x86, arm, files, room)
        compare(x86, arm, files)
        play_both(x86, arm, room)
    print(f"{passed} passed, {failed} failed")
    return 1 if failed else 0


if __name__ == "__main__":
    sys.exit(main(sys.argv[1]))
