#!/usr/bin/env python3
"""gate.py: the gate. It runs the tests, which need no proof (test.py). Then `rt ci` proves every
crate except those of tests, over what an earlier run on this machine kept; beside it the sentinels
(scripts/sentinels.txt), some of the wrong bodies, are tried, those of a crate once the crates below
it are proved. The command lines are played again with the program that `rt ci` built, and with a C
compiler the library for C is linked and tested, which counts as one; with a cross compiler and
qemu, program and library are tested for 64-bit ARM. What is left out for want of a tool has a line
at the end. The last line, 'N passed, M failed', counts all; the status is 0 if nothing failed.

It works on a copy of the tree without the crates of tests and the wrong bodies. `rt ci` would prove
each test function too, and try each wrong body with a check of the whole crate; wrong_bodies.py
proves only the functions that have one, several at once.

`rt ci` decides how many proofs run at once by an estimate of three times the memory of a proof.
Unless RT_JOBS is set, it is set to the number of processors that may be used, or fewer if memory
is short. As many wrong bodies are tried beside it, with the processors that it leaves idle."""
import glob
import os
import re
import shutil
import subprocess
import sys
import tempfile
import threading
import time

import kit
import lots
import test

# What the largest proof takes, in bytes, with some to spare.
MEMORY = 5_000_000_000
SENTINELS = "scripts/sentinels.txt"
PROGRAM = "crates/uimg/out/uimg"
# Where release.py takes what is compiled for x86-64 already.
MADE = "out/release/x86_64"
# What the tests for 64-bit ARM need.
ARM_TOOLS = ("gcc", "ld", "objcopy", "ar", "prlimit", "aarch64-linux-gnu-gcc", "qemu-aarch64-static")
# Built files are not copied, and the wrong bodies go to a folder of their own.
LEFT_OUT = shutil.ignore_patterns(".git", "out", "bin", "lib", "release", "__pycache__", "must-fail")
ASIDE = "wrong-bodies"
# A line that reports the end of a proof.
STEP = re.compile(r"rt: \w+(: its tests are)? (NOT )?(PROVED|proved)")

# What passes at least, with no tool but the kit and python3. With fewer, a part was cut short.
LEAST = 4500

# What is not tested for want of a tool, and why.
untested = []


def lanes():
    return str(max(1, min(kit.processors(), kit.free_memory() // MEMORY)))


def copy_to(room):
    """Copies the tree without the crates of tests, and the sentinels of each crate aside."""
    shutil.copytree(".", room, ignore=LEFT_OUT, dirs_exist_ok=True)
    tests = [it for it in os.listdir("crates") if test.has_tests(f"crates/{it}")]
    with open("crates.txt", encoding="utf-8") as file:
        lines = [it for it in file if it.partition(":")[0].partition("#")[0].strip() not in tests]
    with open(f"{room}/crates.txt", "w", encoding="utf-8") as file:
        file.writelines(lines)
    for it in tests:
        shutil.rmtree(f"{room}/crates/{it}")
    for name in sentinels():
        crate, edit = name.split("/")
        os.makedirs(f"{room}/{ASIDE}/{crate}", exist_ok=True)
        shutil.copy2(f"crates/{crate}/must-fail/{edit}.edit", f"{room}/{ASIDE}/{crate}")


def sentinels():
    """Returns the sentinels by their crates and names, as in uimg_base/drops-last-window."""
    with open(SENTINELS, encoding="utf-8") as file:
        return [it.partition(":")[0].strip() for it in file if it.strip() and not it.startswith("#")]


def counted(words, environment, told=None):
    """Runs a command, prints its output except its count, and passes on each line. Returns how
    many passed and failed."""
    passed, failed, begun = 0, 1, time.monotonic()
    with subprocess.Popen(words, env=environment, stdout=subprocess.PIPE, text=True, errors="replace") as running:
        for line in running.stdout:
            if told:
                told(line)
            count = re.fullmatch(r"(\d+) passed, (\d+) failed\n?", line)
            if count:
                passed, failed = int(count[1]), int(count[2])
            elif STEP.match(line):
                print(f"{kit.in_words(time.monotonic() - begun)}: {line}", end="", flush=True)
            else:
                print(line, end="", flush=True)
    if running.returncode and not failed:
        failed = 1
    print(f"{os.path.basename(words[0])}: {passed} passed, {failed} failed\n", flush=True)
    return passed, failed


def is_left_out(what, tools):
    """Returns whether one of these tools is missing, and notes what is left out then."""
    status, lines = test.run(["scripts/needs.sh", *tools])
    if status:
        untested.append(f"{what} was left out: {lines[-1]}")
    return status != 0


class Library(threading.Thread):
    """The archive of the library for C, compiled over the libraries of `rt ci`, linked, and
    tested beside the program."""

    def __init__(self):
        super().__init__()
        self.is_right, self.said = False, ""

    def run(self):
        """Runs the steps, up to the first that fails."""
        os.makedirs(MADE, exist_ok=True)
        (compile_it,) = kit.Crates().compilation("uimg_c", os.path.abspath(MADE))
        steps = (
            ("crates/uimg_c", compile_it),
            (".", ["scripts/link.sh", f"{MADE}/libuimg_c.a", "out/lib"]),
            (".", ["python3", "scripts/lib_test.py", PROGRAM, "out/lib"]),
        )
        for folder, words in steps:
            status, lines = test.run(words, folder)
            self.is_right, self.said = status == 0, "\n".join(lines[-24:])
            if status:
                return


def arm64():
    """Tests the program and the library for 64-bit ARM beside those for x86-64, compiled over the
    libraries of `rt ci`. If that did not keep the proof of the program, it compiled the program for
    x86-64 too. Returns how many passed and failed."""
    if is_left_out("64-bit ARM", ARM_TOOLS):
        return 0, 0
    os.makedirs(MADE, exist_ok=True)
    if not kit.CPU and os.path.isfile(f"{PROGRAM}.o"):
        shutil.copy2(f"{PROGRAM}.o", MADE)
    status, lines = test.run(["python3", "scripts/release.py", "--compile"])
    print("\n".join(lines[-12:]), flush=True)
    return (0, 1) if status else counted(["scripts/arm64_test.py", "out/release"], dict(os.environ))


def gate():
    """Runs the gate in the current folder. Returns how many passed and failed."""
    environment = {"RT_JOBS": lanes(), **os.environ}
    at_once, kept = int(environment["RT_JOBS"]), os.path.abspath("kept")
    print(f"the gate works on {at_once} crates at a time", flush=True)
    os.makedirs(kept)
    files = {it: sorted(glob.glob(f"{ASIDE}/{it}/*.edit")) for it in sorted(os.listdir(ASIDE))}
    wrong_bodies = lots.WrongBodies(at_once, files, kept)
    passed, failed = counted([kit.RT, "ci"], environment, wrong_bodies.begin)
    library = Library()
    if os.path.isfile(PROGRAM):
        has_compiler = not is_left_out("the library for C", [os.environ.get("CC", "cc"), "ld", "objcopy", "ar"])
        if has_compiler:
            library.start()
        more, bad = counted(["scripts/play.py", PROGRAM, *test.PLAYED], environment)
        passed, failed = passed + more, failed + bad
        more, bad = counted(["scripts/terminal_test.py", PROGRAM], environment)
        passed, failed = passed + more, failed + bad
        if has_compiler:
            library.join()
            passed, failed = passed + library.is_right, failed + (not library.is_right)
            print(f"libuimg: {library.said}\n", flush=True)
        more, bad = arm64()
        passed, failed = passed + more, failed + bad
    elif not failed:
        print("uimg: the gate built no program to play the cases against", flush=True)
        failed = 1
    more, bad = wrong_bodies.end()
    return passed + more, failed + bad


def main():
    passed, failed = test.test()
    print(f"tests: {passed} passed, {failed} failed\n", flush=True)
    with tempfile.TemporaryDirectory(prefix="uimg-gate-") as room:
        os.chmod(room, 0o755)
        copy_to(room)
        os.chdir(room)
        more, bad = gate()
        os.chdir("/")
    passed, failed = passed + more, failed + bad
    for line in untested:
        print(line)
    if passed + failed < LEAST:
        print(f"the gate ran {passed + failed} tests and proofs, and at least {LEAST} are known")
        failed += 1
    print(f"{passed} passed, {failed} failed")
    return 1 if failed else 0


if __name__ == "__main__":
    sys.exit(main())
