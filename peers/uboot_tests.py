#!/usr/bin/env python3
"""U-Boot 2023.01's own tests with uimg in the place of its tools: uboot_tests.py PROGRAM [FOLDER [SUITE..]]

In FOLDER (out/uboot) it fetches Debian's source package of U-Boot, compiles the sandbox with its
tools, and runs these suites with U-Boot's mkimage and dumpimage, with uimg by these names, and with
the wrappers of wrappers/:

  test/py      the tests of FITs, hashes, signatures by ECDSA, and verified boot, on the sandbox
  binman       all tests of binman
  diffoscope   its tests of FIT and uImage
  genimage     its section fit {}, without a folder of keys and with one, if genimage is installed
  LAVA         the images that LAVA's dispatcher makes for its boards (lava.py)
  Linux        FITs of Linux for MIPS, by its own rules (mips.py)
  documents    the command lines in U-Boot's documents (documents.py)
  callers      each row of GUIDE's table "In place of mkimage" (boards.py)
  boards       full builds of boards of U-Boot, by cross compilers (boards.py)

It prints rows of the table of docs/PEERS.md, and each test that ends otherwise than with U-Boot's
tools. It names what cannot be fetched or compiled, and leaves out its suite. It installs nothing: apt has a configuration of its own
in FOLDER, with the machine's sources and their source packages."""

import glob
import os
import re
import shutil
import subprocess
import sys
import time

from boards import Boards, Callers
from counting import commit_and_date
from documents import Documents
from lava import Lava
from mips import Mips

NEEDED = """build-essential bison flex libssl-dev libgnutls28-dev uuid-dev swig python3-dev
python3-setuptools python3-pytest python3-pytest-xdist python3-filelock python3-pycryptodome
python3-pyelftools python3-yaml python3-magic python3-libarchive-c bc xxd device-tree-compiler dpkg-dev cpio genimage lzop
lz4 zstd xz-utils gcc-aarch64-linux-gnu gcc-arm-linux-gnueabihf gcc-mips-linux-gnu"""
PYTHON = "/usr/bin/python3"
PATHS = "/usr/local/sbin:/usr/sbin:/usr/bin:/sbin:/bin"
TOOLS = ("mkimage", "dumpimage")
# Each way to call the tools, and its folder with programs of these names.
WAYS = {"U-Boot's tools": "original", "uimg by their names": "names", "the wrappers": "wrappers"}
TESTS = "test_fit or hashes or test_fit_ecdsa or vboot"
SOURCE = """/dts-v1/;
/ { description = "d"; #address-cells = <1>;
    images { kernel { description = "k"; type = "kernel"; arch = "arm"; os = "linux"; compression = "none";
        load = <0>; entry = <0>; data = /incbin/("DATA"); hash { algo = "sha256"; }; }; };
    configurations { default = "c"; c { description = "c"; kernel = "kernel"; }; }; };
"""
# Calls the tool of the way that the environment names: test/py looks for tools in the build alone.
CALLER = '#!/bin/sh\nexec "$UIMG_SUITE_TOOLS/${0##*/}" "$@"\n'


class Missing(Exception):
    """What cannot be fetched or compiled."""


class Suites:
    """The suites in a folder, with a program."""

    def __init__(self, program, folder):
        self.program, self.folder = os.path.abspath(program), os.path.abspath(folder)
        self.built, self.fault, self.notes = f"{self.folder}/sandbox", None, []
        self.ways = {way: f"{self.folder}/{name}" for way, name in WAYS.items()}
        for name in ("log", "home", *WAYS.values(), "uimg"):
            os.makedirs(f"{self.folder}/{name}", exist_ok=True)

    def call(self, words, log, cwd=None, **more):
        """Runs a command in the background's favour. Returns whether it succeeded."""
        environment = {"HOME": f"{self.folder}/home", "PATH": PATHS, "LC_ALL": "C.UTF-8", **more}
        with open(f"{self.folder}/log/{log}", "w", encoding="utf-8") as file:
            how = {"stdin": subprocess.DEVNULL, "stdout": file, "stderr": subprocess.STDOUT}
            words = ["nice", *words]
            return subprocess.run(words, cwd=cwd or self.folder, env=environment, **how).returncode == 0

    def fail(self, what):
        """Leaves out a suite that lacks something."""
        raise Missing(what)

    def text(self, log):
        with open(f"{self.folder}/log/{log}", encoding="utf-8", errors="replace") as file:
            return file.read()

    def source(self, package):
        """The folder of a source package, which is fetched once."""
        found = [it for it in glob.glob(f"{self.folder}/{package}-*") if os.path.isdir(it)]
        if found:
            return found[0]
        apt = self.apt()
        if not self.call([*apt, "source", package], f"fetch-{package}"):
            raise Missing(f"apt-get source {package}")
        return [it for it in glob.glob(f"{self.folder}/{package}-*") if os.path.isdir(it)][0]

    def package(self, name):
        """The folder of an unpacked binary package, which is fetched once."""
        place = f"{self.folder}/packages/{name}"
        if not os.path.isdir(place):
            if not self.call([*self.apt(), "download", name], f"fetch-{name}"):
                raise Missing(f"apt-get download {name}")
            os.makedirs(os.path.dirname(place), exist_ok=True)
            fetched = glob.glob(f"{self.folder}/{name}_*.deb")
            if not (fetched and self.call(["dpkg-deb", "-x", fetched[0], f"{place}.new"], f"unpack-{name}")):
                raise Missing(f"unpacking {name}")
            os.rename(f"{place}.new", place)
        return place

    def apt(self):
        """apt-get with a configuration of its own."""
        here = f"{self.folder}/apt"
        os.makedirs(f"{here}/lists/partial", exist_ok=True)
        os.makedirs(f"{here}/cache/archives/partial", exist_ok=True)
        words = ["apt-get", "-q", "-o", f"Dir::Etc::sourcelist={here}/debian.sources"]
        words += ["-o", "Dir::Etc::sourceparts=-", "-o", f"Dir::State::Lists={here}/lists"]
        words += ["-o", f"Dir::Cache={here}/cache"]
        if not os.path.exists(f"{here}/debian.sources"):
            try:
                with open("/etc/apt/sources.list.d/debian.sources", encoding="utf-8") as file:
                    text = file.read()
            except OSError as error:
                raise Missing("the package sources of Debian") from error
            with open(f"{here}/debian.sources", "w", encoding="utf-8") as file:
                file.write(re.sub("(?m)^Types: deb$", "Types: deb deb-src", text))
            if not self.call([*words, "update"], "update"):
                raise Missing("apt-get update")
        return words

    def build(self):
        """Compiles the sandbox once, and puts the caller in the place of its tools."""
        if self.fault:
            raise self.fault
        self.uboot = self.source("u-boot")
        if not os.path.exists(f"{self.folder}/original/dumpimage"):
            make = ["make", "-C", self.uboot, f"O={self.built}"]
            if not (self.call([*make, "sandbox_defconfig"], "config")
                    and self.call([*make, "NO_SDL=1", "-j2"], "make")):
                self.fault = Missing(f"make of the sandbox; it needs {' '.join(NEEDED.split())}")
                raise self.fault
            for tool in TOOLS:
                shutil.copy2(f"{self.built}/tools/{tool}", f"{self.folder}/original/{tool}")
        for tool in TOOLS:
            os.remove(f"{self.built}/tools/{tool}")
            write(f"{self.built}/tools/{tool}", CALLER)
        return self

    def link(self):
        """Links the names of the other ways to the program and the wrappers."""
        wrappers = os.path.join(os.path.dirname(os.path.abspath(__file__)), "..", "wrappers")
        for tool in TOOLS:
            link(self.program, f"{self.folder}/names/{tool}")
            link(self.program, f"{self.folder}/uimg/uimg-{tool}")
            link(os.path.realpath(f"{wrappers}/{tool}"), f"{self.folder}/wrappers/{tool}")

    def more(self, way, path):
        """The environment of a way, with folders for PATH."""
        original = f"{self.folder}/original"
        return {
            "UIMG_SUITE_TOOLS": self.ways[way],
            "UIMG_ORIGINAL_MKIMAGE": f"{original}/mkimage",
            "UIMG_ORIGINAL_DUMPIMAGE": f"{original}/dumpimage",
            "UIMG_WRAPPER_LOG": f"{self.folder}/log/calls",
            "PATH": f"{path}:{PATHS}:{self.folder}/uimg",
        }

    def test_py(self, way):
        """U-Boot's tests on the sandbox. Returns each test's end."""
        log = f"testpy-{WAYS[way]}"
        more = self.more(way, f"{self.built}/tools:{self.built}/scripts/dtc")
        more["PYTHONPATH"] = f"{self.uboot}/tools/dtoc:{self.built}/scripts/dtc/pylibfdt"
        words = [PYTHON, "./test/py/test.py", "--bd", "sandbox", "--build-dir", self.built]
        words += ["--result-dir", f"{self.folder}/result", "--persistent-data-dir", f"{self.folder}/persistent"]
        words += ["-p", "no:cacheprovider", "-rA", "-q", "--tb=line", "-k", TESTS]
        self.call(words, log, self.uboot, **more)
        return dict(reversed(it) for it in re.findall(r"(?m)^(PASSED|FAILED|ERROR|SKIPPED) (\S+)", self.text(log)))

    def binman(self, way):
        """binman's tests. Returns each end that is no success."""
        log = f"binman-{WAYS[way]}"
        more = self.more(way, f"{self.built}/scripts/dtc")
        more["PYTHONPATH"] = f"{self.built}/scripts/dtc/pylibfdt"
        words = [PYTHON, "tools/binman/binman", "--toolpath", self.ways[way], "test", "-P", "1"]
        self.call(words, log, self.uboot, **more)
        text = self.text(log)
        ran, skipped = (re.search(it, text) for it in (r"Ran (\d+) tests", r"skipped=(\d+)"))
        ends = {name: end for end, name in re.findall(r"(?m)^(ERROR|FAIL): (\S+)", text)}
        skips = int(skipped[1]) if skipped else 0
        passed = int(ran[1]) - len(ends) - skips if ran else 0
        ends.update({f"one of {it}": "PASSED" for it in range(passed)})
        return {**ends, **{f"one skipped of {it}": "SKIPPED" for it in range(skips)}}

    def diffoscope(self, way):
        """diffoscope's tests of images."""
        folder = self.source("diffoscope")
        log = f"diffoscope-{WAYS[way]}"
        words = [PYTHON, "-m", "pytest", "-p", "no:cacheprovider", "-rA", "-q", "--tb=line"]
        words += ["tests/comparators/test_fit.py", "tests/comparators/test_uimage.py"]
        self.call(words, log, folder, **self.more(way, self.ways[way]))
        found = re.findall(r"(?m)^(PASSED|FAILED|ERROR) (\S+)|^(SKIPPED) \[(\d+)\] (\S+)", self.text(log))
        ends = {name: end for end, name, *_ in found if name}
        for *_, skipped, number, place in found:
            ends.update({f"{place} {it}": skipped for it in range(int(number or 0))})
        return ends

    def genimage(self, way):
        """Images that genimage makes by mkimage -r, without a folder of keys and with one."""
        here, ends = f"{self.folder}/genimage", {}
        shutil.rmtree(here, ignore_errors=True)
        for name in ("input", "root"):
            os.makedirs(f"{here}/{name}")
        write(f"{here}/input/fit.its", SOURCE.replace("DATA", f"{here}/input/data"))
        write(f"{here}/input/data", "data")
        for name, keys in (("without keys", ""), ("with keys", f'keydir = "{here}/none"')):
            write(f"{here}/config", f'image test.itb {{ fit {{ its = "fit.its" {keys} }} }}\n')
            shutil.rmtree(f"{here}/tmp", ignore_errors=True)
            folders = [f"--{it}path={here}/{it}" for it in ("input", "root", "tmp", "output")]
            words = ["genimage", f"--config={here}/config", *folders]
            done = self.call(words, f"genimage-{WAYS[way]}", here, **self.more(way, self.ways[way]))
            ends[name] = "PASSED" if done else "FAILED"
        return ends


def write(path, text):
    with open(path, "w", encoding="utf-8") as file:
        file.write(text)
    os.chmod(path, 0o755)


def link(target, path):
    if os.path.lexists(path):
        os.remove(path)
    os.symlink(target, path)


def row(ends):
    """A line of the table: how many tests passed, and what the others did."""
    counts = {}
    for end in ends.values():
        counts[end] = counts.get(end, 0) + 1
    others = ", ".join(f"{number} {end.lower()}" for end, number in sorted(counts.items()) if end != "PASSED")
    return f"{counts.get('PASSED', 0)} of {len(ends)}" + (f" ({others})" if others else "")


def genimage_of(suites):
    """The suite of genimage, if it is installed."""
    if not shutil.which("genimage", path=PATHS):
        raise Missing("it is not installed")
    return suites.build().genimage


# Each suite, and what returns its function, or fails.
SUITES = {
    "test/py": lambda suites: suites.build().test_py,
    "binman": lambda suites: suites.build().binman,
    "diffoscope": lambda suites: suites.source("diffoscope") and suites.build().diffoscope,
    "genimage": genimage_of,
    "LAVA": lambda suites: Lava(suites.build()).run,
    "Linux": lambda suites: Mips(suites.build()).run,
    "documents": lambda suites: Documents(suites.build(), SOURCE).run,
    "callers": lambda suites: Callers(suites).run,
    "boards": lambda suites: Boards(suites).run,
}


def differences(suite, ends):
    """A line for each test that ends otherwise than with U-Boot's tools."""
    wanted = ends["U-Boot's tools"]
    for way, found in ends.items():
        for name in sorted(set(wanted) | set(found)):
            if not name.startswith("one ") and wanted.get(name) != found.get(name):
                yield f"{suite}, {way}: {name}: {found.get(name, 'PASSED')}, not {wanted.get(name, 'PASSED')}"


def main(program, folder="out/uboot", *names):
    if not os.access(program, os.X_OK):
        sys.exit(f"uboot_tests: {program} is no program")
    suites = Suites(program, folder)
    suites.link()
    print(f"| Suite | {' | '.join(WAYS)} | Commit, date |\n|---|{'---|' * len(WAYS)}---|")
    differing, missing = [], []
    for suite in names or SUITES:
        began = time.time()
        try:
            run = SUITES[suite](suites)
            ends = {way: run(way) for way in WAYS}
        except Missing as error:
            missing.append(f"{suite} was left out: {error}")
            continue
        if "PASSED" not in ends["U-Boot's tools"].values():
            missing.append(f"{suite}: nothing passes with U-Boot's tools")
        print(f"| {suite} | {' | '.join(row(it) for it in ends.values())} | {commit_and_date()} |", flush=True)
        differing += differences(suite, ends)
        suites.notes.append(f"{suite}: {time.time() - began:.0f} s")
    print("\n".join(["", *differing, *suites.notes, *missing]).rstrip())
    return 1 if differing or missing else 0


if __name__ == "__main__":
    sys.exit(main(*sys.argv[1:]))
