"""Builds with uimg in the place of mkimage and dumpimage: `Callers` and `Boards`.

Callers: each row of the table in docs/GUIDE.md, "In place of mkimage", is tried as it says, by the
caller's own rules: U-Boot's Makefile, Linux's scripts/Makefile.lib, genimage, the functions of
Debian's flash-kernel, and a makefile with a variable. A caller passes if its image is the one that
it makes with U-Boot's mkimage. Where the setting has no effect, the caller finds a mkimage that
fails.

Boards: full builds of boards of U-Boot 2023.01 with Debian's cross compilers, under one
SOURCE_DATE_EPOCH. A stand-in replaces the trusted firmware; other firmware is missing. A board is
compiled once with U-Boot's tools. tools/mkimage and tools/dumpimage of its build folder are scripts,
newer than their sources, so make leaves them; they call the tool of a way and log the call with its
time. For each way, all files that were written since the first call are removed, except objects,
archives, headers and make's .cmd files, and make must make them anew. A board passes if make succeeds
and each file of the build folder is as after the first build: byte for byte, or, if it holds FITs, by
its bytes outside of them and by their trees. The remake with U-Boot's tools is the control."""

import glob
import hashlib
import os
import re
import shutil
import tarfile
import time

from trees import compared

ARM, ARM64, MIPS = "arm-linux-gnueabihf-", "aarch64-linux-gnu-", "mips-linux-gnu-"
# Each board, its cross compiler, and the image formats that its build makes.
BOARDS = {
    "am65x_evm_a53": ARM64,  # FITs by -f auto -E and by a source and -E
    "pine64_plus": ARM64,  # sunxi_egon, FITs by -f auto -E and by binman and -F
    "rockpro64-rk3399": ARM64,  # rksd, FITs by -f auto -E and by a source with -E -B
    "wandboard": ARM,  # imximage, and FITs by -f auto -E, one of /dev/null with -B
    "am335x_evm": ARM,  # omapimage, and a FIT of several device trees
    "socfpga_de10_nano": ARM,  # socfpgaimage, and a legacy image
    "xilinx_zynq_virt": ARM,  # zynqimage, and FITs
    "mt7620_rfb": MIPS,  # legacy images of MIPS, one of them compressed by lzma
}
# Calls the tool of the way that the environment names, and logs the call with its time.
CALLER = """#!/bin/sh
printf '%s\\t%s\\n' "$(date +%s)" "${0##*/} $*" >> "$UIMG_SUITE_CALLS"
exec "$UIMG_SUITE_TOOLS/${0##*/}" "$@"
"""
TOOLS = ("mkimage", "dumpimage")
# What no image is part of: objects, archives, headers, and what the compiler keeps of them.
OBJECTS = re.compile(r".*\.(o|a|h|s|su)(\.d)?")
# A program that does nothing, for the trusted firmware.
FIRMWARE = ".globl _start\n_start: b _start\n.data\n.word 1\n"


class Boards:
    """The boards, in a folder of the suites."""

    def __init__(self, suites):
        self.suites, self.failed = suites, {}
        self.folder = f"{suites.folder}/boards"
        self.uboot = suites.source("u-boot")
        os.makedirs(self.folder, exist_ok=True)

    def run(self, way, names=tuple(BOARDS)):
        """Remakes each board's images with the tools of a way. Returns each board's end."""
        return {name: self.board(way, name) for name in names}

    def board(self, way, name):
        """Compiles a board if that has not been done, and remakes its images with the tools of a way."""
        began = time.time()
        if name not in self.failed:
            self.failed[name] = not self.compile(name)
        if self.failed[name]:
            return "FAILED"
        compiled = time.time()
        kept = f"{self.folder}/{name}.first"
        self.move_away(name, kept)
        ends = self.make(way, name, f"board-{name}-{os.path.basename(self.suites.ways[way])}")
        found = self.compare(name, kept)
        self.note(way, name, ends, found, (compiled - began, time.time() - compiled))
        return "PASSED" if ends and not found["other"] else "FAILED"

    def compile(self, name):
        """Compiles a board with U-Boot's tools. One that ended before is begun anew if its images had
        been begun. Returns whether it succeeded."""
        built, done = f"{self.folder}/{name}", f"{self.folder}/{name}.sums"
        if os.path.exists(done):
            return True
        if os.path.exists(f"{built}.original"):
            for it in (built, f"{built}.original", f"{built}.first"):
                shutil.rmtree(it, ignore_errors=True)
        self.firmware(BOARDS[name])
        way = "U-Boot's tools"
        for target in (f"{name}_defconfig", "tools"):
            if not self.make(way, name, f"board-{name}-{target}", target):
                return False
        os.makedirs(f"{built}.original")
        for tool in TOOLS:
            os.rename(f"{built}/tools/{tool}", f"{built}.original/{tool}")
            with open(f"{built}/tools/{tool}", "w", encoding="utf-8") as file:
                file.write(CALLER)
            os.chmod(f"{built}/tools/{tool}", 0o755)
        if not self.make(way, name, f"board-{name}-first"):
            return False
        with open(done, "w", encoding="utf-8") as file:
            file.writelines(f"{value} {path}\n" for path, value in sums(built).items())
        return True

    def firmware(self, cross):
        """Compiles the stand-in for the trusted firmware, as ELF and as bytes."""
        place = f"{self.folder}/bl31{cross}"
        with open(f"{place}.S", "w", encoding="utf-8") as file:
            file.write(FIRMWARE)
        words = [f"{cross}gcc", "-nostdlib", "-static", "-Wl,-Ttext=0x40000,-Tdata=0xff3b0000"]
        self.suites.call([*words, "-o", f"{place}elf", f"{place}.S"], "bl31")
        words = [f"{cross}objcopy", "-O", "binary", "-j", ".text"]
        self.suites.call([*words, f"{place}elf", f"{place}bin"], "bl31")

    def make(self, way, name, log, *targets):
        """Calls make in a board's build folder with the tools of a way. Returns whether it succeeded."""
        built, cross = f"{self.folder}/{name}", BOARDS[name]
        original, logs = f"{built}.original", f"{self.suites.folder}/log/{log}"
        firmware = f"{self.folder}/bl31{cross}"
        more = {
            **self.suites.more(way, "/usr/bin"),
            "UIMG_SUITE_TOOLS": original if way == "U-Boot's tools" else self.suites.ways[way],
            "UIMG_SUITE_CALLS": f"{logs}-calls",
            "UIMG_ORIGINAL_MKIMAGE": f"{original}/mkimage",
            "UIMG_ORIGINAL_DUMPIMAGE": f"{original}/dumpimage",
            "UIMG_WRAPPER_LOG": f"{logs}-ways",
            "SOURCE_DATE_EPOCH": "1700000000",
            "BINMAN_ALLOW_MISSING": "1",
            "ATF": f"{firmware}bin",
            "BL31": f"{firmware}elf" if name.startswith("rock") else f"{firmware}bin",
            "SCP": "/dev/null",
            "TEE": "/dev/null" if name.startswith("am65x") else "",
        }
        for path in (f"{logs}-calls", f"{logs}-ways"):
            if os.path.exists(path):
                os.remove(path)
        words = ["make", "-C", self.uboot, f"O={built}", f"CROSS_COMPILE={cross}", "KCFLAGS=-g0", "-j2", *targets]
        return self.suites.call(words, log, **more)

    def move_away(self, name, kept):
        """Moves the files that were written since the first call of a tool, at the first build, out of
        the build folder. What an earlier way made is removed instead."""
        built = f"{self.folder}/{name}"
        if os.path.isdir(kept):
            for path in files(kept):
                if os.path.exists(f"{built}/{path}") and not OBJECTS.fullmatch(path):
                    os.remove(f"{built}/{path}")
            return
        first = int(lines(f"{self.suites.folder}/log/board-{name}-first-calls")[0].split("\t")[0])
        for path in files(built):
            if os.stat(f"{built}/{path}").st_ctime >= first and not OBJECTS.fullmatch(path):
                os.makedirs(os.path.dirname(f"{kept}/{path}"), exist_ok=True)
                os.rename(f"{built}/{path}", f"{kept}/{path}")

    def compare(self, name, kept):
        """Compares all files with those of the first build. Returns the paths by what they are."""
        built, found = f"{self.folder}/{name}", {it: [] for it in ("same", "tree", "notes", "other")}
        now = sums(built)
        with open(f"{built}.sums", encoding="utf-8") as file:
            wanted = {path: value for value, path in (line.rstrip("\n").split(" ", 1) for line in file)}
        moved = set(files(kept))
        for path in sorted(set(now) | set(wanted)):
            if now.get(path) == wanted.get(path):
                if path in moved:
                    found["same"].append(path)
                continue
            both = (f"{kept}/{path}", f"{built}/{path}")
            found[compared(*both) if all(os.path.isfile(it) for it in both) else "other"].append(path)
        return found

    def note(self, way, name, ends, found, times):
        """Keeps a line on a board and a way: how many calls there were, what the files are, and the
        seconds of the first build and of the other one."""
        log = f"{self.suites.folder}/log/board-{name}-{os.path.basename(self.suites.ways[way])}"
        ways = [it.split("\t")[0] for it in lines(f"{log}-ways")]
        counts = "".join(f", {ways.count(it)} by {it}" for it in sorted(set(ways)))
        text = f"{name}, {way}: {'made' if ends else 'not made'}; {len(lines(f'{log}-calls'))} calls{counts}; "
        text += f"{len(found['same'])} files the same, {len(found['tree'])} with the same trees, "
        text += f"{len(found['notes'])} of binman's notes, {len(found['other'])} other"
        text += "".join(f" {it}" for it in found["other"][:20])
        self.suites.notes.append(f"{text}; {times[0]:.0f} s, {times[1]:.0f} s")


# Linux's own rule of a uImage, with what scripts/Makefile.build sets for it.
LINUX = """srctree := {source}
objtree := {here}
obj := {here}
src := {here}
SRCARCH := arm
BASH := bash
KERNELRELEASE := 6.1.0
UIMAGE_LOADADDR := 0x80008000
include {source}/scripts/Kbuild.include
include {source}/scripts/Makefile.lib
$(obj)/uImage: $(obj)/zImage FORCE
	$(call if_changed,uimage)
FORCE:
.DEFAULT_GOAL := $(obj)/uImage
"""
LINUX_FILES = ("scripts/Kbuild.include", "scripts/Makefile.lib", "scripts/mkuboot.sh")
VARIABLE = "MKIMAGE ?= mkimage\nuImage: zImage\n\t$(MKIMAGE) -A arm -C none -n kernel -d $< $@\n"
FLASH = """mkarch=arm
mkimage_kernel 0x8000 0x8000 'kernel 6.1' zImage uImage && mkimage_multi 0 multi zImage zImage uMulti && cat uMulti >> uImage
"""
FIT = """/dts-v1/;
/ { description = "d"; #address-cells = <1>;
    images { kernel { description = "k"; type = "kernel"; arch = "arm"; os = "linux"; compression = "none";
        load = <0>; entry = <0>; data = /incbin/("ZIMAGE"); hash { algo = "sha256"; }; }; };
    configurations { default = "c"; c { description = "c"; kernel = "kernel"; }; }; };
"""


class Callers:
    """Programs and makefiles that call mkimage, in a folder of the suites."""

    def __init__(self, suites):
        self.suites, self.folder = suites, f"{suites.folder}/callers"
        self.uboot, self.built = suites.source("u-boot"), f"{self.folder}/u-boot"
        for name in ("none", "original", "out"):
            os.makedirs(f"{self.folder}/{name}", exist_ok=True)
        script(f"{self.folder}/none/mkimage", "#!/bin/sh\nexit 9\n")
        with open(f"{self.folder}/zImage", "wb") as file:
            file.write(b"".join(hashlib.sha256(str(it).encode()).digest() for it in range(10000)))
        self.tools()

    def tools(self):
        """Compiles U-Boot's tools once."""
        if os.path.exists(f"{self.folder}/original/mkimage"):
            return
        for target in ("qemu_arm64_defconfig", "tools"):
            words = ["make", "-C", self.uboot, f"O={self.built}", f"CROSS_COMPILE={ARM64}", "-j2", target]
            if not self.suites.call(words, f"callers-{target}"):
                self.suites.fail(f"make {target} of U-Boot")
        shutil.copy2(f"{self.built}/tools/mkimage", f"{self.folder}/original/mkimage")

    def run(self, way):
        """Runs each caller with the setting of a way. Returns each caller's end."""
        ends = {}
        for name, caller in (
            ("U-Boot", self.by_uboot),
            ("Linux", self.by_linux),
            ("Linux, MKIMAGE= a wrapper", self.by_linux_script),
            ("Linux, MKIMAGE= a program", self.by_linux_program),
            ("genimage", self.by_genimage),
            ("flash-kernel", self.by_flash_kernel),
            ("a variable", self.by_variable),
        ):
            image = f"{self.folder}/uImage"
            if os.path.exists(image):
                os.remove(image)
            done = caller(way, f"callers-{re.sub('[^A-Za-z]+', '-', name)}-{os.path.basename(self.suites.ways[way])}")
            kept = f"{self.folder}/out/{name}"
            if done and way == "U-Boot's tools":
                shutil.copyfile(image, kept)
            is_same = done and os.path.exists(kept) and compared(kept, image) in ("same", "tree")
            ends[name] = "PASSED" if is_same else "FAILED"
        return ends

    def call(self, way, words, log, path=None, **more):
        """Runs a command in the folder, where mkimage of the PATH fails, unless a folder with another
        one is given. Returns whether it succeeded."""
        own = self.suites.more(way, f"{path or self.folder}:{self.folder}/none")
        how = {**own, "SOURCE_DATE_EPOCH": "1700000000", "UIMG_ORIGINAL_MKIMAGE": f"{self.folder}/original/mkimage"}
        return self.suites.call(words, log, self.folder, **{**how, **more})

    def place(self, way):
        """The folder with mkimage of a way."""
        return f"{self.folder}/original" if way == "U-Boot's tools" else self.suites.ways[way]

    def by_uboot(self, way, log):
        """A copy at tools/mkimage, which make leaves, and the rule of u-boot.img."""
        for it in glob.glob(f"{self.wrappers()}/*") if way == "the wrappers" else [f"{self.place(way)}/mkimage"]:
            shutil.copy(it, f"{self.built}/tools/")
        tool = f"{self.built}/tools/mkimage"
        before = digest(tool)
        # As U-Boot's Makefile calls itself for a build folder; it would not hand on -o.
        make = ["make", "-C", self.built, f"--include-dir={self.uboot}", "-f", f"{self.uboot}/Makefile"]
        make += [f"KBUILD_SRC={self.uboot}", f"CROSS_COMPILE={ARM64}"]
        shutil.copy(f"{self.folder}/zImage", f"{self.built}/u-boot.bin")
        for path in glob.glob(f"{self.built}/u-boot.img") + glob.glob(f"{self.built}/.u-boot.img.cmd"):
            os.remove(path)
        done = self.call(way, [*make, "tools"], f"{log}-tools") and digest(tool) == before
        done = done and self.call(way, [*make, "-o", "u-boot.bin", "u-boot.img"], log) and digest(tool) == before
        if done:
            shutil.copy(f"{self.built}/u-boot.img", f"{self.folder}/uImage")
        return done

    def wrappers(self):
        """The folder of the wrappers."""
        return os.path.dirname(os.path.realpath(f"{self.suites.ways['the wrappers']}/mkimage"))

    def by_linux(self, way, log, *words, path=None):
        """The rule of a uImage, with mkimage of the PATH."""
        source = linux(self.suites)
        with open(f"{self.folder}/rules", "w", encoding="utf-8") as file:
            file.write(LINUX.format(source=source, here=self.folder))
        if os.path.exists(f"{self.folder}/.uImage.cmd"):
            os.remove(f"{self.folder}/.uImage.cmd")
        return self.call(way, ["make", "-f", "rules", *words], log, path or self.place(way))

    def by_linux_script(self, way, log):
        """The same, with a wrapper as the value of MKIMAGE, which bash runs."""
        if way != "the wrappers":
            return self.by_linux(way, log)
        return self.by_linux(way, log, f"MKIMAGE={self.wrappers()}/mkimage", path=self.folder)

    def by_linux_program(self, way, log):
        """The same with a program: bash has to refuse it. Then the PATH is used."""
        is_run = self.by_linux(way, log, f"MKIMAGE={self.suites.program}", path=self.folder)
        return not is_run and "cannot execute binary file" in self.suites.text(log) and self.by_linux(way, log)

    def by_genimage(self, way, log):
        """A section fit {}, with GENIMAGE_MKIMAGE for uimg."""
        for name in ("input", "root", "tmp", "output"):
            shutil.rmtree(f"{self.folder}/{name}", ignore_errors=True)
        for name in ("input", "root"):
            os.makedirs(f"{self.folder}/{name}")
        script(f"{self.folder}/input/fit.its", FIT.replace("ZIMAGE", f"{self.folder}/zImage"))
        script(f"{self.folder}/config", 'image uImage { fit { its = "fit.its" } }\n')
        words = ["genimage", f"--config={self.folder}/config"]
        words += [f"--{it}path={self.folder}/{it}" for it in ("input", "root", "tmp", "output")]
        if way == "uimg by their names":
            done = self.call(way, words, log, GENIMAGE_MKIMAGE="uimg-mkimage")
        else:
            done = self.call(way, words, log, self.place(way))
        if done:
            shutil.copy(f"{self.folder}/output/uImage", f"{self.folder}/uImage")
        return done

    def by_flash_kernel(self, way, log):
        """The functions of flash-kernel that call mkimage, with mkimage of the PATH."""
        place = flash_kernel(self.suites)
        with open(f"{place}/usr/share/flash-kernel/functions", encoding="utf-8") as file:
            functions = re.findall(r"(?ms)^mkimage_\w+\(\) \{$.*?^\}$", file.read())
        script(f"{self.folder}/flash", "\n".join([*functions, FLASH]))
        return self.call(way, ["sh", "./flash"], log, self.place(way))

    def by_variable(self, way, log):
        """A makefile that calls $(MKIMAGE)."""
        script(f"{self.folder}/variable", VARIABLE)
        tool = "uimg-mkimage" if way == "uimg by their names" else f"{self.place(way)}/mkimage"
        return self.call(way, ["make", "-f", "variable"], log, MKIMAGE=tool)


def script(path, text):
    with open(path, "w", encoding="utf-8") as file:
        file.write(text)
    os.chmod(path, 0o755)


def linux(suites):
    """The folder with the files of Linux's source that its rule of a uImage needs."""
    place = f"{suites.folder}/linux-scripts"
    if os.path.exists(f"{place}/complete"):
        return place
    packed = f"{suites.package('linux-source-6.1')}/usr/src/linux-source-6.1.tar.xz"
    left = set(LINUX_FILES)
    os.makedirs(f"{place}/scripts", exist_ok=True)
    with tarfile.open(packed, "r|xz") as archive:
        for file in archive:
            name = file.name.partition("/")[2]
            if name in left:
                with open(f"{place}/{name}", "wb") as out:
                    shutil.copyfileobj(archive.extractfile(file), out)
                left.remove(name)
            if not left:
                break
    os.close(os.open(f"{place}/complete", os.O_CREAT))
    return place


def flash_kernel(suites):
    """The folder of the unpacked package flash-kernel, which Debian has for ARM only."""
    place, lists = f"{suites.folder}/packages/flash-kernel", f"{suites.folder}/apt/lists-arm64"
    if os.path.isdir(place):
        return place
    os.makedirs(f"{lists}/partial", exist_ok=True)
    apt = [*suites.apt(), "-o", "APT::Architecture=arm64", "-o", "APT::Architectures=arm64"]
    apt += ["-o", f"Dir::State::Lists={lists}", "-o", "Dir::State::status=/dev/null"]
    fetched = suites.call([*apt, "update"], "update-arm64") and suites.call([*apt, "download", "flash-kernel"], "fetch-flash-kernel")
    found = glob.glob(f"{suites.folder}/flash-kernel_*.deb")
    if not (fetched and found and suites.call(["dpkg-deb", "-x", found[0], place], "unpack-flash-kernel")):
        suites.fail("apt-get download flash-kernel")
    return place


def lines(path):
    if not os.path.exists(path):
        return []
    with open(path, encoding="utf-8", errors="replace") as file:
        return file.read().splitlines()


def files(folder):
    """The paths of the regular files in a folder, without the tools that are replaced, and without
    make's notes of the commands."""
    for place, _, names in os.walk(folder):
        for name in names:
            path = os.path.join(place, name)
            short = os.path.relpath(path, folder)
            is_left_out = short in [f"tools/{it}" for it in TOOLS] or name.endswith(".cmd")
            if os.path.isfile(path) and not os.path.islink(path) and not is_left_out:
                yield short


def sums(folder):
    """The SHA-256 of each file in a folder."""
    return {path: digest(f"{folder}/{path}") for path in files(folder)}


def digest(path):
    with open(path, "rb") as file:
        return hashlib.sha256(file.read()).hexdigest()
