"""Images that LAVA makes for its boards, with uimg in the place of mkimage.

LAVA's dispatcher is taken from Debian's binary package lava-dispatcher. Its actions prepare-fit and
uboot-prepare-kernel run as they are: what they import of LAVA is replaced by the little that they
need. The third line that calls mkimage, for ramdisks, is read from the source of its action."""

import importlib.util
import os
import re
import shutil
import subprocess
import sys
import types

from trees import compared

ACTIONS = "usr/lib/python3/dist-packages/lava_dispatcher/actions/deploy"
DATA = {"kernel": 700_000, "dtb": 30_001, "ramdisk": 400_003, "full": 400_007}
# The parts of each FIT. full is a ramdisk that LAVA has written an overlay into.
PARTS = ("kernel", "kernel dtb", "kernel ramdisk", "kernel dtb ramdisk", "kernel dtb ramdisk full")
ADDRESSES = {"arm": "0x80008000", "arm64": "0x44000000", "mips": "0x80100000"}


class Fault(Exception):
    """A fault of an action."""


class Action:
    """What the actions need of LAVA's class: names of files, and commands."""

    def __init__(self):
        self.logger = types.SimpleNamespace(info=lambda *_: None, debug=lambda *_: None)

    def given(self, folder, tools, parts, architecture):
        """Sets the folder with the parts, the environment of the tools, and a board's architecture."""
        self.folder, self.tools, self.parts = folder, tools, parts
        self.deploy_params = {"mkimage_arch": architecture}
        self.device_params = {"load_address": ADDRESSES[architecture]}
        return self

    def run(self, connection, _):
        return connection

    def get_namespace_data(self, action, label, key):
        name = key if label == "file" else label
        wanted = {"compress-ramdisk": "full"}.get(action, name)
        return f"{self.folder}/{wanted}" if wanted in self.parts else None

    def set_namespace_data(self, **_):
        pass

    def run_command(self, words):
        """Runs a command. Returns what it prints, or False if it fails, as LAVA's function does."""
        how = {"stdout": subprocess.PIPE, "stderr": subprocess.STDOUT}
        done = subprocess.run(words, cwd=self.folder, env=self.tools, **how)
        return done.returncode == 0 and done.stdout

    def run_cmd(self, words):
        if self.run_command(words) is False:
            raise Fault(words)


def actions(path):
    """LAVA's file with the actions that prepare kernels."""
    stubs = {
        "lava_common.exceptions": {"InfrastructureError": Fault},
        "lava_dispatcher.action": {"Action": Action, "Pipeline": object},
        "lava_dispatcher.utils.shell": {"which": lambda name: name},
        "lava_dispatcher.utils.strings": {"map_kernel_uboot": lambda *_: "bootm"},
    }
    for name, members in stubs.items():
        parts = name.split(".")
        for end in range(1, len(parts) + 1):
            sys.modules.setdefault(".".join(parts[:end]), types.ModuleType(".".join(parts[:end])))
        vars(sys.modules[name]).update(members)
    spec = importlib.util.spec_from_file_location("lava_prepare", f"{path}/prepare.py")
    module = importlib.util.module_from_spec(spec)
    spec.loader.exec_module(module)
    return module


class Lava:
    """The images of LAVA, in a folder of the suites."""

    def __init__(self, suites):
        self.suites, self.folder = suites, f"{suites.folder}/lava"
        path = f"{suites.package('lava-dispatcher')}/{ACTIONS}"
        self.actions = actions(path)
        with open(f"{path}/apply_overlay.py", encoding="utf-8") as file:
            self.ramdisk = re.search(r'"(mkimage -A %s -T ramdisk [^"]*)"', file.read())[1]

    def run(self, way):
        """Makes all images with the tools of a way. Returns each image's end: it passes if it is that
        of U-Boot's tools."""
        kept = f"{self.folder}-{os.path.basename(self.suites.ways[way])}"
        shutil.rmtree(kept, ignore_errors=True)
        os.makedirs(kept)
        tools = self.suites.more(way, self.suites.ways[way])
        tools.update({"SOURCE_DATE_EPOCH": "1700000000", "LC_ALL": "C.UTF-8"})
        return {name: self.end(name, make, tools, kept) for name, make in self.images()}

    def images(self):
        """The name of each image, and the function that makes it and returns its path."""
        for architecture in ADDRESSES:
            for parts in PARTS:
                yield f"FIT {architecture} {parts}", self.fit(architecture, parts.split())
            for xip in (False, True):
                yield f"kernel {architecture}{' xip' if xip else ''}", self.kernel(architecture, xip)
            yield f"ramdisk {architecture}", self.overlay(architecture)

    def fit(self, architecture, parts):
        def make(tools):
            self.actions.PrepareFITAction().given(self.folder, tools, parts, architecture).run(None, 0)
            return "image.itb"
        return make

    def kernel(self, architecture, xip):
        def make(tools):
            action = self.actions.UBootPrepareKernelAction().given(self.folder, tools, ["kernel"], architecture)
            action.create_uimage(f"{self.folder}/kernel", ADDRESSES[architecture], xip, architecture, "uImage")
            return "uImage"
        return make

    def overlay(self, architecture):
        def make(tools):
            line = self.ramdisk % (architecture, f"{self.folder}/full", f"{self.folder}/full.uboot")
            Action().given(self.folder, tools, [], architecture).run_cmd(line.split(" "))
            return "full.uboot"
        return make

    def end(self, name, make, tools, kept):
        """Makes an image from new parts, keeps it, and compares it with that of U-Boot's tools."""
        shutil.rmtree(self.folder, ignore_errors=True)
        os.makedirs(self.folder)
        for part, size in DATA.items():
            with open(f"{self.folder}/{part}", "wb") as file:
                file.write((part.encode() * size)[:size])
        try:
            image = make(tools)
        except Fault:
            return "FAILED"
        name = name.replace(" ", "-")
        shutil.copyfile(f"{self.folder}/{image}", f"{kept}/{name}")
        first = f"{self.folder}-original/{name}"
        return "PASSED" if os.path.exists(first) and compared(first, f"{kept}/{name}") != "other" else "FAILED"
