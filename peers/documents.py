"""The command lines in U-Boot's documents that call mkimage or dumpimage.

They are found in doc/, in README and in the texts of board/. What such a line names is made for it: data,
trees, keys, and an image that it lists; a FIT source or a board's configuration is U-Boot's own where its
tree has one of that name. Words in angle brackets and paths from the root become names of files. A line
counts if U-Boot's tools take it. It passes if the tool takes it too, and leaves the same files: the same
bytes, or FITs with the same trees."""

import os
import re
import shlex
import shutil
import subprocess

from trees import compared

KEYS = "openssl req -batch -new -x509 -newkey rsa:2048 -nodes -keyout {0}/dev.key -out {0}/dev.crt -subj /CN=dev"
SIGNATURE = 'signature { algo = "sha256,rsa2048"; key-name-hint = "dev"; };'
# Values for words that stand for another one.
MEANT = {"start address": "0x8000", "execution address": "0x8000", "load_addr": "0x8000", "option_string": "media=emmc"}
# A configuration for a board's format, where the line names none of U-Boot's.
CONFIGURATIONS = {
    "imximage": "board/freescale/mx51evk/imximage.cfg",
    "kwbimage": "board/Marvell/openrd/kwbimage.cfg",
    "ublimage": "board/davinci/da8xxevm/u-boot-spl-da850evm.cfg",
    "mxsimage": "arch/arm/cpu/arm926ejs/mxs/mxsimage.mx28.cfg",
}


def lines(uboot):
    """The command lines, each once: the tool and its words."""
    texts = [f"{uboot}/README"]
    for top in ("doc", "board"):
        for folder, _, names in sorted(os.walk(f"{uboot}/{top}")):
            wanted = names if top == "doc" else [it for it in names if re.search(r"(?i)readme|\.(rst|txt)$", it)]
            texts += [f"{folder}/{it}" for it in sorted(wanted)]
    found = {}
    for path in texts:
        with open(path, encoding="utf-8", errors="replace") as file:
            text = file.read().replace("\\-", "-").replace("\\:", "").replace("\\(dq", '"')
            text = re.sub(r"\\+\s*\n[\s>]*", " ", text)
        for tool, words in re.findall(r"(?m)(?:^|[\s`$#>/(])(?:\\fB)?(mkimage|dumpimage)(\s+-.*)$", text):
            words = re.split(r"\s(?:&&|\||>>?)\s|[`]|\\f", words)[0]
            words = re.sub(r"<([^<>]*)>", lambda it: MEANT.get(it[1], re.sub(r"\W", "_", it[1])), words)
            found[(tool, re.sub(r"\$(\w+)", r"\1", re.sub(r"\s+", " ", words)).strip())] = None
    return list(found)


class Documents:
    """The lines, run in a folder of the suites."""

    def __init__(self, suites, source):
        self.suites, self.folder, self.source = suites, f"{suites.folder}/documents", source
        self.keys = f"{self.folder}/keys"
        shutil.rmtree(self.folder, ignore_errors=True)
        os.makedirs(self.keys)
        suites.call(KEYS.format(self.keys).split(), "documents-keys")

    def run(self, way):
        """Runs all lines with the tools of a way. Returns the end of each that U-Boot's tools take."""
        return {" ".join(line): end for line in lines(self.suites.uboot) for end in self.end(line, way)}

    def end(self, line, way):
        original = f"{self.folder}/original"
        if not self.left(line, "U-Boot's tools", original):
            return []
        if way == "U-Boot's tools":
            return ["PASSED"]
        here = f"{self.folder}/tried"
        return ["PASSED" if self.left(line, way, here) and same(original, here) else "FAILED"]

    def left(self, line, way, here):
        """Runs a line in a new folder. Returns whether it succeeded."""
        tool, words = line[0], [it.lstrip("/").replace("../", "") for it in shlex.split(line[1], posix=True)]
        shutil.rmtree(here, ignore_errors=True)
        os.makedirs(here)
        if not self.prepare(tool, words, here):
            return False
        return self.call([tool, *words], here, self.tools(way))

    def tools(self, way):
        """The environment of the tools of a way."""
        more = self.suites.more(way, self.suites.ways[way])
        return {**more, "SOURCE_DATE_EPOCH": "1700000000", "LC_ALL": "C.UTF-8"}

    def prepare(self, tool, words, here):
        """Makes what the words name. Returns whether that is known."""
        values = dict(zip(words, words[1:]))
        kind = values.get("-T", "kernel")
        for option, value in zip(words, words[1:]):
            for name in value.split(":") if option in ("-d", "-i", "-b") else []:
                write(f"{here}/{name}", name * 500)
        if "-n" in values and (values["-n"].endswith(".cfg") or "_" in values["-n"]):
            self.configure(f"{here}/{values['-n']}", values["-n"], kind)
        if "-k" in values:
            shutil.copytree(self.keys, f"{here}/{values['-k']}", dirs_exist_ok=True)
        if "-K" in values:
            self.tree(f"{here}/{values['-K']}")
        source = values.get("-f", "")
        if source.endswith(".its"):
            self.write_source(f"{here}/{source}", source, "-k" in values)
        if tool == "dumpimage" or "-l" in words or ("-F" in words and not source):
            return self.image(f"{here}/{words[-1]}", words[-1])
        os.makedirs(os.path.dirname(f"{here}/{words[-1]}"), exist_ok=True)
        return True

    def configure(self, path, name, kind):
        found = self.suites.uboot + "/" + name
        if not os.path.exists(found):
            found = f"{self.suites.uboot}/{CONFIGURATIONS.get(kind, 'none')}"
        if os.path.exists(found):
            os.makedirs(os.path.dirname(path), exist_ok=True)
            shutil.copy(found, path)

    def tree(self, path):
        write(f"{path}.dts", "/dts-v1/; / { };")
        self.call(["dtc", "-q", "-p", "4096", "-o", path, f"{path}.dts"], os.path.dirname(path))

    def write_source(self, path, name, is_signed):
        """A FIT source: U-Boot's own with files for what it includes, or one with a payload."""
        text = self.source.replace("DATA", "payload")
        for folder in ("", "doc/uImage.FIT/"):
            if os.path.isfile(f"{self.suites.uboot}/{folder}{name}"):
                with open(f"{self.suites.uboot}/{folder}{name}", encoding="utf-8") as file:
                    text = re.sub(r'(?<=incbin/\(")[^"]*', "payload", file.read())
        if is_signed:
            text = text.replace('hash {', f'{SIGNATURE} hash {{')
        write(path, text)
        write(f"{os.path.dirname(path)}/payload", "payload " * 100)
        write("/".join(path.split("/")[: -len(name.split("/"))]) + "/payload", "payload " * 100)

    def image(self, path, name):
        """An image of U-Boot's tools, a FIT or a legacy one."""
        folder = os.path.dirname(path)
        write(f"{folder}/parts", "part " * 100)
        tools = self.tools("U-Boot's tools")
        if re.search(r"(?i)fit|itb", name):
            self.write_source(f"{folder}/made.its", "made.its", True)
            return self.call(["mkimage", "-f", "made.its", path], folder, tools)
        kind = ["-T", "multi", "-d", "parts:parts:parts"] if "multi" in name else ["-d", "parts"]
        return self.call(["mkimage", "-A", "arm", "-C", "none", *kind, path], folder, tools)

    def call(self, words, folder, more=None):
        environment = {"HOME": folder, "PATH": os.environ["PATH"], **(more or {})}
        how = {"stdin": subprocess.DEVNULL, "stdout": subprocess.DEVNULL, "stderr": subprocess.DEVNULL}
        return subprocess.run(words, cwd=folder, env=environment, **how).returncode == 0


def write(path, text):
    os.makedirs(os.path.dirname(path), exist_ok=True)
    with open(path, "w", encoding="utf-8") as file:
        file.write(text)


def same(first, second):
    """Whether two folders have the same files."""
    both = [sorted(os.path.relpath(f"{folder}/{it}", top) for folder, _, names in os.walk(top) for it in names)
            for top in (first, second)]
    return both[0] == both[1] and all(compared(f"{first}/{it}", f"{second}/{it}") in ("same", "tree") for it in both[0])
