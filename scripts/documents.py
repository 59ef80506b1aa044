#!/usr/bin/env python3
"""documents.py PROGRAM: holds the documents against the tree and the program.

- Each file that a document names exists, as a path from the top, from docs/, or as the end of a path
  in a crate, and so does each target of make.
- Each name of code in a document is in the code.
- Each option in a document is one of PROGRAM, of its other names, or of OTHERS.
- Each command's options in its help, its manual page and its completions are the same.
- Each line of a fault is in uimg-faults(7), with its code, and no document has a code that does not
  exist.
- Each figure of FIGURES has one value in all documents, README's are in bench/TABLE.md, and dates
  are those of the version.
- No document has a phrase of HABITS.
- mandoc and man find nothing in a manual page, if they are installed.

It prints a line for what is wrong; the last is 'N passed, M failed'."""
import glob
import os
import re
import shutil
import subprocess
import sys
import tempfile

MANUALS = sorted(glob.glob("docs/*.[1-8]"))
TEXTS = ["README.md", "SECURITY.md", "CHANGELOG.md", "CONTRIBUTING.md", *sorted(glob.glob("docs/*.md")), *sorted(glob.glob("bindings/*/README.md")), "bench/TABLE.md"]
# Endings of names that are files of this tree.
FILE = re.compile(r"(?<![\w/.*-])((?:[\w.-]+/)*[\w-]+\.(?:rt|antt|py|sh|t|md|schema\.json|svg|c|h|txt))(?![\w/*])")
# Files that examples make, and those of U-Boot, Linux and C.
NOT_HERE = re.compile(
    r"^(?:map|layout|kernel|boot|PROVED|fdt_\w+|image-fit|hash|image|fit_image|imagetool|libfdt|stdint|stddef|stdio|mkuboot|"
    r"test_\w+)\.(?:svg|txt|c|h|sh|py)$"
)
# Names of U-Boot and Linux that documents cite.
NAMES = {"protected_hardlinks", "IH_MAGIC", "IH_NMLEN", "ih_size", "test_vboot"}
# Targets of U-Boot's and Linux's Makefiles that documents name.
TARGETS = {"tools", "uImage"}
# Options of other programs that documents name.
OTHERS = set(
    "--sshlogin --jobs --bar --nice --undefined --stage-times --progress --library-path --only --cpu --target --prefix "
    "--strip-components --cflags --libs --clean --help --version --quiet".split()
)
# What stands in several places and must have one value: a name, and patterns whose group is the value.
FIGURES = {
    "version": (r"uimg[-_](\d+\.\d+\.\d+)[-_.](?:x86|aarch|amd|arm|py3)", r'"uimg (\d+\.\d+\.\d+)"'),
    "logic of the kit": (r"logic `?([0-9a-f]{16})",),
    "lines of definitions for reading and building": (r"definitions: ([\d,]+) lines for listing", r"\| building \| \d+ lines \| \d+ \| (\d+)"),
    "stack of a source of 60 levels, in KiB": (r"60 levels takes? (\d+) KiB", r"60 levels takes? less than (\d+) KiB"),
    "most files of an unpacking": (r"more than (\d{4}) files", r"(\d{4}) files, or", r"if there are more files \((\d+)\)"),
    "bytes of memory for each byte of a file": (r"(\d+) (?:per|for each) byte of (?:the )?(?:file|source)",),
    "bytes of memory for each node": (r"(\d+) (?:bytes )?for each node of a FIT", r"(\d+) bytes a node"),
    "memory of a proof, in GB": (r"(\d) GB of memory for each proof",),
    "levels that sources nest": (r"at most (\d+) levels deep",),
}
HABITS = re.compile(
    r"\b(?:another one than|has to be|have to be|has to|have to|is told|are told|was told|asked for|of which|"
    r"is otherwise as it was|words of a command line|stands in|is no refusal|gets? their names together)\b"
)
CODE = re.compile(r"(?<![\w-])([LBFIS])(\d{1,2})(?![\w.-])")

def read(path):
    with open(path, encoding="utf-8") as file:
        return file.read()


def plain(path):
    """Returns a document as it is read: of a manual page without its macros."""
    text = read(path)
    if path in MANUALS:
        text = re.sub(r'\\f[BIRP]|\\&|(?m:^\.\\".*$)', "", text).replace("\\-", "-").replace("\\e", "\\").replace("\\(aq", "'")
        text = re.sub(r'(?m)^\.(?:BR|RB|B|I|IR|RI|BI|IB|SH|SS|TP|IP|SM) ?(.*)$', lambda it: joined(it[0]), text)
    return text


def joined(line):
    """Returns the text of a macro: that of an alternating one without blanks between its arguments."""
    macro, _, rest = line[1:].partition(" ")
    words = [a or b for a, b in re.findall(r'"((?:[^"]|"")*)"|(\S+)', rest)]
    return ("" if macro in ("BR", "RB", "IR", "RI", "BI", "IB") else " ").join(words)


def printed(*words):
    told = subprocess.run(words, stdin=subprocess.DEVNULL, stdout=subprocess.PIPE, stderr=subprocess.STDOUT)
    return told.stdout.decode(errors="replace")


def files(_program):
    """Each file and target that a document names exists."""
    ends = {""}
    for path in glob.glob("crates/**/*", recursive=True):
        parts = path.split("/")
        ends |= {"/".join(parts[at:]) for at in range(len(parts))}
    targets = set(re.findall(r"(?m)^([\w-]+):", read("Makefile"))) | TARGETS
    for path in [*TEXTS, *MANUALS]:
        for number, line in enumerate(plain(path).split("\n"), 1):
            for it in FILE.findall(line):
                is_there = os.path.exists(it) or os.path.exists(f"docs/{it}") or it in ends or f"{os.path.dirname(path)}/{it}" in ends
                is_there = is_there or any(os.path.exists(f"{top}/{it}") for top in ("cases", "scripts", "bench", "peers", "examples", "include", "library"))
                yield (is_there or NOT_HERE.match(it.rpartition("/")[2]), f"{path}:{number}: there is no file {it}")
            for it in re.findall(r"(?:`|^ {4,})make ([a-z][\w-]*)", line):
                yield (it in targets, f"{path}:{number}: there is no target {it}")


def names(_program):
    """Each name of code in backquotes, as take_some or FitFault, is somewhere in the code."""
    known, tops = set(NAMES), "crates/**/*.rt crates/**/*.antt scripts/*.* peers/* bench/* library/* include/* bindings/**/*.rs bindings/**/*.go bindings/**/*.py cases/*.t docs/*.json Makefile crates.txt"
    for path in (it for top in tops.split() for it in glob.glob(top, recursive=True) if os.path.isfile(it)):
        known.update(re.findall(r"[A-Za-z]\w+", read(path)))
    for path in TEXTS:
        for number, line in enumerate(read(path).split("\n"), 1):
            for it in re.findall(r"\b(?=\w*(?:_|[a-z][A-Z]|^[A-Z][a-z]))[A-Za-z]\w+", " ".join(re.findall(r"`([^`]*)`", line))):
                yield (it in known, f"{path}:{number}: nothing has the name {it}")


def options_of(text):
    """Returns the options that a help lists, each with all of its spellings."""
    return set(re.findall(r"(?<![\w-])(--?[a-zA-Z0-9][\w-]*)", "\n".join(re.findall(r"(?m)^ +(?:-\w|--\w).*?(?: {2,}|$)", text))))


def helps(program):
    """Returns the options of each command, and of the other names."""
    found = {}
    for name in re.findall(r"(?m)^  (?!help)(\w+) {2,}", printed(program, "--help")):
        found[f"uimg {name}"] = options_of(printed(program, name, "--help"))
    with tempfile.TemporaryDirectory() as folder:
        for name in ("uimg-mkimage", "uimg-dumpimage"):
            os.symlink(program, f"{folder}/{name}")
            found[name] = options_of(printed(f"{folder}/{name}", "-h"))
    return found


def manual_options(path, command):
    """Returns the options that a manual page has for a command: those of the section with its name,
    or of the whole page."""
    text = plain(path)
    if command.startswith("uimg "):
        raw = read(path)
        found = re.search(rf"(?ms)^\.S[HS] \"?(?:uimg )?{command[5:]}\b.*?(?=^\.S[HS] |\Z)", raw, re.I)
        if not found:
            return None
        text = found[0].replace("\\-", "-").replace("\\fB", "").replace("\\fR", "").replace("\\fI", "").replace("\\fP", "")
    return set(re.findall(r"(?<![\w-])(--?[a-zA-Z0-9][\w-]*)", text))


def options(program):
    """Options in documents exist, and helps, manual pages and completions have the same."""
    by_command = helps(program)
    known = set().union(*by_command.values()) | OTHERS
    for command, own in by_command.items():
        page = "docs/uimg.1" if command.startswith("uimg ") else f"docs/{command}.1"
        there = manual_options(page, command)
        yield (there is not None, f"{page}: there is no section on {command}")
        for it in sorted(own - {"-h", "--help"}):
            yield (there is None or it in there, f"{page}: {command} has the option {it}")
        completion = read(f"completions/{command.split()[0]}.bash")
        for it in sorted(own):
            yield (re.search(rf"(?<![\w-]){it}(?![\w-])", completion), f"completions: {command} has the option {it}")
    for path in [*TEXTS, "docs/uimg.1"]:
        for number, line in enumerate(plain(path).split("\n"), 1):
            for span in re.findall(r"`([^`]*)`", line) if path in TEXTS else [line]:
                for it in re.findall(r"(?<![\w\-=])(--[a-z][\w-]+)", span):
                    yield (it in known, f"{path}:{number}: no help has the option {it}")


def faults(_program):
    """Lines of faults are in uimg-faults(7), and codes in documents exist."""
    page, codes = re.sub(r"\s+", " ", plain("docs/uimg-faults.7")), set()
    for path in glob.glob("crates/*/src/**/*.rt", recursive=True):
        if "_tests/" in path:
            continue
        for code, text in re.findall(r'"([LBFI]\d{1,2}) ([a-z][^"{:]*)', read(path)):
            codes.add(code)
            yield (f"{code} {text}".strip() in page or (code in page and text.strip() in page), f"docs/uimg-faults.7: lacks {code} {text}")
    words = re.findall(r'=> "([a-z-]+)"', read("crates/uimg_strict/src/loose.rt"))
    codes |= {f"S{at + 1}" for at in range(len(words))}
    for at, it in enumerate(words):
        yield (it in page and f"S{at + 1}" in page, f"docs/uimg-faults.7: lacks S{at + 1} {it}")
    for path in [*TEXTS, *MANUALS]:
        for number, line in enumerate(plain(path).split("\n"), 1):
            for letter, digits in CODE.findall(line):
                yield (letter + digits in codes, f"{path}:{number}: there is no fault {letter}{digits}")


def figures(program):
    """A figure has one value in all documents and helps."""
    texts = {path: re.sub(r"\s+", " ", plain(path)) for path in [*TEXTS, *MANUALS, "debian/control", "include/uimg.h"]}
    texts["the help of unpack"] = printed(program, "unpack", "--help")
    for name, patterns in FIGURES.items():
        found = {}
        for path, text in texts.items():
            for value in (it for pattern in patterns for it in re.findall(pattern, text)):
                found.setdefault(value.replace(",", ""), path)
        yield (found, f"no document has the figure: {name}")
        yield (len(found) < 2, f"{name}: {'; '.join(f'{value} in {path}' for value, path in sorted(found.items()))}")


def measured(_program):
    """What README says of speed and memory is in bench/TABLE.md."""
    line = re.search(r"(?m)^- \*\*Small and fast.*$", read("README.md"))
    known = set(re.findall(r"\d+(?:\.\d+)?", read("bench/TABLE.md")))
    for it in re.findall(r"\d+(?:\.\d+)?", re.sub(r"\(.*?\)", "", line[0]) if line else ""):
        yield (it in known, f"README.md: bench/TABLE.md does not have {it}")


def dates(_program):
    """Manual pages and packages have the date of their version in CHANGELOG.md."""
    date = re.search(r"(?m)^## \S+ - (\d{4})-(\d\d)-(\d\d)$", read("CHANGELOG.md"))
    for path in MANUALS:
        yield ("-".join(date.groups()) in read(path).split("\n")[0], f"{path}: its date is not that of CHANGELOG.md")
    month = "Jan Feb Mar Apr May Jun Jul Aug Sep Oct Nov Dec".split()[int(date[2]) - 1]
    yield (f" {date[3]} {month} {date[1]} " in read("debian/changelog"), "debian/changelog: its date is not that of CHANGELOG.md")


def sentinels(_program):
    """CONTRIBUTING has the number of wrong bodies that the gate tries."""
    count = len([it for it in read("scripts/sentinels.txt").split("\n") if it and not it.startswith("#")])
    yield (f" {count} wrong bodies" in read("CONTRIBUTING.md"), f"CONTRIBUTING.md: the gate tries {count} wrong bodies")


def habits(_program):
    for path in [*TEXTS, *MANUALS]:
        for number, line in enumerate(plain(path).split("\n"), 1):
            found = HABITS.search(line)
            yield (not found, f"{path}:{number}: '{found and found[0]}': say it as a colleague would")


def lint(_program):
    if not shutil.which("mandoc") or not shutil.which("man"):
        print("manual pages were not checked: apt install mandoc man-db")
        return
    for path in MANUALS:
        said = printed("mandoc", "-Tlint", "-Wall", path)
        said += printed("sh", "-c", f"LC_ALL=C.UTF-8 MANROFFSEQ= MANWIDTH=80 man --warnings -E UTF-8 -l -Tutf8 -Z {path} 2>&1 > /dev/null")
        yield (not said, said.rstrip())


def main(words):
    program, held, wrong = os.path.abspath(words[0]), set(), []
    os.chdir(os.path.dirname(os.path.dirname(os.path.abspath(__file__))))
    for check in (files, names, options, faults, figures, measured, dates, sentinels, habits, lint):
        for is_right, text in check(program):
            # One document that is held against one thing is a case.
            held.add((check, text.partition(":")[0]))
            wrong += [] if is_right or text in wrong else [text]
    print("\n".join([*wrong, f"{max(0, len(held) - len(wrong))} passed, {len(wrong)} failed"]))
    return 1 if wrong else 0


if __name__ == "__main__":
    sys.exit(main(sys.argv[1:]))
