#!/usr/bin/env python3
"""declarations.py contracts|definitions [CRATE]: what the sources of the crates declare, as laid
out by `rt fmt`: functions, their contracts, and the definitions that these name.

`contracts` prints a row for each crate except those of tests, and a total: its functions, those
with a contract, the lines of all bodies, and those of the bodies under a contract. A function has a
contract if it has a `requires` or an `ensures` clause, or if its trait's method has one. Traits of
the kit are not read: an impl of one has a contract if it gives a ghost member that the trait's
clauses cite, as `output`. The lines of a body are the lines of code from `fn` to the closing brace,
without clauses, comments, `use` lines, blank lines and samples for tests. With a crate it lists the
public functions and the methods of public traits: file and line, doc comment, clauses, and below a
clause that is a record of specs/ the fields of that record.

`definitions` counts the definitions of `run` and `make`, and writes the counts into
docs/DEFINITIONS.md. A theorem is the contract of a function. Its definitions are those that its
clauses name, those that these name, and so on. A definition counts with the comment above it;
imports and blank lines do not. A local variable with the name of a definition makes it count too,
so a count may be a little too high. With a crate it prints what each file of the crate's specs/
defines, and writes nothing."""
import glob
import os
import re
import sys

import kit
import test

# A function at the beginning of a line, or in an impl or a trait.
FUNCTION = re.compile(r'( {4})?(?:pub(?:\([a-z]+\))? )?(?:const |unsafe |extern "C" )*fn (\w+)')
# The first line of an impl or a trait, and of other items.
BLOCK = re.compile(r"(?:pub(?:\([a-z]+\))? )?(?:unsafe )?(impl|trait)\b")
ITEM = re.compile(r"(?:pub(?:\([a-z]+\))? )?(?:const|static|struct|enum|mod|use|type|ghost|macro_rules!)\b")
# The header of an impl, before its brace.
HEADER = re.compile(r"(?:unsafe )?impl(?:<(.*?)>)? (?:([\w:]+)(?:<([^<>]*)>)? for )?([\w:]+)(?:<([^<>]*)>)?(?: where .*)?")
# What a file brings in from its crate, and from the definitions of Rattle's libraries.
IMPORTED = re.compile(r"^use crate::([\w:]+)::(?:\{([^}]*)\}|(\w+));", re.M)
# The same from the module above.
ABOVE = re.compile(r"^use super::(?:\{([^}]*)\}|(\w+));", re.M)
USE = re.compile(r"^ *(?:pub )?(?:ghost )?use Rattle\.(.*?);?$", re.M)
CLAUSE = re.compile(r"(?:requires|ensures)\b")
NO_CODE = re.compile(r"$|//|(?:pub(?:\([a-z]+\))? )?(?:ghost )?use ")
TRAIT = re.compile(r"(?:pub )?trait (\w+)|(?:unsafe )?impl\b.*?([\w:]+)(?:<[^{]*>)? for ")
GHOST = re.compile(r" {4}ghost (?!use\b)")
# The first line of a definition, and its name.
HEAD = re.compile(r"(?:abbrev |unfoldable )?(?:pub )?(?:record |data |(?=\S+ : ))(\S+)")
NAME = re.compile(r"[A-Za-z_][\w']*(?:\.[A-Za-z_][\w']*)?|◌[^\s(){}]*◌|>>=|\bdo\b")


def read(path):
    with open(path, encoding="utf-8") as file:
        return file.read()


class Function:
    """A function, from its beginning to the next item. Its path below the crate is the one that the
    prover prints: `room::Room::add`, or, if a type implements a trait,
    `source::MemSourceSource::size`. Without a path (in an impl that names more than its own
    parameters, as `From<Fault>`) the prover names it otherwise; without a name this text is in no
    function. Those that a derive writes are left out."""

    def __init__(self, begin, path=None, name=None, is_in_cycle=False):
        self.begin, self.path, self.name, self.is_in_cycle, self.text = begin, path, name, is_in_cycle, ""

    def before_body(self):
        """Returns the length of the text up to the body's brace, or 0 if there is none."""
        found = re.search(rf"^{self.indent()}\{{$", self.text, re.M) or re.search(r"\{$", self.text, re.M)
        return found.end() if found else 0

    def indent(self):
        return re.match(" *", self.text)[0]

    def without_body(self):
        """Returns the text with `loop {}` as the body."""
        begin = self.before_body()
        # The text of a function outside of impls ends before its last brace.
        end = begin and re.search(rf"^{self.indent()}\}}$" if self.indent() else r"\Z", self.text[begin:], re.M)
        if not end or re.search(r"\bconst .*fn |-> impl\b", self.text[:begin]):
            return self.text
        return f"{self.text[:begin]}\n{self.indent()}    loop {{}}\n{self.text[begin + end.start() :]}"


def owner_of(header):
    """Returns the prover's name of an impl, or None if it names more than its own parameters."""
    text = re.sub(r"\s+", " ", header.partition("{")[0]).strip()
    # Bounds of the parameters may have brackets of their own.
    text = re.sub(r"(?<=\w): [^<>,]*(?:<[^<>]*>)?", "", text)
    found = HEADER.fullmatch(text)
    if not found:
        return None
    own = {it.strip() for it in (found[1] or "").split(",")}
    named = {it.strip() for group in (found[3], found[5]) for it in (group or "").split(",")}
    if not named - {"", "'_"} <= own:
        return None
    # An impl for a parameter is one for any type.
    kind = "Any" if found[4] in own else found[4].split("::")[-1]
    return kind + (found[2] or "").split("::")[-1]


def homes_of(text, module):
    """Returns the modules of what the file of a module brings in from its crate. The prover names a
    method by the module of its type, wherever the impl is."""
    found = [(it[1].split("::"), it[2] or it[3]) for it in IMPORTED.finditer(text)]
    found += [(module[:-1], it[1] or it[2]) for it in ABOVE.finditer(text)]
    return {name.strip(): home for home, names in found for name in names.split(",")}


def functions_in(file, module, homes):
    """Yields the functions of a file of a module, and the text between them."""
    begin, header, is_in_cycle = 0, None, False
    for line in file:
        if header is not None and "{" not in header:
            header += line
        elif BLOCK.match(line) or ITEM.match(line) or line.startswith("}"):
            header = line if BLOCK.match(line) else None
            yield Function(begin)
        found = FUNCTION.match(line)
        if found and (header is not None or not found[1]):
            owner = owner_of(header) if found[1] else None
            path = "::".join([*homes.get(owner, module), owner, found[2]] if owner else [*module, found[2]])
            yield Function(begin, None if found[1] and not owner else path, found[2], is_in_cycle)
            is_in_cycle = False
        is_in_cycle = is_in_cycle or line.lstrip().startswith("#[cycle(")
        begin += len(line)


def functions_of_text(text, name):
    """Returns the functions of a file's text; the name is the file's below the crate's folder."""
    module = name[len("src/") : -len(".rt")].split("/")
    module = [] if module == ["lib"] else module
    found = list(functions_in(text.splitlines(True), module, homes_of(text, module)))
    for it, end in zip(found, [*(after.begin for after in found[1:]), len(text)]):
        it.text = text[it.begin : end]
        # One that calls itself is a cycle of its own.
        it.is_in_cycle = it.is_in_cycle or bool(re.search(rf"(?<!fn )(?:(?<![.\w:])|\bself\.){it.name}\(", it.text))
    return found


def functions_of(folder):
    """Returns the functions of the crate in a folder, by their files."""
    paths = sorted(glob.glob(f"{folder}/src/**/*.rt", recursive=True))
    return {name: functions_of_text(read(path), name) for path in paths for name in [os.path.relpath(path, folder)]}


def function_at(functions, place):
    """Returns the function whose body has an offset of its file's text, or None."""
    it = next((it for it in reversed(functions) if it.begin <= place), None)
    return it if it and it.name and it.before_body() and it.begin + it.before_body() <= place else None


def without_bodies(text, name, kept):
    """Returns a file's text with `loop {}` as the body of each function except those whose paths are
    kept, those of cycles of calls, and those that the compiler runs or takes a type from."""
    its = functions_of_text(text, name)
    parts = [it.text if not it.path or it.path in kept or it.is_in_cycle else it.without_body() for it in its]
    return text[: its[0].begin if its else len(text)] + "".join(parts)


def imports_of(text):
    """Returns where each name that a text imports comes from: a module, and its name there if any."""
    return {new: (module, name) for line in USE.findall(text) for module, name, new in paths_of("", line)}


def paths_of(outer, path):
    """Yields what a path below a module imports: `A.{b, C.{d as e}}` `b` of A, and `d` of A.C as `e`."""
    module, has_names, names = path.partition(".{")
    if has_names:
        for it in parts_of(names[: names.rindex("}")]):
            yield from paths_of(f"{outer}{module}.", it)
    else:
        old, _, new = module.partition(" as ")
        above, _, name = f"{outer}{old}".rpartition(".")
        yield (above, name, new or name) if outer else (old, None, new or name)


def parts_of(names):
    """Returns the parts of a list that commas separate outside all braces."""
    found, depth = [""], 0
    for letter in names:
        depth += (letter == "{") - (letter == "}")
        found += [""] if letter == "," and not depth else []
        found[-1] += letter
    return [it.strip(", ") for it in found if it.strip(", ")]


class Block:
    """What functions are in: nothing, a trait, or an impl, which may be of a trait."""

    def __init__(self, header):
        own, of = TRAIT.match(header).groups() if TRAIT.match(header) else (None, None)
        self.trait, self.declares, self.has_ghosts = (own or of or "").split("::")[-1], bool(own), False
        self.owner = f"{own or owner_of(header) or ''}::" if header else ""
        self.is_public = header.startswith("pub trait")


class Contract:
    """A function's doc comment, its clauses, and the number of its lines of code."""

    def __init__(self, path, lines, at, block):
        line = lines[at]
        self.name, self.path, self.line, self.block = FUNCTION.match(line)[2], path, at + 1, block
        self.is_public = line.lstrip().startswith("pub ") or block.is_public
        self.doc, self.clauses, self.code = comment_above(lines, at, "///"), [], 0
        self.has_body = self.take(lines[at:], line[: -len(line.lstrip())] + "}")

    def take(self, lines, end):
        """Takes the lines up to the end of the function. Returns whether it has a body."""
        depth, is_open = 0, False
        for line in lines:
            if not is_open and (depth or CLAUSE.match(line.strip())):
                self.clauses += [] if depth else [""]
                self.clauses[-1] += f" {line.strip().rstrip(';')}"
                depth += line.count("{") - line.count("}")
            else:
                self.code += not NO_CODE.match(line.strip())
                is_open = is_open or line.endswith("{")
            if line == end or (line.endswith(";") and not is_open and not depth):
                return is_open

    def is_given(self, declared):
        by_ghosts = bool(self.block.trait) and self.block.has_ghosts
        return bool(self.clauses) or declared.get((self.block.trait, self.name), by_ghosts)


def comment_above(lines, at, mark):
    begin = at
    while begin and re.match(rf"\s*({mark}|#\[|\)\])", lines[begin - 1]):
        begin -= 1
    return [it.strip() for it in lines[begin:at] if it.strip().startswith(mark)]


def contracts_of(crate):
    """Yields the contracts of a crate's functions."""
    for path in sorted(glob.glob(f"crates/{crate}/src/**/*.rt", recursive=True)):
        lines, block = read(path).split("\n"), Block("")
        for at, line in enumerate(lines if os.path.basename(path) != "samples.rt" else []):
            if BLOCK.match(line) or line.startswith("}"):
                block = Block("" if line.startswith("}") else line)
            block.has_ghosts = block.has_ghosts or bool(GHOST.match(line))
            if FUNCTION.match(line):
                yield Contract(path, lines, at, block)


class Definition:
    """A definition of a file: its lines, with the comment above it."""

    def __init__(self, file):
        self.file, self.lines = file, []

    def fields(self):
        """Returns the fields of a record with parameters, and the comments above them."""
        is_record = any(re.match(r"pub record \w+ [({]", it) for it in self.lines)
        found = [at for at, line in enumerate(self.lines) if is_record and line.startswith("  pub ")]
        return [it for at in found for it in [*comment_above(self.lines, at, "--"), self.lines[at][len("  pub ") :]]]

    def equations(self):
        """Returns the right sides of the equations that define a type."""
        found = re.split(r"\n(?=[A-Z]\w*.* =)", "\n".join(self.lines))
        return [it.partition(" =")[2] for it in found[1:]]


class File:
    """A file of definitions, as uimg_base/specs/Device.antt."""

    def __init__(self, path):
        self.path, self.by_name, text = path, {}, read(f"crates/{path}")
        self.lines, self.imports = text.splitlines(), imports_of(text)
        above, found = [], None
        for line in self.lines:
            if line.startswith("--"):
                above.append(line)
                continue
            if line.strip() and not line.startswith(("use ", "infix")):
                found = self.definition_of(line, found)
                found.lines += [*above, line]
            above = []

    def definition_of(self, line, last):
        """Returns the definition that a line begins, or the last one, which it continues."""
        name = HEAD.match(line)
        constructor = re.match(r"  ([\w']+) :", line)
        made = Definition(self) if name else last
        if name or constructor and any(it.startswith("pub data ") for it in last.lines):
            self.by_name.setdefault((name or constructor)[1], made)
        return made


class Definitions:
    """All definitions of the crates, except the lists of modules."""

    def __init__(self):
        paths = [it[len("crates/") :] for it in glob.glob("crates/*/specs/**/*.antt", recursive=True)]
        self.files = {it: File(it) for it in paths if not it.endswith("/Lib.antt")}

    def named(self, words, imports, own=None):
        """Yields the definitions that the words of a text name."""
        for word in words:
            head, _, tail = ("◌>>=◌" if word == "do" else word).partition(".")
            module, name = imports.get(head, ("", None))
            found = self.files.get(f"{module.replace('.', '/')}.antt")
            if own and head in own.by_name:
                yield own.by_name[head]
            elif found and (name or tail) in found.by_name:
                yield found.by_name[name or tail]

    def of_contract(self, module, function):
        """Returns the definitions of the contract of a function of the engine."""
        text = read(f"crates/uimg_engine/src/{module}.rt")
        signature = re.search(rf"^pub fn {function}\b.*?^{{", text, re.M | re.S)[0]
        left, found = [*self.named(NAME.findall(signature.partition("->")[2]), imports_of(text))], []
        while left:
            it = left.pop()
            if it not in found:
                found.append(it)
                left += self.named(NAME.findall("\n".join(it.lines)), it.file.imports, it.file)
        return found

    def fields_of(self, text, imports, own=None):
        """Returns the fields of the record that a text names, directly or by another definition."""
        names = re.findall(r"\b[A-Z]\w*", "" if "×" in text else text.rpartition(" → ")[2])
        it = next((it for it in self.named(names, imports, own) if it.fields() or it.equations()), None)
        other = it.equations() if it else []
        return self.fields_of(other[0], it.file.imports, it.file) if len(other) == 1 else it.fields() if it else []


def files_in(cell):
    """Returns the files that a cell names, in the folder of the one before, or the crates after `of`."""
    names, _, crates = cell.partition(" of ")
    folder, found = "", []
    for it in re.findall(r"`([\w/.]+\.antt)`", names):
        folder = it.rpartition("/")[0] or folder
        found.append(it if "/" in it else f"{folder}/{it}")
    return [f"{it}/specs{found[0]}" for it in re.findall(r"`(\w+)`", crates)] or found


def counted(row, its, files):
    paths = files_in(row[1])
    lines = sum(len(it.lines) for it in its if it.file.path in paths)
    return f"| {row[1]} | {lines} of {sum(len(files[it].lines) for it in paths)} |"


def total(its, more=""):
    return f"{len(its)} | {sum(len(it.lines) for it in its)}{more} | {len({it.file for it in its})} |"


def print_table(crates):
    # A crate that only re-exports calls has no function.
    found = {crate: its for crate in crates if (its := list(contracts_of(crate)))}
    every = [it for own in found.values() for it in own]
    declared = {(it.block.trait, it.name): bool(it.clauses) for it in every if it.block.declares}
    print(f"{'crate':<18}{'functions':>11}{'with contract':>15}{'body lines':>12}{'under contract':>16}")
    for crate, own in [*found.items(), ("in all", every)]:
        own = [(it.code, it.is_given(declared)) for it in own if it.has_body]
        row = [len(own), sum(it for _, it in own), sum(it for it, _ in own), sum(it for it, has in own if has)]
        print(f"{crate:<18}{row[0]:>11}{row[1]:>15}{row[2]:>12}{row[3]:>16}")


def print_contracts(crate):
    known = Definitions()
    for it in (it for it in contracts_of(crate) if it.is_public):
        print("", f"{it.path}:{it.line} {it.block.owner}{it.name}", *(f"    {line}" for line in it.doc), sep="\n")
        for clause in it.clauses:
            print(f"   {clause}", *known.fields_of(clause, imports_of(read(it.path))), sep="\n        ")


def print_files(crate):
    """Prints what each file of a crate's specs/ defines, by its first comment."""
    for path in sorted(glob.glob(f"crates/{crate}/specs/**/*.antt", recursive=True)):
        head = re.match(r"(?:-- .*\n)+", read(path))
        if head:
            print(f"{path}: {' '.join(it[3:] for it in head[0].splitlines())}")


def write_counts():
    path, known = "docs/DEFINITIONS.md", Definitions()
    reading, making = known.of_contract("engine", "run"), known.of_contract("making", "make")
    new = [it for it in making if it not in reading]
    more = f", of them {sum(len(it.lines) for it in new)} new after reading"
    text = re.sub(r"(?m)^(\| reading \| \d+ lines \| ).*$", lambda it: it[1] + total(reading), read(path))
    text = re.sub(r"(?m)^(\| building \| \d+ lines \| ).*$", lambda it: it[1] + total(making, more), text)
    whole = sum(len(it.lines) for it in known.files.values())
    text = re.sub(r"(All of `crates/\*/specs`.*? has )[\d,]+", lambda it: f"{it[1]}{whole:,}", text)
    text = re.sub(r"(?m)^\| (.*?) \| \d+ of \d+ \|", lambda it: counted(it, reading + new, known.files), text)
    with open(path, "w", encoding="utf-8") as file:
        file.write(text)
    print(f"reading: {total(reading)}\nbuilding: {total(making, more)}")


def main(which, crate=None):
    known = kit.Crates().by_name
    if which == "definitions" and crate:
        print_files(crate)
    elif which == "definitions":
        write_counts()
    elif not crate:
        print_table([it for it in known if not test.has_tests(f"crates/{it}")])
    elif crate in known:
        print_contracts(crate)
    else:
        sys.exit(f"uimg: there is no crates/{crate}")


if __name__ == "__main__":
    main(*sys.argv[1:])
