#!/usr/bin/env python3
"""wrong_bodies.py [--right] [--kept KEPT] CRATE [FILE..]: tries the wrong bodies of a crate, which
are these files, or else crates/CRATE/must-fail/*.edit. The prover must refuse each. It works over
the libraries that `rt ci` or `make` left in crates/*/out/rlib; only those of the crates below are
needed. What was checked of the crate's statements and lemmas is kept in KEPT, or reused if KEPT
exists.

A function is proved from its own body and the contracts of those that it calls. So only the
functions with wrong bodies are proved, several in one check, each with one wrong body; for each
other function of the crate its contract is assumed, by a hole in place of its proof
(`--allow-holes`), and its body is `loop {}`, since the prover reads all that a function to be
proved leads to.

A wrong body is refused if a clause of its own function is: if what the function ensures is not
proved where it returns, by a search or by its written answer; or if a condition with a label is not
of a call that it makes. A sentinel is refused if all the clauses are that scripts/sentinels.txt
names with it. One that is refused for anything else is not refused: a loop's invariant, a measure,
a lemma that no longer fits, an answer that only names what is not there, or an open goal if the
function has an answer to a goal that is gone. A wrong body outside of functions may name a lemma
there, one that states what a table is.

If a check refuses a function without a wrong body, or a lemma, it counts for nothing, and each half
is tried by itself, down to a single one. A wrong body outside of functions, as in a row of a table,
may change what other functions are proved from: it is tried alone, over all functions of its file,
and if these are proved, over the whole crate.

With --right the wrong bodies are left out, in one check: each of their functions must be proved
then, which shows that a refusal comes from the wrong body and not from how it is tried.

It prints a line for each wrong body, `refused` with the clauses, `NOT REFUSED` or `BAD EDIT`, or for
each right one, and last 'N passed, M failed'."""
import argparse
import glob
import os
import re
import shutil
import signal
import subprocess
import sys
import tempfile

import declarations
import kit

# The files of a proof that a hole replaces.
ANSWERS = ("Invariants.antt", "Answers.antt", "Proof.antt")
HOLE = """use Rattle.{crate}.proofs.{module}.Statement.{{statement}}

module _ {{M : Type 1}} where
  pub {name}_spec : statement M
  {name}_spec = ?
"""
# What a check says of a function: that it is proved, except for holes; that no search proves a goal
# of its own, or that a measure or an invariant is missing; or that its contract cannot be read.
SAID = re.compile(r"fn (\S+): (.*)")
PROVED = re.compile(r"proved|no holes|depends on a hole in .*")
UNFOUND = re.compile(r"no proof: expected .* in (?:\./)?proofs/\S+\.antt.*")
UNSTATED = re.compile(r"no proof: antt did not admit its contract.*")
# An error in a proof: in the answers of a function, or in lemmas that several may cite.
ERROR = re.compile(r"(?:\./)?proofs/(\S+?)(?:/(?:Answers|Invariants|Proof))?\.antt:\d+:\d+: error")
# What an error is in: the answer to a goal, or a lemma.
ERROR_IN = re.compile(r".*?: error: `([^`]+)`: ")
# An error for a name alone: a proof names what the wrong body removed, so it says nothing of the
# contract.
NAMED = re.compile(r".*: error: .*(has no `|has no field|is not in scope|was not admitted|were not admitted)")
# An error for an answer to a goal that is not there: it may only have been renamed.
RENAMED = re.compile(r".*: error: `[^`]+`: `goal\.[^`]+`: module `[^`]+\.Goals` has no `")
# The goals that no search proves, and the answer that is refused.
OPEN = re.compile(r"`search` did not prove ((?:`[^`]+`(?:, )?)+)")
REFUSED_ANSWER = re.compile(r"`[^`]+\.Answers\.([^`.]+)`")
# A goal that a function meets where it returns, with the label of its clause if it has one.
CLAUSE = re.compile(r"(?:.*-)?returns(?:-(?:.*-)?clause-(\w+))?(?:-.*)?|.*-requires-clause-(\w+)(?:-.*)?")
# The name of a clause without a label, and of all clauses where a function proves them at once.
UNLABELLED = "its clause"
SENTINELS = "scripts/sentinels.txt"
# A sentinel: its crate and name, its function, and the clauses that must refuse it.
SENTINEL = re.compile(r"(\w+/[\w-]+): (\S+) \((\w[\w ,]*)\)")
# The prover's messages for a text that it cannot read.
UNREAD = re.compile(r"(?:\./)?(?:src|specs)/\S+:\d+:\d+: error")
ENDED = re.compile(r"only=\d+ (holes|proved)=\d+|holes=\d+|logic=(not-)?proved\b.*")


class Edit:
    """A wrong body: the texts that it changes in one file of the crate, and the functions that
    have them."""

    def __init__(self, path, folder, known):
        self.name, self.pairs, self.file = os.path.basename(path), [], ""
        old = None
        with open(path, encoding="utf-8") as lines:
            for line in lines.read().split("\n"):
                if line.startswith("file: "):
                    self.file = line[len("file: ") :].strip()
                elif line.startswith("old: "):
                    old = line[len("old: ") :]
                elif line.startswith("new:") and old is not None:
                    self.pairs.append((old, re.sub(r"\A ", "", line[len("new:") :])))
                    old = None
        with open(f"{folder}/{self.file}", encoding="utf-8") as file:
            text = file.read()
        found = []
        for old, new in self.pairs:
            found.append(declarations.function_at(declarations.functions_of_text(text, self.file), text.find(old)))
            text = text.replace(old, new)
        # The functions of a cycle of calls have one proof.
        self.is_wide = any(it is None or it.path is None or it.is_in_cycle for it in found)
        self.places = {it.path for it in (known[self.file] if self.is_wide else found) if it.path}

    def apply(self, text):
        """Returns the text with the wrong body in it, or None if one of its texts does not occur
        exactly once."""
        for old, new in self.pairs:
            if text.count(old) != 1:
                return None
            text = text.replace(old, new)
        return text if self.pairs else None


class Trials:
    """The checks of one crate. They share what was checked of its statements and lemmas."""

    def __init__(self, name, room, kept):
        self.name, self.folder, self.room = name, os.path.abspath(f"crates/{name}"), room
        self.words, self.known = kit.Crates().command(name, "check", 1), declarations.functions_of(f"crates/{name}")
        self.sentinels = sentinels()
        if kept and os.path.isdir(kept):
            self.kept = f"{room}/kept"
            shutil.copytree(kept, self.kept)
        else:
            self.kept = os.path.abspath(kept or f"{room}/kept")
            os.mkdir(self.kept)

    def copy(self, texts, proved):
        """Makes a copy of the crate with these texts in place of its own, with holes for all
        functions except those to be proved, if these are given. Returns its folder."""
        crate = tempfile.mkdtemp(dir=self.room)
        for part in kit.PARTS:
            if os.path.isdir(f"{self.folder}/{part}"):
                shutil.copytree(f"{self.folder}/{part}", f"{crate}/{part}")
        for path, text in texts.items():
            with open(f"{crate}/{path}", "w", encoding="utf-8") as file:
                file.write(text)
        for path in self.known if proved else ():
            self.assume_others(crate, path, proved)
        return crate

    def assume_others(self, crate, path, proved):
        """Puts holes for the functions of a file that are not to be proved. They get no body either,
        so what they call is not read: the prover reads all that a function to be proved leads to."""
        for it in (it for it in self.known[path] if it.path and it.path not in proved and not it.is_in_cycle):
            self.put_hole(f"{crate}/proofs/{it.path.replace('::', '/')}", it)
        with open(f"{crate}/{path}", encoding="utf-8") as file:
            text = declarations.without_bodies(file.read(), path, proved)
        with open(f"{crate}/{path}", "w", encoding="utf-8") as file:
            file.write(text)

    def put_hole(self, folder, function):
        os.makedirs(folder, exist_ok=True)
        for it in ANSWERS:
            if os.path.exists(f"{folder}/{it}"):
                os.remove(f"{folder}/{it}")
        with open(f"{folder}/Proof.antt", "w", encoding="utf-8") as file:
            file.write(HOLE.format(crate=self.name, module=function.path.replace("::", "."), name=function.name))

    def check(self, texts, proved):
        """Checks a copy of the crate. Only the given functions are to be proved, or all if none
        is given. Returns the lines that the check prints, or None if it reaches no verdict."""
        crate = self.copy(texts, proved)
        words = [*self.words, "--incremental", self.kept, "--allow-holes"]
        for it in sorted(proved):
            words += ["--only", it]
        ran = subprocess.run(
            words,
            cwd=crate,
            stdin=subprocess.DEVNULL,
            stdout=subprocess.PIPE,
            stderr=subprocess.STDOUT,
            text=True,
            errors="replace",
        )
        shutil.rmtree(crate)
        lines = ran.stdout.rstrip("\n").split("\n")
        said = [found[2] for it in lines for found in [SAID.fullmatch(it)] if found]
        is_read = not any(UNREAD.match(it) for it in lines) and not any(UNSTATED.match(it) for it in said)
        return lines if ran.returncode in (0, 1) and ENDED.fullmatch(lines[-1]) and is_read else None

    def refusals(self, edits, proved):
        """Checks the crate with these wrong bodies. Returns what is refused for its own sake, by
        its path, or None without a verdict."""
        texts = {}
        for edit in edits:
            texts[edit.file] = edit.apply(texts.get(edit.file) or self.text_of(edit))
        lines = self.check(texts, proved)
        return None if lines is None else refused_in(lines, self.name)

    def text_of(self, edit):
        """Returns the right text of a wrong body's file."""
        with open(f"{self.folder}/{edit.file}", encoding="utf-8") as file:
            return file.read()


class Refusal:
    """Why a function, or a lemma, is refused for its own sake: a line of the check, and the goals or
    lemmas that do not hold."""

    def __init__(self, why, goals):
        self.why, self.goals = why, goals

    def clauses(self):
        """Returns the clauses among its goals."""
        found = [CLAUSE.fullmatch(it) for it in self.goals]
        return {it[1] or it[2] or UNLABELLED for it in found if it}


def refused_in(lines, name):
    """Returns what is refused in a check for its own sake, not only since it calls a refused
    function, by its path; a refused lemma is listed by its module."""
    errors = {}
    for line in lines:
        found = ERROR.match(line)
        if found:
            errors.setdefault(found[1].replace("/", "::"), []).append(line)
    refused, told = {}, set()
    for path, why in (found.groups() for it in lines for found in [SAID.fullmatch(it)] if found):
        path = path.removeprefix(f"{name}::")
        own = f"Rattle.{name}.proofs.{path.replace('::', '.')}."
        if UNFOUND.match(why) or why.startswith("not proved") and (path in errors or f"`{own}" in why):
            its, place = errors.get(path, []), function_of(path, name)
            # A closure's goals are those of the function that contains it.
            goals = goals_of(its, why) | (refused[place].goals if place in refused else set())
            refused[place] = Refusal(its[0] if its else f"fn {name}::{path}: {why}", goals)
        told.add(path)
    refused.update({path: Refusal(its[0], goals_of(its, "")) for path, its in errors.items() if path not in told})
    return refused


def goals_of(errors, why):
    """Returns the goals that do not hold by the errors in a function's answers and the line about
    it, without those whose answer only names what is not there. If the goal of an answer is not there,
    it may only have been renamed, so open goals prove nothing."""
    named = {ERROR_IN.match(it)[1] for it in errors if NAMED.match(it) and ERROR_IN.match(it)}
    found = {ERROR_IN.match(it)[1] for it in errors if ERROR_IN.match(it)}
    found.update(REFUSED_ANSWER.findall(why))
    if not any(map(RENAMED.match, errors)):
        found.update(goal for it in OPEN.findall(why) for goal in re.findall("`([^`]+)`", it))
    return found - named


def sentinels():
    """Returns for each sentinel, by its crate and name, its function and the clauses that must
    refuse it."""
    with open(SENTINELS, encoding="utf-8") as file:
        lines = [it.rstrip("\n") for it in file if it.strip() and not it.startswith("#")]
    found = [SENTINEL.fullmatch(it) for it in lines]
    bad = [line for it, line in zip(found, lines) if not it]
    if bad:
        sys.exit(f"{SENTINELS}: {bad[0]}")
    return {it[1]: (it[2], set(it[3].split(", "))) for it in found}


def proved_in(lines, name):
    """Returns the paths of the functions that the lines of a check say are proved."""
    said = [found.groups() for it in lines or [] for found in [SAID.fullmatch(it)] if found]
    return {path.removeprefix(f"{name}::") for path, why in said if PROVED.fullmatch(why)}


def function_of(path, name):
    """Returns the function of a path: for a closure the one that contains it."""
    found = re.match(rf"{name}\+\+([\w+]+?)\+(?:FnMut|FnOnce|Fn)::", path)
    return found[1].replace("++", "::") if found else path.replace("fn::", "").partition("+")[0]


def next_group(left, trials):
    """Returns the wrong bodies of a round, no two of them in one function; one outside of
    functions is alone."""
    if left[0].is_wide:
        return left[:1]
    group, taken, texts = [], set(), {}
    for edit in left:
        text = edit.apply(texts.get(edit.file) or trials.text_of(edit))
        if not edit.is_wide and not edit.places & taken and text is not None:
            group.append(edit)
            taken |= edit.places
            texts[edit.file] = text
    return group


def try_alone(trials, edit):
    """Returns whether a wrong body is refused alone, and why."""
    refused = trials.refusals([edit], edit.places)
    if edit.is_wide and not refused:
        refused = trials.refusals([edit], set())
    if refused is None:
        return False, "NOT REFUSED: the check did not reach the prover"
    return verdict(trials, edit, refused)


def verdict(trials, edit, refused):
    """Returns whether a wrong body is refused by a clause, and why, from what a check refuses."""
    own = {place: it for place, it in refused.items() if edit.is_wide or place in edit.places}
    if not own:
        return False, "NOT REFUSED: it is still proved, or only what it stands beside is refused"
    function, wanted = trials.sentinels.get(f"{trials.name}/{edit.name.removesuffix('.edit')}", (None, set()))
    found = set().union(*(it.clauses() for place, it in own.items() if function in (None, place)))
    lemmas = {f"lemma {goal}" for it in own.values() for goal in it.goals} if edit.is_wide else set()
    first = next(iter(own.values()))
    if wanted <= found | lemmas if wanted else found:
        return True, f"by {', '.join(sorted(wanted or found))}: {first.why}"
    names = ", ".join(sorted({goal for it in own.values() for goal in it.goals})) or "names that are not there"
    return False, f"NOT REFUSED by {', '.join(sorted(wanted)) or 'a clause'}, but for {names}: {first.why}"


def try_group(trials, group):
    """Yields each wrong body of a group with whether it is refused, and why; those that a round
    does not decide are tried again."""
    if len(group) == 1:
        yield group[0], try_alone(trials, group[0])
        return
    places = {place for edit in group for place in edit.places}
    refused = trials.refusals(group, places) or {}
    sound = set(refused) <= places
    left = [edit for edit in group if not sound or not edit.places & set(refused)]
    for edit in group:
        if edit not in left:
            yield edit, verdict(trials, edit, refused)
    half = (len(left) + 1) // 2 if len(left) == len(group) else len(left)
    for part in (left[:half], left[half:]):
        if part:
            yield from try_group(trials, part)


def try_all(trials, edits):
    """Yields each wrong body with whether it is refused, and why."""
    left = [edit for edit in edits if edit.apply(trials.text_of(edit)) is not None]
    for edit in edits:
        if edit not in left:
            yield edit, (False, "BAD EDIT: a text of it does not stand in its file just once")
    while left:
        group = next_group(left, trials)
        yield from try_group(trials, group)
        left = [edit for edit in left if edit not in group]


def main(given):
    known = declarations.functions_of(f"crates/{given.crate}")
    paths = given.files or sorted(glob.glob(f"crates/{given.crate}/must-fail/*.edit"))
    edits = [Edit(path, f"crates/{given.crate}", known) for path in paths]
    passed = failed = 0
    with tempfile.TemporaryDirectory(prefix="uimg-wrong-") as room:
        trials = Trials(given.crate, room, given.kept)
        for is_well, line in (right if given.right else wrong)(trials, edits):
            passed, failed = passed + is_well, failed + (not is_well)
            print(line)
    print(f"{passed} passed, {failed} failed")
    return 1 if failed else 0


def wrong(trials, edits):
    """Yields for each wrong body whether it is refused, and a line about it."""
    found = dict(try_all(trials, edits))
    for edit in edits:
        is_refused, why = found[edit]
        yield is_refused, f"must-fail {trials.name}/{edit.name}: {'refused, as it must be, ' if is_refused else ''}{why[:240]}"


def right(trials, edits):
    """Yields for each function with a wrong body whether it is proved without it, and a line
    about it."""
    places = {place for edit in edits for place in edit.places}
    lines = trials.check({}, places)
    proved = proved_in(lines, trials.name)
    for place in sorted(places):
        yield place in proved, f"right {trials.name}::{place}: {'proved' if place in proved else 'NOT PROVED'}"
    for lemma, why in sorted(refused_in(lines or [], trials.name).items()):
        if lemma not in places:
            yield False, f"right {trials.name}::{lemma}: NOT PROVED: {why.why[:200]}"


def words():
    parser = argparse.ArgumentParser()
    parser.add_argument("--right", action="store_true")
    parser.add_argument("--kept")
    parser.add_argument("crate")
    parser.add_argument("files", nargs="*")
    return parser.parse_args()


if __name__ == "__main__":
    signal.signal(signal.SIGTERM, lambda number, frame: sys.exit(143))
    sys.exit(main(words()))
