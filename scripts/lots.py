#!/usr/bin/env python3
"""lots.py [CRATE..]: tries all wrong bodies of these crates, or of all, side by side, and whether
their functions are proved without them. Crates below that are not proved are proved first.

A crate's wrong bodies are tried in lots: the first lot keeps what was checked of the crate's
statements and lemmas, and the others reuse it. The last line is 'N passed, M failed', and the
status 0 if nothing failed."""
import concurrent.futures
import glob
import re
import subprocess
import sys
import tempfile
import threading
import time

import kit
import prove

# The most wrong bodies in a lot.
LOT = 16
# A crate was proved, in this run or by an earlier one on this machine over the same files.
PROVED = re.compile(r"rt: (\w+) (?:proved|is kept: .*)\n")


class Lot:
    """Some wrong bodies of a crate, tried by one process."""

    def __init__(self, name, files, kept, is_first=False, is_right=False):
        self.name, self.files, self.kept, self.is_first, self.is_right = name, files, kept, is_first, is_right
        self.seconds, self.said = 0, ""

    def try_all(self):
        """Tries them. The others reuse what the first lot checked of the crate's statements."""
        words = ["nice", sys.executable, "scripts/wrong_bodies.py", *["--right"] * self.is_right]
        words += ["--kept", f"{self.kept}/{self.name}", self.name, *self.files]
        begun = time.monotonic()
        ran = subprocess.run(words, stdout=subprocess.PIPE, stderr=subprocess.STDOUT, text=True, errors="replace")
        self.seconds, self.said = time.monotonic() - begun, ran.stdout

    def end(self):
        """Prints the results. Returns how many passed and failed."""
        lines = self.said.rstrip("\n").split("\n")
        count = re.fullmatch(r"(\d+) passed, (\d+) failed", lines[-1])
        print("\n".join(lines[:-1] if count else lines), flush=True)
        print(f"{self.name}: {len(self.files)} wrong bodies took {kit.in_words(self.seconds)}", flush=True)
        return (int(count[1]), int(count[2])) if count else (0, len(self.files))


class WrongBodies:
    """The wrong bodies of crates, in lots: of a crate the first alone, then the others side by
    side."""

    def __init__(self, at_once, files, kept, with_right=False):
        """Files has those of each crate; kept is a folder for what the lots share."""
        self.pool, self.waiting, self.tried = concurrent.futures.ThreadPoolExecutor(at_once), [], []
        self.crates, self.lock = kit.Crates(), threading.Lock()
        self.proved, self.left, self.later = set(), {}, {}
        for name, its in files.items():
            count = -(-len(its) // LOT)
            self.left[name] = [Lot(name, its[at::count], kept, at == 0) for at in range(count)]
            # A function that is proved beside a wrong body here may have no body there.
            self.left[name] += [Lot(name, its[at::count], kept, is_right=True) for at in range(count if with_right else 0)]
        self.begin_ready()

    def begin(self, line):
        """Begins those of crates that wait for no other when a line reports that one is proved."""
        found = PROVED.fullmatch(line)
        if found:
            self.add_proved([found[1]])

    def add_proved(self, names):
        self.proved.update(names)
        self.begin_ready()

    def begin_ready(self):
        for name in sorted(self.left):
            if self.proved >= set(self.crates.below(name)):
                first, *self.later[name] = self.left.pop(name)
                self.add([first])

    def add(self, lots):
        """Lets lots wait for a lane."""
        with self.lock:
            self.waiting += lots
            self.tried += [self.pool.submit(self.try_dearest) for _ in lots]

    def cost(self, lot):
        """How long a lot takes, relative to another: each check loads the crates below. What
        comes after it counts too."""
        after = self.later[lot.name] if lot.is_first else []
        return sum(len(it.files) for it in [lot, *after]) * (1 + len(self.crates.below(lot.name)))

    def try_dearest(self):
        """Tries the waiting lot that takes the longest, so none is left alone at the end."""
        with self.lock:
            lot = max(self.waiting, key=self.cost)
            self.waiting.remove(lot)
        lot.try_all()
        if lot.is_first:
            self.add(self.later[lot.name])
        return lot

    def end(self):
        """Prints the results. Returns how many passed and failed; a lot that was not tried,
        since a crate below its own is not proved, failed."""
        passed = failed = 0
        # A first lot adds the others of its crate before it ends.
        for it in self.tried:
            more, bad = it.result().end()
            passed, failed = passed + more, failed + bad
        for name, lots in sorted(self.left.items()):
            failed += sum(len(it.files) for it in lots)
            print(f"{name}: its wrong bodies were not tried", flush=True)
        print(f"wrong bodies: {passed} passed, {failed} failed\n", flush=True)
        return passed, failed


def every_file(names):
    """Returns the wrong bodies of crates, by crate."""
    found = {name: sorted(glob.glob(f"crates/{name}/must-fail/*.edit")) for name in names}
    return {name: files for name, files in found.items() if files}


def main(names):
    crates = kit.Crates()
    unknown = [it for it in names if it not in crates.by_name]
    if unknown:
        print(f"uimg: crates.txt has no crate {unknown[0]}", file=sys.stderr)
        return 2
    files = every_file(names or crates.by_name)
    below = {it for name in files for it in crates.below(name)}
    if prove.prove(sorted(below), True):
        return 1
    with tempfile.TemporaryDirectory(prefix="uimg-wrong-") as kept:
        tried = WrongBodies(kit.processors(), files, kept, with_right=True)
        tried.add_proved(below)
        passed, failed = tried.end()
    print(f"{passed} passed, {failed} failed")
    return 1 if failed else 0


if __name__ == "__main__":
    sys.exit(main(sys.argv[1:]))
