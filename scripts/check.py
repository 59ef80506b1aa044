#!/usr/bin/env python3
"""check.py [CRATE]: proves a crate and what changed below it, and runs its tests beside that,
compiled with run-time checks.

What was checked of the crate is kept in crates/CRATE/out/incremental. The first check of a crate
takes as long as its proof, with a job for each processor; later ones check only what changed.
Without CRATE it proves each crate of the program that changed, or that uses one that did."""
import os
import subprocess
import sys
import threading
import time

import kit
import prove
import test


def tests_of(crates, name):
    """Returns the crate with the tests of a crate: itself, or of those that use it the one with
    the fewest crates below."""
    if test.has_tests(f"crates/{name}"):
        return name
    found = [it for it in crates.by_name if it.endswith("_tests") and name in crates.below(it)]
    return min(found, key=lambda it: len(crates.below(it)), default=None)


def is_proved(crates, name):
    """Checks the crate, and prints the result."""
    kept, begun = f"crates/{name}/out/incremental", time.monotonic()
    jobs = 1 if os.path.isdir(kept) else kit.processors()
    os.makedirs(kept, exist_ok=True)
    words = [*crates.command(name, "check", jobs), "--incremental", "out/incremental"]
    with open(f"out/{name}.log", "w", encoding="utf-8") as log:
        ended = subprocess.run(words, cwd=f"crates/{name}", stdin=subprocess.DEVNULL, stdout=log, stderr=subprocess.STDOUT)
    if ended.returncode:
        print("\n".join(prove.first_error(f"out/{name}.log")))
    what = "is proved" if ended.returncode == 0 else "is not proved"
    print(f"{name} {what}, {kit.in_words(time.monotonic() - begun)}; its log is out/{name}.log", flush=True)
    return ended.returncode == 0


class Tests:
    """The tests of a crate, which run beside its proof."""

    def __init__(self, name):
        self.name, self.begun, self.answer = name, time.monotonic(), (0, 0, [])
        self.thread = threading.Thread(target=self.run)
        if name:
            self.thread.start()

    def run(self):
        self.answer = test.tests_of(self.name)

    def pass_all(self):
        """Prints their results. Returns whether they pass."""
        if self.name:
            self.thread.join()
            print("\n".join(self.answer[2]), f"({kit.in_words(time.monotonic() - self.begun)})")
        return self.answer[1] == 0


def check(name):
    crates = kit.Crates()
    if name not in crates.by_name:
        print(f"uimg: there is no crates/{name}", file=sys.stderr)
        return 2
    os.makedirs("out", exist_ok=True)
    below = crates.below(name)
    if below and prove.prove(below, True):
        return 1
    tests = Tests(tests_of(crates, name))
    is_right = test.has_tests(f"crates/{name}") or is_proved(crates, name)
    return 0 if tests.pass_all() and is_right else 1


if __name__ == "__main__":
    words = sys.argv[1:]
    sys.exit(check(words[0]) if words else prove.prove(["uimg"], False))
