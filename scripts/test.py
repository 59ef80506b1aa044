#!/usr/bin/env python3
"""test.py: the tests, which need no proof. The crates of tests are compiled with run-time checks,
and run, side by side. So is the program, against which the command lines of cases/, README.md,
docs/GUIDE.md, docs/JSON.md and the manual pages are played; those that set limits which its checks
exceed are named, and left to the proved program. With it agree_test.py holds the commands together,
and documents.py the documents. facts_test.py tests the SBOM of a release.

It prints a line for each crate of tests and for the command lines, with what failed; then that
nothing was proved, and last 'N passed, M failed'. The status is 0 if nothing failed."""
import concurrent.futures
import glob
import os
import re
import subprocess
import sys
import tempfile
import time

import kit
import try_build

# The last line of play.py and agree_test.py.
COUNTS = r"^(\d+) passed, (\d+) failed$"
# What is printed of tests that ran to their end.
ENDED = r"^run=ended status=0 .*proved=no$"
MANUALS = sorted(glob.glob("docs/*.[137]"))
PLAYED = [*sorted(glob.glob("cases/*.t")), "README.md", "docs/GUIDE.md", "docs/JSON.md", *MANUALS]


def run(words, folder=".", **environment):
    """Runs a command. Returns its status, and the lines that it prints."""
    how = {"stdin": subprocess.DEVNULL, "stdout": subprocess.PIPE, "stderr": subprocess.STDOUT}
    ended = subprocess.run(words, cwd=folder, env={**os.environ, **environment}, text=True, errors="replace", **how)
    return ended.returncode, ended.stdout.rstrip("\n").split("\n")


def counted(lines, pattern):
    """Returns how many passed and failed by the last line of a form, or one failure if there is
    none."""
    found = [it for it in (re.search(pattern, line) for line in lines) if it]
    return (int(found[-1][1]), int(found[-1][2])) if found else (0, 1)


def tests_of(name):
    """Runs the tests of a crate. Returns how many passed and failed, and the lines to print."""
    with tempfile.TemporaryDirectory(prefix="uimg-tests-") as room:
        status, lines = run(kit.Crates().trial(name), f"crates/{name}", TMPDIR=room)
    passed, failed = counted(lines, r"^test result: \w+\. (\d+) passed; (\d+) failed")
    if not failed and (status or not any(re.match(ENDED, it) for it in lines)):
        failed = 1
    return passed, failed, [*(lines[-24:] if failed else []), f"{name}: {passed} passed, {failed} failed"]


def command_lines():
    """Plays the command lines, and holds the commands and the documents together. Returns how many
    passed and failed, and the lines to print."""
    with tempfile.TemporaryDirectory(prefix="uimg-tried-") as room:
        os.chmod(room, 0o755)
        if not try_build.build(room):
            with open(f"{room}/log", encoding="utf-8", errors="replace") as log:
                return 0, 1, [*log.read().rstrip("\n").split("\n")[-24:], "uimg: it was not compiled"]
        program = f"{room}/uimg"
        parts = (
            ("command lines", ["scripts/play.py", "--tried", program, *PLAYED]),
            ("commands that agree", ["scripts/agree_test.py", program]),
            ("documents", ["scripts/documents.py", program]),
            ("facts of a release", ["scripts/facts_test.py"]),
        )
        said, passed, failed = [], 0, 0
        for what, words in parts:
            status, lines = run(words)
            more, bad = counted(lines, COUNTS)
            bad = bad or int(status != 0)
            passed, failed = passed + more, failed + bad
            said += [*lines[:-1], f"{what}: {more} passed, {bad} failed"]
    return passed, failed, said


def test():
    """Runs all tests, and prints the result of each part. Returns how many passed and failed."""
    crates, begun, passed, failed = kit.Crates(), time.monotonic(), 0, 0
    names = [it for it in crates.by_name if has_tests(f"crates/{it}")]
    # The crate with the most crates below takes the longest.
    names.sort(key=lambda it: -len(crates.below(it)))
    with concurrent.futures.ThreadPoolExecutor(kit.processors()) as pool:
        parts = [pool.submit(command_lines), *(pool.submit(tests_of, it) for it in names)]
        for it in concurrent.futures.as_completed(parts):
            more, bad, lines = it.result()
            passed, failed = passed + more, failed + bad
            print("\n".join(lines), f"({kit.in_words(time.monotonic() - begun)})", flush=True)
    return passed, failed


def has_tests(folder):
    for path in glob.glob(f"{folder}/src/**/*.rt", recursive=True):
        with open(path, encoding="utf-8") as file:
            if re.search(r"^ *#\[test\]", file.read(), re.M):
                return True
    return False


if __name__ == "__main__":
    total = test()
    print("nothing was proved: make gate proves all, and tries the wrong bodies")
    print(f"{total[0]} passed, {total[1]} failed")
    sys.exit(1 if total[1] else 0)
