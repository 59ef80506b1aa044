#!/usr/bin/env python3
"""prove.py [-q] CRATE..: proves these crates and those below them, side by side, each once those
below it are proved; then compiles a program or a library for C. What is proved already is skipped,
and an interrupted run resumes with the crates that it had not finished.

A crate is proved from nothing, with one job except for those of JOBS, and its library holds what
the crates above may cite. The results are in crates/CRATE/out: rlib, the program or the archive,
the file `statement`, what the prover said, and the file `proved` with the sum of all that the proof
depends on, and that of what it made.

On a terminal one line shows the progress; elsewhere, or with -q, each crate has its line. The
log of a crate is out/CRATE.log. The status is 0 if all are proved."""
import hashlib
import os
import re
import shutil
import signal
import subprocess
import sys
import threading
import time

import kit

# The most memory of a job, in bytes, as measured.
MEMORY = 2_500_000_000
# A job is a copy of all that a check reads, so a crate has one. Idle processors go to crates that
# gain by more, up to these numbers. Measured on four virtual processors, in seconds of the clock
# (of processors): uimg_base with three jobs 93 (228), with one 179 (181), beside other work;
# uimg_blob_reading 73 (200), with one 161; uimg_tool 179 (471), with one 349.
JOBS = {"uimg_base": 3, "uimg_blob_reading": 3, "uimg_tool": 3}


class Proof:
    """The proof of a crate, run by a thread."""

    def __init__(self, crates, name, stamp, jobs):
        self.crates, self.crate, self.stamp = crates, crates.by_name[name], stamp
        self.name, self.jobs = name, jobs
        self.begun, self.log, self.running, self.is_proved = time.monotonic(), f"out/{name}.log", None, False
        self.thread = threading.Thread(target=self.carry_out)
        self.thread.start()

    def carry_out(self):
        made = f"{self.crate.folder}/out"
        os.makedirs(made, exist_ok=True)
        for it in (f"{made}/proved", f"{made}/rlib"):
            shutil.rmtree(it) if os.path.isdir(it) else os.path.exists(it) and os.remove(it)
        with open(self.log, "w", encoding="utf-8") as log:
            self.is_proved = all(self.is_done(words, log) for words in self.steps())
        if self.is_proved and self.has_changed():
            self.is_proved = False
            with open(self.log, "a", encoding="utf-8") as log:
                log.write(f"error: files of {self.name}, or of a crate below it, changed while it was proved\n")
        if self.is_proved:
            sums = f"{self.stamp}\n{sum_of_made(self.crate)}"
            for name, text in (("statement", statement(self.log)), ("proved", sums)):
                with open(f"{made}/{name}", "w", encoding="ascii") as file:
                    file.write(text)

    def has_changed(self):
        """Returns whether a file that the proof depends on is another one than at its beginning, or
        than when the crate below was proved whose library it read."""
        now = {}
        self.crates.stamp(self.name, now)
        return now.pop(self.name) != self.stamp or any(stamp_of(self.crates.by_name[it]) != now[it] for it in now)

    def steps(self):
        """Yields the commands that prove it, and compile it if no crate above uses its library."""
        if self.crate.makes_library():
            os.makedirs(os.path.dirname(self.crate.rlib))
            yield [*self.crates.command(self.name, "build", self.jobs), "--statements", "-o", self.crate.rlib]
        else:
            yield from self.crates.compilation(self.name, f"{self.crate.folder}/out")

    def is_done(self, words, log):
        how = {"cwd": self.crate.folder, "stdin": subprocess.DEVNULL, "start_new_session": True}
        self.running = subprocess.Popen(words, stdout=log, stderr=subprocess.STDOUT, **how)
        return self.running.wait() == 0

    def is_ended(self):
        return not self.thread.is_alive()

    def stop(self):
        if self.running and self.running.poll() is None:
            os.killpg(self.running.pid, signal.SIGTERM)
        self.thread.join()

    def since(self):
        return kit.in_words(time.monotonic() - self.begun)


def stamp_of(crate):
    """Returns the sum with which a crate was proved, or None if it was not, or if what was made then
    is another one now."""
    path = f"{crate.folder}/out/proved"
    if not os.path.isfile(path):
        return None
    with open(path, encoding="ascii") as file:
        stamp, _, made = file.read().partition("\n")
    return stamp if made == sum_of_made(crate) else None


def sum_of_made(crate):
    """Returns the sum of a crate's library, or of its program or archive."""
    made = f"{crate.folder}/out"
    files = [f"{made}/{crate.name}", f"{made}/lib{crate.name}.a"]
    files += [f"{at}/{it}" for at, _, names in os.walk(crate.rlib) for it in names]
    parts = [kit.sum_of(it) for it in sorted(files) if os.path.isfile(it)]
    return hashlib.sha256("\n".join(parts).encode()).hexdigest()


class Screen:
    """The line that is redrawn on a terminal, and the lines that remain."""

    def __init__(self, quiet):
        self.draws = sys.stdout.isatty() and not quiet

    def line(self, text):
        print(f"\r\x1b[K{text}" if self.draws else text, flush=True)

    def draw(self, text):
        if self.draws:
            width = shutil.get_terminal_size().columns - 1
            print(f"\r\x1b[K{text[:width]}", end="", flush=True)


def statement(log):
    """Returns what the prover said of a crate that is proved, from its log."""
    with open(log, encoding="utf-8", errors="replace") as file:
        return [it.rstrip() for it in file if it.startswith("logic=proved")][-1]


def first_error(log):
    with open(log, encoding="utf-8", errors="replace") as file:
        lines = [it.rstrip() for it in file if not re.match(r"\S+ \S+: modules loaded=", it)]
    found = [at for at, it in enumerate(lines) if re.search(r":\d+:\d+: error|^error|^fn \S+: (not proved|no proof)", it)]
    start = found[0] if found else max(0, len(lines) - 12)
    return lines[start : start + 12]


class Run:
    """The proofs of all requested crates."""

    def __init__(self, crates, names, screen):
        self.crates, self.screen = crates, screen
        known = {}
        self.wanted = []
        for name in names:
            self.wanted += [it for it in [*crates.below(name), name] if it not in self.wanted]
        self.proved = [it for it in self.wanted if self.is_kept(it, known)]
        self.count, self.running, self.failed = len(self.wanted) - len(self.proved), [], None
        # The longest chain of crates above comes first.
        self.chain = {it: sum(it in crates.below(other) for other in self.wanted) for it in self.wanted}

    def is_kept(self, name, known):
        """Returns whether a crate is proved, and all that its proof depends on is unchanged."""
        crate = self.crates.by_name[name]
        return os.path.isfile(f"{crate.folder}/out/statement") and stamp_of(crate) == self.crates.stamp(name, known)

    def begin_ready(self, at_once):
        """Begins the crates that wait for no other, the longest chain first. Processors left
        over after each has one go to those that gain by them, and one job more, since other
        proofs end first."""
        busy = self.proved + [it.name for it in self.running]
        ready = [it for it in self.wanted if it not in busy and all(dep in self.proved for dep in self.crates.own_uses(it))]
        ready.sort(key=lambda it: -self.chain[it])
        while ready and not self.failed:
            name, idle = ready.pop(0), at_once - sum(it.jobs for it in self.running)
            if idle > 0:
                jobs = max(1, min(JOBS.get(name, 1), idle - len(ready) + 1))
                self.running.append(Proof(self.crates, name, self.crates.stamp(name, {}), jobs))

    def end_ended(self):
        for it in [it for it in self.running if it.is_ended()]:
            self.running.remove(it)
            if it.is_proved:
                self.proved.append(it.name)
                done = self.count - len(self.wanted) + len(self.proved)
                self.screen.line(f"[{done:2} of {self.count}] {it.name} proved, {it.since()}")
            elif not self.failed:
                self.failed = it

    def carry_out(self):
        at_once = max(1, min(kit.processors(), kit.free_memory() // MEMORY))
        while len(self.proved) < len(self.wanted) and not (self.failed and not self.running):
            self.begin_ready(at_once)
            self.end_ended()
            self.screen.draw("; ".join(f"{it.name} {it.since()}" for it in self.running))
            time.sleep(0.2)


def prove(names, quiet):
    crates, begun, screen = kit.Crates(), time.monotonic(), Screen(quiet)
    unknown = [it for it in names if it not in crates.by_name]
    if unknown:
        print(f"uimg: crates.txt has no crate {unknown[0]}", file=sys.stderr)
        return 2
    os.makedirs("out", exist_ok=True)
    run = Run(crates, names, screen)
    try:
        run.carry_out()
    except KeyboardInterrupt:
        for it in run.running:
            it.stop()
        screen.line("interrupted: the next run goes on from what is proved")
        return 130
    if run.failed:
        screen.line(f"uimg: crates/{run.failed.name} is not proved, {run.failed.since()}; its log is {run.failed.log}")
        print("\n".join(first_error(run.failed.log)))
        return 1
    screen.line(f"all {len(run.wanted)} crates proved, {kit.in_words(time.monotonic() - begun)} in all")
    return 0


def interrupted(number, frame):
    """Stops the proofs when the job is ended from outside, as an interrupt does."""
    raise KeyboardInterrupt


if __name__ == "__main__":
    signal.signal(signal.SIGTERM, interrupted)
    words = sys.argv[1:]
    sys.exit(prove([it for it in words if it != "-q"], "-q" in words))
