#!/usr/bin/env python3
"""farm_test.py PROGRAM: kills examples/farm in the middle, and checks that it resumes with nothing
lost or done twice.

It checks 2000 FIT images in batches of 5, kills parallel and all when some are done, and starts
it again: the results must be those of one process, and existing ones must not be written
again. Then images change, a missing image appears, everything is checked again, other settings are
given, and another list. It needs GNU parallel, and reports if it is missing. The last line is
'N passed, M failed'."""
import os
import shutil
import signal
import subprocess
import sys
import tempfile
import time
import zlib

TOP = os.path.dirname(os.path.dirname(os.path.abspath(__file__)))
FARM = os.path.join(TOP, "examples", "farm", "check-farm.sh")
KEY = os.path.join(TOP, "examples", "dev.pem")

sys.path.insert(0, os.path.join(TOP, "bench"))
import fits  # noqa: E402

IMAGES = 2000
BATCH = 5
# How many batches are done before it is killed.
DONE = 40
# How many seconds it may take until then.
PATIENCE = 60


def image(number):
    """A FIT image; every hundredth has a wrong hash."""
    data = number.to_bytes(4, "big")
    value = bytes(4) if number % 100 == 7 else zlib.crc32(data).to_bytes(4, "big")
    return fits.fit([fits.image("kernel", fits.prop("data", data), [("crc32", value)])])


def write(path, data):
    with open(path, "wb") as file:
        file.write(data)


class Farm:
    """One work of the farm, in a folder."""

    def __init__(self, program, names, folder, **settings):
        self.command = [FARM, names, folder, "--jobs", "2"]
        self.environment = dict(os.environ, UIMG=program, BATCH=str(BATCH), **settings)
        self.folder, self.said = folder, ""

    def run(self, **settings):
        """Runs it to its end. Returns its status."""
        ended = subprocess.run(self.command, env=self.environment | settings, stdout=subprocess.PIPE, stderr=subprocess.DEVNULL, text=True)
        self.said = ended.stdout
        return ended.returncode

    def run_and_kill(self):
        """Kills it, parallel and all, when some batches are done."""
        farm = subprocess.Popen(self.command, env=self.environment, stdout=subprocess.DEVNULL, stderr=subprocess.DEVNULL, start_new_session=True)
        until = time.time() + PATIENCE
        while len(self.done()) < DONE and farm.poll() is None and time.time() < until:
            time.sleep(0.02)
        if farm.poll() is None:
            os.killpg(farm.pid, signal.SIGKILL)
        farm.wait()
        # the jobs that it leaves behind end by themselves
        time.sleep(1)

    def done(self):
        """The files of finished batches; a file that was written again is another one."""
        lines = os.path.join(self.folder, "lines")
        names = os.listdir(lines) if os.path.isdir(lines) else []
        return {name: os.stat(os.path.join(lines, name)).st_ctime_ns for name in names}

    def results(self):
        with open(os.path.join(self.folder, "results.jsonl"), "rb") as file:
            return file.read()

    def tells(self, images, now):
        """Whether it said how many images it checked, and how many are of an earlier run."""
        return self.said.startswith(f"{images} images: {now} checked now, {images - now} by an earlier run\n")


def one_process(program, names, *options):
    return subprocess.run([program, "check", "--json", *options, "--files-from", names], capture_output=True).stdout


def again(before, after):
    """The batches that were written again."""
    return {name for name in after if before.get(name) != after[name]}


def killed_cases(program, names, farm):
    """A run that is killed, and a run that goes on."""
    farm.run_and_kill()
    before = farm.done()
    yield "it was killed in the middle", DONE <= len(before) < IMAGES // BATCH
    yield "it goes on to its end", farm.run() == 1
    yield "the results are those of one process", farm.results() == one_process(program, names)
    yield "none was written again", before.items() <= farm.done().items()
    yield "it tells what it checked", farm.tells(IMAGES, IMAGES - BATCH * len(before))


def changed_cases(program, names, paths, farm):
    """Images that change after a run: in their size, or in their time alone."""
    before = farm.done()
    yield "nothing changed", farm.run() == 1 and farm.tells(IMAGES, 0) and not again(before, farm.done())
    was = os.stat(paths[52])
    write(paths[52], image(7))
    os.utime(paths[52], ns=(was.st_atime_ns, was.st_mtime_ns))
    write(paths[1001], b"")
    yield "two changed, one with its old time of writing", farm.run() == 1 and farm.tells(IMAGES, 2 * BATCH)
    yield "no other was checked again", again(before, farm.done()) == {f"{it // BATCH:07}" for it in (52, 1001)}
    yield "the results of the changed ones", farm.results() == one_process(program, names)
    os.rename(paths[60], paths[60] + "-old")
    os.rename(paths[61], paths[60])
    os.rename(paths[60] + "-old", paths[61])
    yield "two changed places", farm.run() == 1 and farm.tells(IMAGES, BATCH)
    os.remove(paths[99])
    yield "one is no more", farm.run() == 3 and farm.tells(IMAGES, BATCH) and farm.results() == one_process(program, names)
    write(paths[99], image(99))
    yield "it is there again", farm.run() == 1 and farm.tells(IMAGES, BATCH) and farm.results() == one_process(program, names)


def settings_cases(program, few, folder):
    """NEED, STRICT, KEY and ALL."""
    for name, options, settings in (
        ("needs", ("--need", "sha256"), {"NEED": "sha256"}),
        ("strict", ("--strict",), {"STRICT": "1"}),
        ("signed", ("--key", KEY), {"KEY": KEY}),
        ("both", ("--strict", "--need", "crc32"), {"STRICT": "1", "NEED": "crc32"}),
    ):
        farm = Farm(program, few, os.path.join(folder, name), **settings)
        farm.run()
        yield f"the results with {settings}", farm.results() == one_process(program, few, *options) != one_process(program, few)
        yield f"no other settings than {settings}", farm.run(STRICT="1", NEED="sha1") == 2
    before = farm.done()
    yield "all again", farm.run(ALL="1") == 1 and farm.tells(11, 11) and again(before, farm.done()) == set(before)
    yield "not all again", farm.run(ALL="0") == 1 and farm.tells(11, 0)
    yield "a wrong NEED", Farm(program, few, os.path.join(folder, "wrong"), NEED="sha2").run() == 2


def key_cases(program, few, folder):
    """KEY is a path, also one with what looks like a name; and a file that is what it was."""
    key, here = os.path.join(folder, "a=b.pem"), os.getcwd()
    shutil.copy(KEY, key)
    os.chdir(folder)
    farm = Farm(program, few, os.path.join(folder, "named"), KEY="a=b.pem")
    farm.run()
    yield "the results with a key a=b.pem", farm.results() == one_process(program, few, "--key", key)
    shutil.copy(os.path.join(TOP, "cases", "files", "newer.pem"), key)
    yield "no other key than that", farm.run() == 2
    os.chdir(here)


def cases(program, folder):
    """Each case, and whether it passed."""
    paths = [os.path.join(folder, f"{number}.itb") for number in range(IMAGES)]
    for number, path in enumerate(paths):
        write(path, image(number))
    names, late, few, none = (os.path.join(folder, name) for name in ("names", "late.itb", "few", "none"))
    write(names, "".join(path + "\n" for path in paths).encode())
    write(few, "".join(path + "\n" for path in [*paths[20:30], late]).encode())
    write(none, b"\n\n")
    farm = Farm(program, names, os.path.join(folder, "whole"))
    yield from killed_cases(program, names, farm)
    yield from changed_cases(program, names, paths, farm)
    missing = Farm(program, few, os.path.join(folder, "missing"))
    yield "an image is missing", missing.run() == 3 and missing.results() == one_process(program, few)
    before = missing.done()
    write(late, image(0))
    yield "it is there", missing.run() == 0 and missing.results() == one_process(program, few) and missing.tells(11, 1)
    yield "no other was checked again", len(before) == 2 and before.items() <= missing.done().items()
    yield "another list is refused", Farm(program, names, missing.folder).run() == 2
    yield "a list without a path is refused", Farm(program, none, os.path.join(folder, "empty")).run() == 2
    write(paths[25], image(7))
    yield from key_cases(program, few, folder)
    yield from settings_cases(program, few, folder)


def main():
    program = os.path.abspath(sys.argv[1])
    version = subprocess.run(["parallel", "--version"], capture_output=True).stdout if shutil.which("parallel") else b""
    if not version.startswith(b"GNU parallel"):
        print("farm_test: skipped, since there is no GNU parallel (apt install parallel)")
        return 0
    passed = failed = 0
    with tempfile.TemporaryDirectory() as folder:
        for case, is_right in cases(program, folder):
            passed, failed = passed + is_right, failed + (not is_right)
            if not is_right:
                print(f"not so: {case}")
    print(f"{passed} passed, {failed} failed")
    return 1 if failed else 0


if __name__ == "__main__":
    sys.exit(main())
