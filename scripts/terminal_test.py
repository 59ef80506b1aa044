#!/usr/bin/env python3
"""terminal_test.py PROGRAM: what the program shows on a terminal while it works for more than two
seconds. It is stopped for so long in the middle of a large file, or tried again if it was too fast
for that. The last line counts."""
import os
import pty
import re
import signal
import subprocess
import sys
import tempfile
import time

PROGRAM = os.path.abspath(sys.argv[1])
SIZE = 128 << 20
# The line, drawn in its place, and erased at the end.
SHOWN = re.compile(rb"(\r\d+ of 128 MiB\x1b\[K)+\r\x1b\[K")
SOURCE = """/dts-v1/;
/ { description = "d"; #address-cells = <1>; images { kernel { description = "k"; data = /incbin/("payload");
    type = "kernel"; arch = "arm64"; os = "linux"; compression = "none"; load = <0>; entry = <0>;
    hash-1 { algo = "sha256"; }; }; }; };
"""
CASES = [
    (SHOWN, "check", ["uimg", "check", "big.itb"]),
    (SHOWN, "unpack", ["uimg", "unpack", "--force", "--no-sync", "-C", "out", "big.itb"]),
    (SHOWN, "an image that is made", ["uimg-mkimage", "-E", "-f", "big.its", "made.itb"]),
    (SHOWN, "a legacy image that is listed", ["uimg-dumpimage", "-l", "big.img"]),
    (re.compile(b""), "nothing with --quiet", ["uimg", "check", "--quiet", "big.itb"]),
    (re.compile(b""), "nothing with -q", ["uimg-mkimage", "-q", "-E", "-f", "big.its", "made.itb"]),
    (re.compile(b""), "nothing on a dumb terminal", ["uimg", "check", "big.itb"]),
]


def read_by(process):
    """Returns how many bytes a process has read."""
    try:
        with open(f"/proc/{process}/io", encoding="ascii") as file:
            return int(re.search(r"^rchar: (\d+)", file.read(), re.M)[1])
    except (OSError, TypeError):
        return SIZE


def shown(folder, words, term="xterm"):
    """Runs the program with standard error on a terminal, and stops it for more than two seconds
    once it has read some of its file. Returns its status, and what the terminal got."""
    leader, terminal = pty.openpty()
    how = {"cwd": folder, "stdin": subprocess.DEVNULL, "stdout": subprocess.DEVNULL, "stderr": terminal}
    running = subprocess.Popen(words, executable=PROGRAM, env={**os.environ, "TERM": term}, **how)
    os.close(terminal)
    while read_by(running.pid) < SIZE // 32 and running.poll() is None:
        pass
    running.send_signal(signal.SIGSTOP)
    time.sleep(2.1)
    running.send_signal(signal.SIGCONT)
    told = b""
    try:
        while part := os.read(leader, 4096):
            told += part
    except OSError:
        pass
    os.close(leader)
    return running.wait(), told


def make_files(folder):
    """Makes a payload, a FIT image and a legacy image of it, the payloads without blocks on the
    disk."""
    os.mkdir(f"{folder}/out")
    with open(f"{folder}/payload", "wb") as file:
        file.truncate(SIZE)
    with open(f"{folder}/big.its", "w", encoding="ascii") as file:
        file.write(SOURCE)
    for words in (["-E", "-f", "big.its", "big.itb"], ["-d", "payload", "big.img"]):
        how = {"executable": PROGRAM, "cwd": folder, "stdout": subprocess.DEVNULL}
        subprocess.run(["uimg", "mkimage", *words], check=True, **how)
        path = f"{folder}/{words[-1]}"
        length = os.path.getsize(path)
        os.truncate(path, length - SIZE)
        os.truncate(path, length)


def is_right(folder, wanted, name, words):
    """Tries a command a few times. Returns whether it showed what is wanted, and what it did
    last."""
    for _ in range(5):
        status, told = shown(folder, words, "dumb" if "dumb" in name else "xterm")
        if status == 0 and wanted.fullmatch(told):
            return True, ""
    return False, f"{status}, {told!r}"


def main():
    failed = 0
    with tempfile.TemporaryDirectory() as folder:
        make_files(folder)
        for wanted, name, words in CASES:
            right, told = is_right(folder, wanted, name, words)
            failed += not right
            if not right:
                print(f"{name}: {told}")
    print(f"{len(CASES) - failed} passed, {failed} failed")
    return failed > 0


sys.exit(main())
