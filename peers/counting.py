"""What the comparisons share: commands, counts of compared things, and rows of the table of
docs/PEERS.md."""

import datetime
import os
import subprocess


def output(command):
    """The status and standard output of a command, run in UTC."""
    done = subprocess.run(command, env=dict(os.environ, TZ="UTC"), capture_output=True)
    return done.returncode, done.stdout


def said_by(command):
    """The last word of the first line that a command prints."""
    try:
        done = subprocess.run(command, stdin=subprocess.DEVNULL, stdout=subprocess.PIPE, stderr=subprocess.STDOUT, text=True)
    except OSError:
        return "none"
    return done.stdout.partition("\n")[0].rpartition(" ")[2] if done.returncode == 0 else "none"


def commit_and_date():
    """Returns the commit of these sources, and the date."""
    return f"{said_by(['git', 'rev-parse', '--short=8', 'HEAD'])}, {datetime.date.today()}"


def heading():
    """Prints the commit, the date and the peers, and the heading of the table."""
    print(f"Commit {commit_and_date()}, mkimage {said_by(['mkimage', '-V'])}, dtc {said_by(['dtc', '-v'])}.\n")
    print("| Compared | Number | Differences | |\n|---|---|---|---|", flush=True)


def row(what, number, differences, note=""):
    """Prints a row of the table."""
    print(f"| {what} | {number} | {differences} | {note} |", flush=True)


class Count:
    def __init__(self):
        self.images = 0
        self.differences = []

    def expect(self, what, here, there):
        if here != there:
            self.differences.append((what, here, there))
