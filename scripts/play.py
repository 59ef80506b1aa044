#!/usr/bin/env python3
"""Plays command lines and compares what they print: scripts/play.py [--tried] PROGRAM FILE..

A FILE is one of these:

  *.t    a transcript in the format of cram: a line that begins with two blanks and '$ ' is a command,
         one with two blanks and '> ' continues it, and the lines below that begin with two blanks are
         its output, standard output and standard error in order, and '[N]' if its status N is not 0.
         '(esc)', '(re)', '(glob)' and '(no-eol)' at the end of a line are cram's. All other lines are
         prose.
  *.1 *.3 *.7
         a manual page: the blocks between '.nf' and '.fi' in which a line begins with '$ '.
  other  a text as README.md: the blocks that are fenced or indented by four blanks, in which a line
         begins with '$ '. The output of a command follows it, up to the next command or the end of the
         block; a line '[..]' replaces any lines.

A block of a text or of a manual page that shows no output is judged by its statuses: each must be 0.
Commands that begin with make, git, apt, apt-get, sudo or rt are not played.

Each file is played by one sh in an empty folder of its own, with PATH beginning with the folder of
PROGRAM, and TESTDIR the folder of the file. For a text, the folder has bin/uimg, which is the program,
and a copy of examples/; for a manual page, it has the files of examples/ themselves, and PATH has the
program as uimg-mkimage and uimg-dumpimage too.
With --tried, PROGRAM is a build with run-time checks, which takes more memory and stack, and opens
more files. A command that limits these with ulimit, or calls a function that does, is not played, nor
are those after it up to the next line of prose; a line names them.
The last line of the output is 'N passed, M failed', where each command is a case.
"""
import concurrent.futures
import difflib
import fnmatch
import os
import re
import select
import shutil
import signal
import subprocess
import sys
import tempfile
import time

# The most seconds for a command: with run-time checks, beside other work, one takes over a minute.
LIMIT = 300

NOT_PLAYED = {"make", "git", "apt", "apt-get", "sudo", "rt"}

MANUAL_ENDS = (".1", ".3", ".7")


class Case:
    """A command, its line, and the lines that it has to print."""

    def __init__(self, line, command):
        self.line = line
        self.command = command
        self.wanted = []
        # its paragraph, and whether a limit is set there, by it or before it
        self.paragraph, self.is_limited = 0, False
        # whether only the status is judged, whether it is shown, and whether '[..]' has a meaning
        self.by_status = False
        self.shows_status = True
        self.leaves_out = False


def transcript(lines):
    """The cases of a transcript."""
    cases, paragraph = [], 0
    for number, line in enumerate(lines, 1):
        if line.strip() and not line.startswith("  "):
            paragraph = number
        elif line.startswith("  $ "):
            cases.append(Case(number, line[4:]))
            cases[-1].paragraph = paragraph
            last = number
        elif line.startswith("  > ") and cases and last == number - 1:
            cases[-1].command += "\n" + line[4:]
            last = number
        elif line.startswith("  ") and cases:
            cases[-1].wanted.append(line[2:])
    return cases


def mark_limits(cases):
    """Marks the cases that set a limit with ulimit, or call a function of the same file that
    does, and those after one in its paragraph."""
    limiters, limited = ["ulimit"], None
    for case in cases:
        defined = re.match(r"(\w+)\(\) *\{", case.command)
        sets_limit = any(re.search(r"(?<![\w-])%s(?![\w-])" % word, case.command) for word in limiters)
        if defined and sets_limit:
            limiters.append(defined[1])
        elif sets_limit:
            limited = case.paragraph
        case.is_limited = limited == case.paragraph


def text_blocks(lines):
    """The blocks of a text, each a list of line numbers and lines."""
    block, fenced = [], False
    for number, line in enumerate(lines, 1):
        if line.startswith("```"):
            fenced = not fenced
        elif fenced or line.startswith("    "):
            block.append((number, line if fenced else line[4:]))
            continue
        yield block
        block = []
    yield block


def manual_blocks(lines):
    """The blocks of a manual page."""
    block, inside = [], False
    for number, line in enumerate(lines, 1):
        if line in (".nf", ".fi"):
            yield block
            block, inside = [], line == ".nf"
        elif inside:
            block.append((number, line.replace("\\-", "-").replace("\\e", "\\").replace("\\&", "")))
    yield block


def is_played(command):
    """Whether the first word after the settings of variables is not one of NOT_PLAYED."""
    words = [word for word in command.split() if not re.match(r"\w+=", word)]
    return bool(words) and words[0] not in NOT_PLAYED


def block_cases(block):
    """The cases of a block: all lines before the first command are prose."""
    cases = []
    for number, line in block:
        if line.startswith("$ "):
            cases.append(Case(number, line[2:]))
        elif cases:
            cases[-1].wanted.append(line)
    by_status = not any(case.wanted for case in cases)
    for case in cases:
        case.by_status, case.shows_status, case.leaves_out = by_status, by_status, True
    return [case for case in cases if is_played(case.command)]


def escaped(line):
    """A line of the output as text, in cram's form if it has a byte that is not printed as it
    is."""
    if not re.search(rb"[\x00-\x09\x0b-\x1f\x7f-\xff]", line):
        return line.decode()
    names = {7: "\\a", 8: "\\b", 9: "\\t", 11: "\\v", 12: "\\f", 13: "\\r", 92: "\\\\"}
    text = "".join(
        names.get(byte) or (chr(byte) if 32 <= byte < 127 else "\\x%02x" % byte) for byte in line
    )
    return text + " (esc)"


def printed(output, status):
    """The lines of an output and a status, as in a transcript."""
    lines = output.split(b"\n")
    last = lines.pop()
    texts = [escaped(line) for line in lines]
    if last:
        texts.append(escaped(last) + " (no-eol)")
    if status:
        texts.append("[%d]" % status)
    return texts


def unescaped(text):
    return text.encode().decode("unicode_escape").encode("latin-1")


def is_line(wanted, got):
    """Whether a printed line is the wanted one."""
    if wanted == got:
        return True
    if wanted.endswith(" (re)"):
        return re.fullmatch(wanted[:-5], got) is not None
    if wanted.endswith(" (glob)"):
        return fnmatch.fnmatchcase(got, wanted[:-7])
    if wanted.endswith(" (esc)"):
        bare = got[:-6] if got.endswith(" (esc)") else got.replace("\\", "\\\\")
        return unescaped(wanted[:-6]) == unescaped(bare)
    return False


def is_all(wanted, got):
    """Whether these lines were printed; '[..]' among them matches any lines."""
    if not wanted:
        return not got
    if wanted[0].strip() == "[..]":
        return any(is_all(wanted[1:], got[at:]) for at in range(len(got) + 1))
    return bool(got) and is_line(wanted[0], got[0]) and is_all(wanted[1:], got[1:])


def is_right(case, output, status):
    if case.by_status:
        return status == 0
    got = printed(output, status if case.shows_status else 0)
    if case.leaves_out:
        return is_all(case.wanted, [line.removesuffix(" (no-eol)") for line in got])
    return len(got) == len(case.wanted) and all(map(is_line, case.wanted, got))


def difference(path, case, output, status):
    """A failed case, with its file and line: '-' was wanted and '+' was printed."""
    got = printed(output, status)
    wanted = list(case.wanted)
    # a line that matches a pattern is no difference
    for at in range(min(len(wanted), len(got))):
        if is_line(wanted[at], got[at]):
            wanted[at] = got[at]
    lines = ["%s:%d: $ %s" % (path, case.line, case.command.replace("\n", "\n  > "))]
    if case.by_status:
        return "\n".join(lines + ["  the status is %s" % status])
    diff = difflib.unified_diff(wanted, got, n=2, lineterm="")
    return "\n".join(lines + ["  " + line for line in list(diff)[2:]])


def output_behind(shell, mark, before):
    """What the shell prints up to a mark, the status after the mark, and what was read beyond
    it."""
    until = time.monotonic() + LIMIT
    read = before
    while True:
        found = re.search(re.escape(mark) + rb" (\d+)\n", read)
        if found:
            return read[: found.start()], int(found.group(1)), read[found.end() :]
        left = until - time.monotonic()
        if left <= 0 or not select.select([shell.stdout], [], [], left)[0]:
            return read + b"the time is over\n", None, b""
        piece = os.read(shell.stdout.fileno(), 65536)
        if not piece:
            return read + b"the shell has ended\n", None, b""
        read += piece


def end(shell, at_once):
    """Ends a shell and what it left running, which is a process group of its own."""
    if not at_once:
        shell.wait()
    try:
        os.killpg(shell.pid, signal.SIGKILL)
    except ProcessLookupError:
        pass
    shell.stdout.close()
    shell.wait()


def prepare(room, names, path, program):
    """Puts the files into the folder in which a text or a manual page is played, and the other names
    of the program into a folder for them."""
    examples = os.path.join(os.path.dirname(os.path.abspath(__file__)), "..", "examples")
    if path.endswith(MANUAL_ENDS):
        shutil.copytree(examples, room, dirs_exist_ok=True)
        for name in ("uimg-mkimage", "uimg-dumpimage"):
            os.symlink(program, os.path.join(names, name))
    elif not path.endswith(".t"):
        shutil.copytree(examples, os.path.join(room, "examples"))
        os.mkdir(os.path.join(room, "bin"))
        shutil.copy2(program, os.path.join(room, "bin", "uimg"))


def environment(path, program, names):
    kept = {name: os.environ[name] for name in ("HOME", "USER") if name in os.environ}
    return kept | {
        "PATH": ":".join((os.path.dirname(program), names, os.environ.get("PATH", "/usr/bin:/bin"))),
        "TESTDIR": os.path.dirname(os.path.abspath(path)),
        "LANG": "C.UTF-8",
    }


def play_all(path, program, cases, room, names):
    """Plays the cases in a folder. Returns the differences."""
    mark = "played %d %f" % (os.getpid(), time.time())
    script = os.path.join(room, "..", "script")
    with open(script, "w", encoding="utf-8") as file:
        for case in cases:
            file.write("%s\nprintf '%s %%d\\n' $?\n" % (case.command, mark))
    shell = subprocess.Popen(
        ["sh", script],
        cwd=room,
        env=environment(path, program, names),
        stdin=subprocess.DEVNULL,
        stdout=subprocess.PIPE,
        stderr=subprocess.STDOUT,
        start_new_session=True,
    )
    wrong, rest, status = [], b"", 0
    for case in cases:
        if status is not None:
            output, status, rest = output_behind(shell, mark.encode(), rest)
        if status is None or not is_right(case, output, status):
            wrong.append(difference(path, case, output, status))
    end(shell, status is None)
    return wrong


def play(path, program, is_tried):
    """Plays a file. Returns the number of its cases, the differences, and the lines of cases
    that were not played."""
    with open(path, encoding="utf-8") as file:
        lines = file.read().split("\n")
    if path.endswith(".t"):
        cases = transcript(lines)
    else:
        blocks = manual_blocks(lines) if path.endswith(MANUAL_ENDS) else text_blocks(lines)
        cases = [case for block in blocks for case in block_cases(block)]
    mark_limits(cases if path.endswith(".t") else [])
    left = [case for case in cases if is_tried and case.is_limited]
    cases = [case for case in cases if case not in left]
    with tempfile.TemporaryDirectory(prefix="play-") as folder:
        room, names = os.path.join(folder, "room"), os.path.join(folder, "names")
        os.mkdir(room)
        os.mkdir(names)
        prepare(room, names, path, program)
        return len(cases), play_all(path, program, cases, room, names), ["%s:%d" % (path, case.line) for case in left]


def main(words):
    is_tried = words[1:2] == ["--tried"]
    given = words[1 + is_tried :]
    if len(given) < 2:
        sys.exit("usage: scripts/play.py [--tried] PROGRAM FILE..")
    program, paths = os.path.abspath(given[0]), given[1:]
    if not os.access(program, os.X_OK):
        sys.exit("play.py: %s is not there" % given[0])
    passed, failed, left = 0, 0, []
    with concurrent.futures.ThreadPoolExecutor(len(os.sched_getaffinity(0))) as pool:
        for count, wrong, more in pool.map(lambda path: play(path, program, is_tried), paths):
            passed, failed, left = passed + count - len(wrong), failed + len(wrong), left + more
            for text in wrong:
                print(text)
    if left:
        print("left to the proved program, since they set limits: %s" % " ".join(left))
    print("%d passed, %d failed" % (passed, failed))
    return 1 if failed else 0


if __name__ == "__main__":
    sys.exit(main(sys.argv))
