#!/usr/bin/env python3
"""completions.py PROGRAM [--check]: writes the completions of PROGRAM and of its names
uimg-mkimage and uimg-dumpimage, for bash (NAME.bash), zsh (_NAME) and fish (NAME.fish), from its
helps: the commands, their options, and the short names that options take. With --check it writes
nothing, and exits with status 1 if a file would change."""
import os
import re
import subprocess
import sys
import tempfile

FOLDER = os.path.join(os.path.dirname(os.path.dirname(os.path.abspath(__file__))), "completions")
HEAD = "# Made by scripts/completions.py from the helps of uimg."
# What takes the name of a file, and of a folder.
FILES = ("data", "source", "outfile", "file", "tree", "ramdisk")
FOLDERS = ("folder",)
# What uimg takes in place of a command.
ALONE = ["-h", "--help", "--version"]


class Option:
    """An option: its spellings, what it takes ("" for nothing), its meaning, and the words that it
    may take, if these are known."""

    def __init__(self, spellings, takes, meaning, names):
        self.spellings, self.takes, self.meaning = spellings, takes, meaning
        self.names = names.get(takes, [])

    def is_file(self):
        return self.takes in FILES


def printed(*words):
    """What a command prints, on both outputs."""
    return subprocess.run(words, stdout=subprocess.PIPE, stderr=subprocess.STDOUT, text=True).stdout


def options(text):
    """Returns the options of a help of uimg."""
    rows = re.findall(r"^ +(-\w|(?=--))(?:, )?(--[\w-]+)?(?: <(?:\[\w+=\])?(\w+)>)? {2,}(.*)$", text, re.M)
    names = short_names(text)
    return [Option([it for it in (short, long) if it], takes, meaning.split(" [")[0], names) for short, long, takes, meaning in rows]


def short_names(text):
    """Returns the short names of a help, by what takes them."""
    names, key = {}, None
    block = re.search(r"(?:Short names|Algorithms.*):\n((?: .*\n)+)", text)
    for line in block[1].splitlines() if block else ():
        row = re.match(r" +<(\w+)> +(.*)", line)
        key, words = (row[1], row[2]) if row else (key, line)
        names.setdefault(key, []).extend(re.sub(r"\(.*?\)", "", words).split())
    return names


def commands(program):
    """Returns each command of uimg, with its meaning and its options."""
    rows = re.findall(r"^  (\w+) {2,}(.*)$", printed(program, "--help"), re.M)
    return [(name, meaning, [] if name == "help" else options(printed(program, name, "--help"))) for name, meaning in rows]


def old_options(program, name):
    """Returns the options of uimg under an old name. What they take is in the usage of its help;
    types are those of uimg's own help, since others are refused."""
    with tempfile.TemporaryDirectory() as folder:
        os.symlink(program, f"{folder}/{name}")
        text = re.sub(r"\n {6,}", " ", printed(f"{folder}/{name}", "-h"))
        names = {it: re.findall(r"^\t(?!invalid)(\S+)", printed(f"{folder}/{name}", flag, "list"), re.M) for flag, it in (("-A", "arch"), ("-O", "os"), ("-C", "comp"))}
    names["type"] = short_names(printed(program, "mkimage", "--help"))["type"]
    taken = dict(reversed(re.findall(r"(-\w) (\w+)", text[: text.index("\n\n  -")])))
    rows = re.findall(r"^  (-\w) +(?:(--[\w-]+) +)?(\S.*)$", text, re.M)
    return [Option([it for it in (short, long) if it], taken.get(short, ""), meaning.split(" [")[0].split(";")[0], names) for short, long, meaning in rows]


def bash_rows(taken):
    """The lines of a function of bash that complete options."""
    rows = []
    for it in taken:
        spelled = "|".join(it.spellings)
        if it.names:
            rows.append(f"    {spelled}) COMPREPLY=($(compgen -W '{' '.join(it.names)}' -- \"$current\")); return ;;")
        elif it.takes in FOLDERS:
            rows.append(f"    {spelled}) compopt -o dirnames; return ;;")
        elif it.takes and not it.is_file():
            rows.append(f"    {spelled}) return ;;")
    choice = ['case "$previous" in', *rows, "esac"] if rows else []
    words = " ".join(word for it in taken for word in it.spellings)
    return [*choice, f"test \"${{current#-}}\" = \"$current\" || {{ COMPREPLY=($(compgen -W '{words}' -- \"$current\")); return; }}"]


def bash_function(name, rows):
    begin = [HEAD, f"_{name.replace('-', '_')}() {{", "    local current=${COMP_WORDS[COMP_CWORD]} previous=${COMP_WORDS[COMP_CWORD - 1]}"]
    return "\n".join([*begin, *(f"    {it}" for it in rows), "    compopt -o default", "}", f"complete -F _{name.replace('-', '_')} {name}", ""])


def bash(all_commands):
    names = " ".join(it[0] for it in all_commands)
    words = f"{names} {' '.join(ALONE)}"
    rows = ['if test "$COMP_CWORD" = 1; then', f"    COMPREPLY=($(compgen -W '{words}' -- \"$current\"))", "    return", "fi", 'case "${COMP_WORDS[1]}" in']
    for name, _, taken in all_commands:
        lines = [f"COMPREPLY=($(compgen -W '{names}' -- \"$current\"))", "return"] if name == "help" else bash_rows(taken)
        rows += [f"    {name})", *(f"        {it}" for it in lines), "        ;;"]
    return bash_function("uimg", [*rows, "esac"])


def zsh_rows(taken):
    """The words of _arguments, a line each."""
    quoted = lambda text: text.replace("'", "'\\''").replace("[", "\\[").replace("]", "\\]").replace(":", "\\:")
    rows = []
    for it in taken:
        way = f"({' '.join(it.names)})" if it.names else "_files" if it.is_file() else "_files -/" if it.takes in FOLDERS else ""
        value = f":{it.takes}:{way}" if it.takes else ""
        rows += [f"    '{word}[{quoted(it.meaning)}]{value}' \\" for word in it.spellings]
    return ["_arguments \\", *rows, "    ':image:_files'"]


def zsh(all_commands):
    quoted = lambda text: text.replace("'", "'\\''").replace(":", "\\:")
    listed = [f"        '{name}:{quoted(meaning)}'" for name, meaning, _ in all_commands]
    rows = []
    for name, _, taken in all_commands:
        lines = ["_describe command commands"] if name == "help" else zsh_rows(taken)
        rows += [f"        {name})", *(f"            {it}" for it in lines), "            ;;"]
    begin = ["#compdef uimg", HEAD, "local -a commands=(", *(it[4:] for it in listed), ")", "if (( CURRENT == 2 )); then", f"    compadd -- {' '.join(ALONE)}", "    _describe command commands", "else"]
    return "\n".join([*begin, "    local command=$words[2]", "    shift words", "    (( CURRENT-- ))", "    case $command in", *rows, "    esac", "fi", ""])


def fish_rows(command, taken):
    """The lines of fish that complete options; they begin with the command."""
    quoted = lambda text: text.replace("\\", "\\\\").replace("'", "\\'")
    rows = []
    for it in taken:
        words = " ".join(it.names) if it.names else "(__fish_complete_directories)" if it.takes in FOLDERS else ""
        value = "" if not it.takes else " -r" if it.is_file() else f" -x -a '{words}'" if words else " -x"
        way = " ".join(f"-l {word[2:]}" if word.startswith("--") else f"-s {word[1:]}" for word in it.spellings)
        rows.append(f"{command} {way}{value} -d '{quoted(it.meaning)}'")
    return rows


def fish(all_commands):
    quoted = lambda text: text.replace("\\", "\\\\").replace("'", "\\'")
    rows = [HEAD, "complete -c uimg -n __fish_use_subcommand -f"]
    rows += fish_rows("complete -c uimg -n __fish_use_subcommand", [Option(["-h", "--help"], "", "Print help", {}), Option(["--version"], "", "Print the name and the version", {})])
    for name, meaning, taken in all_commands:
        rows.append(f"complete -c uimg -n __fish_use_subcommand -f -a {name} -d '{quoted(meaning)}'")
        if name == "help":
            rows.append(f"complete -c uimg -n '__fish_seen_subcommand_from help' -f -a '{' '.join(it[0] for it in all_commands)}'")
        rows += fish_rows(f"complete -c uimg -n '__fish_seen_subcommand_from {name}'", taken)
    return "\n".join([*rows, ""])


def all_files(program):
    """Returns the text of each file."""
    known = commands(program)
    files = {"uimg.bash": bash(known), "_uimg": zsh(known), "uimg.fish": fish(known)}
    for name in ("uimg-mkimage", "uimg-dumpimage"):
        taken = old_options(program, name)
        files[f"{name}.bash"] = bash_function(name, bash_rows(taken))
        files[f"_{name}"] = "\n".join([f"#compdef {name}", HEAD, *zsh_rows(taken), ""])
        files[f"{name}.fish"] = "\n".join([HEAD, *fish_rows(f"complete -c {name}", taken), ""])
    return files


def main():
    status = 0
    for name, text in all_files(os.path.abspath(sys.argv[1])).items():
        path = f"{FOLDER}/{name}"
        if "--check" not in sys.argv:
            os.makedirs(FOLDER, exist_ok=True)
            with open(path, "w", encoding="utf-8") as file:
                file.write(text)
        elif not os.path.isfile(path) or open(path, encoding="utf-8").read() != text:
            print(f"completions/{name} is not what the helps say: run scripts/completions.py {sys.argv[1]}")
            status = 1
    return status


if __name__ == "__main__":
    sys.exit(main())
