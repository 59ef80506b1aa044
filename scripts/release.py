#!/usr/bin/env python3
"""release.py [--programs | --compile]: makes the files of a release in release/, for x86-64 and
64-bit ARM: the program, linked statically, with its other names, wrappers, manual pages,
completions, documents and examples (uimg-VERSION-MACHINE.tar.gz); the library for C
(libuimg-VERSION-MACHINE.tar.gz); the SBOM of each archive (facts.py); Debian packages of both; the
wheel for Python; PROVED.txt, with the commit, the kit and the prover's statement on each crate, and the
same as PROVED.json; SHA256SUMS.

What is proved already is skipped. With --programs it stops once the programs and libraries are in
out/release. With --compile it makes these over libraries that are there, and takes what the gate
compiled and put into out/release. All files have the time of the commit and no path of this
machine: the same commit gives the same bytes in another folder, and elsewhere with the same
compilers. The files get into release/ once all are made.

With CPU=x86-64-v3 in the environment, a release is the archives for such a processor alone, in
release/x86-64-v3/."""
import concurrent.futures
import glob
import gzip
import hashlib
import io
import json
import os
import re
import shutil
import subprocess
import sys
import tarfile

import facts
import kit
import prove

WORK = "out/release"
# The files of a release, until all are made.
PACKED = f"{WORK}/packed"
MANUALS = ("uimg.1", "uimg-mkimage.1", "uimg-dumpimage.1", "uimg-faults.7")
LIBRARY_MANUALS = ("libuimg.3",)
NAMES = ("uimg", "uimg-mkimage", "uimg-dumpimage")
COMPLETIONS = {
    **{f"{it}.bash": f"bash-completion/completions/{it}" for it in NAMES},
    **{f"_{it}": f"zsh/site-functions/_{it}" for it in NAMES},
    **{f"{it}.fish": f"fish/vendor_completions.d/{it}.fish" for it in NAMES},
}
PAPERS = ("LICENSE-MIT", "LICENSE-APACHE", "CHANGELOG.md")
FLAGS = ("-std=c11", "-O2", "-Wall", "-Wextra", "-Werror")
# The static program has code of the C library.
NOTICE = """The program uimg has code of the GNU C Library, which is under the GNU Lesser General Public
License, version 2.1 or later: https://www.gnu.org/software/libc/. The sources of uimg, and
`make release` in them, link it with another version of that library.
"""


class Link(str):
    """The target of a symbolic link."""


class Machine:
    """A machine that programs are made for: the kit's target, the prefix of the GNU tools, and
    Debian's name of the architecture."""

    def __init__(self, name, tools, debian, cpu=None):
        self.name, self.tools, self.debian, self.cpu = name, tools, debian, cpu
        self.target, self.folder = f"{name}-unknown-linux-gnu", os.path.abspath(f"{WORK}/{name}")
        # The name in those of archives: x86_64-v3, if it is for such a processor.
        self.label = f"{name}-{cpu.rpartition('-')[2]}" if cpu else name


X86 = Machine("x86_64", "", "amd64", kit.CPU)
ARM = Machine("aarch64", "aarch64-linux-gnu-", "arm64")
# The machines of a release, and its folder.
MACHINES, RELEASE = ((X86,), f"release/{kit.CPU}") if kit.CPU else ((X86, ARM), "release")


def fail(text):
    print(f"uimg: {text}", file=sys.stderr)
    sys.exit(1)


def run(words, **more):
    """Runs a command that has to succeed. Returns its output."""
    how = {"stdin": subprocess.DEVNULL, "stdout": subprocess.PIPE, "stderr": subprocess.STDOUT, "text": True}
    told = subprocess.run(words, **how, **more)
    if told.returncode:
        print("\n".join(told.stdout.splitlines()[-12:]))
        fail(f"{words[0]} failed")
    return told.stdout


def version():
    with open("crates/uimg_requests/src/version.rt", encoding="utf-8") as file:
        return re.search(r'VERSION.*"(.*)"', file.read())[1]


def check_version():
    """Refuses a release if a document has another version than the program."""
    found = {"CHANGELOG.md": r"\n## (\S+) - \d{4}-\d\d-\d\d\n", "debian/changelog": r"^uimg \((.*)\) ", "README.md": r"uimg-([\d.]+)-"}
    found |= {f"bindings/{it}": r'\nversion = "(.*)"\n' for it in ("rust/Cargo.toml", "python/pyproject.toml")}
    found |= {f"docs/{it}": r'^\.TH .* "uimg (.*)" "' for it in (*MANUALS, *LIBRARY_MANUALS)}
    for path, pattern in found.items():
        with open(path, encoding="utf-8") as file:
            its = re.search(pattern, file.read())
        if not its or its[1] != version():
            fail(f"{path} has another version than crates/uimg_requests/src/version.rt: {version()}")


def log_of(crate, machine):
    return f"{machine.folder}/{crate}.log"


def compile_one(crate, machine):
    """Proves and compiles a crate for a machine, unless that is done. Returns whether it is proved."""
    os.makedirs(machine.folder, exist_ok=True)
    made, words = kit.Crates().object(crate, machine.folder, machine.target, machine.cpu)
    if os.path.isfile(made):
        return True
    how = {"cwd": f"crates/{crate}", "stdin": subprocess.DEVNULL, "stderr": subprocess.STDOUT}
    with open(log_of(crate, machine), "w", encoding="utf-8") as log:
        return subprocess.run(words, stdout=log, **how).returncode == 0


def compile_all(machines):
    """Compiles the program and the library for these machines, over proved crates, as many at
    once as there are processors and memory for."""
    jobs = [(crate, machine) for machine in machines for crate in ("uimg", "uimg_c")]
    at_once = max(1, min(kit.processors(), kit.free_memory() // prove.MEMORY))
    with concurrent.futures.ThreadPoolExecutor(at_once) as pool:
        for (crate, machine), is_proved in zip(jobs, pool.map(lambda job: compile_one(*job), jobs)):
            if not is_proved:
                print("\n".join(prove.first_error(log_of(crate, machine))))
                fail(f"{crate} is not proved for {machine.name}; its log is {log_of(crate, machine)}")
            print(f"{crate} is proved and compiled for {machine.name}", flush=True)


def link(machine):
    """Links the program statically, and the library, to the machine's folder and its lib/. The file
    `linked` of each names what the linker took."""
    made, compiler = machine.folder, f"{machine.tools}gcc"
    program = ["-static", "-s", "-Wl,--build-id=none,-t,-t", "-o", f"{made}/uimg", f"{made}/uimg.o", "library/program.c"]
    with open(f"{made}/linked", "w", encoding="utf-8") as linked:
        linked.write(run([compiler, *FLAGS, *program]))
    run(["scripts/link.sh", f"{made}/libuimg_c.a", f"{made}/lib", machine.tools], env={**os.environ, "CC": "gcc"})


def archive(path, top, files, time):
    """Packs files in a folder top: names, each with a path, bytes, or the target of a symbolic
    link."""
    with gzip.GzipFile(path, "wb", mtime=time) as packed, tarfile.open(fileobj=packed, mode="w", format=tarfile.USTAR_FORMAT) as tar:
        for name, source in sorted(files.items()):
            entry = tarfile.TarInfo(f"{top}/{name}")
            entry.mtime, entry.mode = time, 0o755 if is_run(name, source) else 0o644
            if isinstance(source, Link):
                entry.type, entry.linkname = tarfile.SYMTYPE, source
                tar.addfile(entry)
                continue
            if isinstance(source, str):
                with open(source, "rb") as file:
                    source = file.read()
            entry.size = len(source)
            tar.addfile(entry, io.BytesIO(source))


def is_run(name, source):
    """Whether a file of an archive is a program, a shared library or a script."""
    return name.startswith("bin/") or ".so" in name or (type(source) is str and os.access(source, os.X_OK))


def papers(what):
    return {f"share/doc/{what}/{it}": it for it in PAPERS}


def documents(package):
    """Yields the paths of the documents and examples that a Debian package has."""
    for path in (f"debian/{package}.docs", f"debian/{package}.examples"):
        with open(path, encoding="utf-8") as file:
            for pattern in file.read().split():
                for it in glob.glob(pattern):
                    yield from run(["git", "ls-files", it]).split("\n")[:-1] if os.path.isdir(it) else [it]


def manuals(pages):
    """Returns manual pages as they are below a prefix, each in the folder of its section."""
    return {f"share/man/man{it[-1]}/{it}": f"docs/{it}" for it in pages}


def program_files(machine):
    """Returns the files of the program, as they are below a prefix."""
    files = {"bin/uimg": f"{machine.folder}/uimg", "bin/uimg-mkimage": Link("uimg"), "bin/uimg-dumpimage": Link("uimg")}
    files |= manuals(MANUALS)
    files |= {f"share/{to}": f"completions/{it}" for it, to in COMPLETIONS.items()}
    files |= {f"lib/uimg/{it}": it for it in glob.glob("wrappers/*")}
    files |= {f"share/doc/uimg/{it}": it for it in documents("uimg")}
    return files | papers("uimg") | {"share/doc/uimg/NOTICE": NOTICE.encode()}


def library_files(machine):
    """Returns the files of the library. Its pkg-config file finds them beside itself."""
    with open("library/libuimg.pc.in", encoding="utf-8") as file:
        text = file.read()
    for mark, value in (("PREFIX", "${pcfiledir}/../.."), ("LIBDIR", "${prefix}/lib"), ("VERSION", version())):
        text = text.replace(f"@{mark}@", value)
    files = {f"lib/{it}": f"{machine.folder}/lib/{it}" for it in ("libuimg.a", "libuimg_block.a", "libuimg.so.0")}
    files |= {"lib/libuimg.so": Link("libuimg.so.0"), "lib/pkgconfig/libuimg.pc": text.encode()}
    files |= {f"include/{it}": f"include/{it}" for it in ("uimg.h", "uimg_block.h")}
    files |= manuals(LIBRARY_MANUALS)
    return files | papers("libuimg") | {f"share/doc/libuimg/{it}": it for it in documents("libuimg-dev")}


def sbom(title, machine, crate, made, commit, time):
    """Writes the SBOM of the archive `title`, which has the program or library `made`, linked from what
    a crate was compiled to for a machine."""
    compiled, _ = kit.Crates().object(crate, machine.folder)
    with open(f"{os.path.dirname(made)}/linked", encoding="utf-8") as trace:
        linked = run([f"{machine.tools}nm", compiled]), trace.read(), run([f"{machine.tools}readelf", "-d", made])
    found = facts.sbom(title, crate, version(), commit, time, linked)
    lacks = list(facts.wrong(found))
    if lacks:
        fail(f"the SBOM of {title}: {lacks[0]}")
    write_json(f"{title}.spdx.json", found)


def write_json(name, value):
    with open(f"{PACKED}/{name}", "w", encoding="utf-8") as file:
        file.write(json.dumps(value, indent=1) + "\n")


def statements():
    """Yields for each crate its name, and what the prover said of it. A program and the library have
    one for each machine, whose name is second, else None."""
    crates = kit.Crates()
    below = crates.below("uimg")
    for name in [*below, *(it for it in crates.below("uimg_c") if it not in below)]:
        with open(f"{crates.by_name[name].folder}/out/statement", encoding="utf-8") as file:
            yield name, None, file.read().strip()
    for machine in MACHINES:
        for name in ("uimg", "uimg_c"):
            yield name, machine.name, prove.statement(log_of(name, machine))


def packages(machine, time):
    """Makes the Debian packages for a machine, with its static program."""
    words = ["scripts/deb.sh", machine.folder, machine.debian, PACKED]
    run(words, env={**os.environ, "SOURCE_DATE_EPOCH": str(time)})


def sums():
    with open(f"{PACKED}/SHA256SUMS", "w", encoding="ascii") as sums_file:
        for path in sorted(set(glob.glob(f"{PACKED}/*")) - {f"{PACKED}/SHA256SUMS"}):
            with open(path, "rb") as file:
                sums_file.write(f"{hashlib.sha256(file.read()).hexdigest()}  {os.path.basename(path)}\n")


def prove_below():
    crates = kit.Crates()
    if prove.prove([*crates.own_uses("uimg"), *crates.own_uses("uimg_c")], False):
        sys.exit(1)


def clear():
    """Removes what an earlier run compiled: what is there would be taken."""
    if os.path.isdir(WORK):
        shutil.rmtree(WORK)


def programs(machines):
    """Makes the program and the library for each machine, in its folder, over proved crates."""
    compile_all(machines)
    for machine in machines:
        link(machine)


def pack(commit, time):
    """Packs what was made, and gives it the place of an earlier release."""
    os.makedirs(PACKED)
    for machine in MACHINES:
        program, library = ("uimg", "uimg", program_files(machine)), ("libuimg", "uimg_c", library_files(machine))
        for (what, crate, files), made in ((program, "uimg"), (library, "lib/libuimg.so.0")):
            top = f"{what}-{version()}-{machine.label}"
            archive(f"{PACKED}/{top}.tar.gz", top, files, time)
            sbom(top, machine, crate, f"{machine.folder}/{made}", commit, time)
        if not machine.cpu:
            packages(machine, time)
            run([sys.executable, "bindings/python/backend.py", PACKED], env={**os.environ, "LIBUIMG_DIR": f"{machine.folder}/lib"})
    with open(f"{PACKED}/PROVED.txt", "w", encoding="utf-8") as file:
        lines = [f"{name} for {machine}: {text}" if machine else f"{name}: {text}" for name, machine, text in statements()]
        file.write(f"uimg {version()}, commit {commit}\n{kit.kit_id().strip()}\n\n" + "\n".join(lines) + "\n")
    write_json("PROVED.json", facts.proved(version(), commit, kit.kit_id(), statements()))
    sums()
    shutil.rmtree(RELEASE, ignore_errors=True)
    os.makedirs(os.path.dirname(RELEASE) or ".", exist_ok=True)
    os.rename(PACKED, RELEASE)
    print("\n".join(f"{RELEASE}/{it}" for it in sorted(os.listdir(RELEASE))))


def release():
    if run(["git", "status", "--porcelain"]):
        fail("a release is made of a commit: commit the changes first")
    check_version()
    commit, time = run(["git", "log", "-1", "--format=%H %ct"]).split()
    clear()
    prove_below()
    programs(MACHINES)
    if run(["git", "status", "--porcelain"]) or run(["git", "log", "-1", "--format=%H"]).strip() != commit:
        fail("the tree changed while the release was made")
    pack(commit, int(time))


def main(words):
    if words not in ([], ["--programs"], ["--compile"]):
        sys.exit("usage: scripts/release.py [--programs | --compile]")
    if not words:
        release()
        return
    if words == ["--programs"]:
        clear()
        prove_below()
    programs((X86, ARM))


if __name__ == "__main__":
    main(sys.argv[1:])
