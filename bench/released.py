"""The program that a benchmark measures: one that is given, that of release/, or bin/uimg."""

import glob
import os
import platform
import re
import subprocess
import tarfile


def chosen(given, folder):
    """Returns the path of the program, its commit, and words for it. A program of a release is
    unpacked to a folder."""
    archives = glob.glob(f"release/uimg-*-{platform.machine()}.tar.gz")
    if given or not archives:
        path = os.path.abspath(given[0] if given else "bin/uimg")
        return path, commit_here(), "a build of these sources"
    path = os.path.join(folder, "uimg")
    with tarfile.open(archives[0]) as tar:
        (name,) = [it for it in tar.getnames() if it.endswith("/bin/uimg")]
        with open(path, "wb") as file:
            file.write(tar.extractfile(name).read())
    os.chmod(path, 0o755)
    with open("release/PROVED.txt", encoding="utf-8") as file:
        commit = re.search(r"commit (\w{8})", file.read())[1]
    return path, commit, f"the program of {os.path.basename(archives[0])}"


def commit_here():
    """Returns the commit of these sources, and whether they were changed since."""
    commit = subprocess.run(["git", "rev-parse", "--short=8", "HEAD"], capture_output=True, text=True).stdout.strip()
    is_changed = subprocess.run(["git", "diff", "--quiet", "HEAD", "--", "crates"]).returncode
    return f"{commit} with changes" if is_changed else commit
