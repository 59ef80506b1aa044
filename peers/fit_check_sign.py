#!/usr/bin/env python3
"""Builds U-Boot's fit_check_sign, which u-boot-tools does not have: fit_check_sign.py [FOLDER]

In FOLDER (out/uboot) it fetches Debian's source package of U-Boot with its patches, as
uboot_tests.py does, and compiles the tool twice: as Debian patches it, and without the patches
CVE-2026-46728-*, by which the tool no longer reads from the image which nodes a signature covers.
The second accepts images that it must not: it is the known bad peer. Prints the path of each."""

import glob
import os
import shutil
import subprocess
import sys

from uboot_tests import Missing, Suites

VERSION = "2023.01+dfsg-2+deb12u3"
NEEDED = "build-essential bison flex libssl-dev libgnutls28-dev uuid-dev dpkg-dev"
PATCHES = "CVE-2026-46728-*.patch"
# Each build, and whether it has the patches.
BUILDS = {"debian": True, "unpatched": False}


def unpatched(source, folder):
    """A copy of the sources without the patches."""
    copy = f"{folder}/u-boot-unpatched"
    if not os.path.isdir(copy):
        shutil.rmtree(f"{copy}.new", ignore_errors=True)
        shutil.copytree(source, f"{copy}.new", symlinks=True)
        patches = sorted(glob.glob(f"{source}/debian/patches/{PATCHES}"), reverse=True)
        if not patches:
            raise Missing(f"{PATCHES} in the sources of U-Boot")
        for patch in patches:
            words = ["patch", "-R", "-p1", "--batch", "-i", os.path.abspath(patch)]
            if subprocess.run(words, cwd=f"{copy}.new", stdout=subprocess.DEVNULL).returncode:
                raise Missing(f"U-Boot without {os.path.basename(patch)}")
        os.rename(f"{copy}.new", copy)
    return copy


def version_of(source):
    with open(f"{source}/debian/changelog", encoding="utf-8") as file:
        return file.readline().partition("(")[2].partition(")")[0]


def known(folder="out/uboot"):
    """Returns the path of each build that exists."""
    paths = {name: f"{os.path.abspath(folder)}/tools-{name}/tools/fit_check_sign" for name in BUILDS}
    return {name: path for name, path in paths.items() if os.path.exists(path)}


def sources(folder="out/uboot"):
    """Returns the folder of Debian's sources."""
    source = Suites("none", folder).source("u-boot")
    if version_of(source) != VERSION:
        raise Missing(f"U-Boot {VERSION}: {source} has {version_of(source)}")
    return source


def build(folder="out/uboot"):
    """Returns the path of each build. Raises Missing with what cannot be fetched or compiled."""
    folder = os.path.abspath(folder)
    suites, source = Suites("none", folder), sources(folder)
    for name in BUILDS.keys() - known(folder).keys():
        make = ["make", "-C", source if BUILDS[name] else unpatched(source, folder), f"O={folder}/tools-{name}"]
        suites.call([*make, "tools-only_defconfig"], f"config-{name}")
        # A tool that needs another library may fail.
        suites.call([*make, "-j2", "-k", "tools-only"], f"make-{name}")
        if name not in known(folder):
            raise Missing(f"make of fit_check_sign ({folder}/log/make-{name}); it needs {NEEDED}")
    return known(folder)


def main(folder="out/uboot"):
    try:
        print("\n".join(f"{name} {path}" for name, path in build(folder).items()))
    except Missing as error:
        sys.exit(f"fit_check_sign: left out: {error}")


if __name__ == "__main__":
    main(*sys.argv[1:])
