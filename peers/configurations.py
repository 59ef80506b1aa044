#!/usr/bin/env python3
"""configurations.py UIMG [MADE]: compares the images that `uimg unpack --config` writes with those that U-Boot
2023.01 loads.

It makes FIT images from a seed, with configurations that name images by lists, again, or none at all, and a
default that exists or not. Of each it asks for a configuration by name, or for the default. Where U-Boot finds
the configuration and each image that it names, uimg must write the payloads of just these images; else it must
name the first thing that is missing.

`chosen` is written from U-Boot's source: fit_conf_get_node of boot/image-fit.c finds the configuration, and
fit_conf_get_prop_node_index of the same file, over fdt_stringlist_get and fdt_subnode_offset of libfdt, the
images. Names of nodes have no unit address, and differ.

It prints a row for the table of docs/PEERS.md, and the first differences."""
import collections
import os
import random
import shutil
import subprocess
import sys
import tempfile

from counting import row
from strict import Blob, cell, text

SEED = 20232
MADE = 1000
# include/image.h: FIT_KERNEL_PROP and so on, in the order of `uimg check --strict`.
PROPERTIES = ["kernel", "ramdisk", "fdt", "loadables", "firmware", "fpga", "setup", "standalone", "script"]


def strings(words):
    return b"".join(map(text, words))


def made(chance):
    """The tree of a FIT image, and the name that is asked for."""
    names = chance.sample(["kernel", "fdt-1", "fdt-2", "fdt_10", "initrd", "atf", "tee", "default"], chance.randrange(1, 7))
    images = [(it, [("data", it.encode())], []) for it in names]
    configurations = []
    for title in chance.sample(["conf-1", "conf-10", "conf-2", "default", "Conf-1"], chance.randrange(1, 5)):
        properties = []
        for key in chance.sample(PROPERTIES, chance.randrange(0, 5)):
            words = [chance.choice(names) for _ in range(chance.choice([1, 1, 2, 3]))]
            if chance.randrange(12) == 0:
                words[-1] = chance.choice(["gone", "kerne", "kernel1", ""])
            value = strings(words)
            properties.append((key, value[:-1] if chance.randrange(40) == 0 else value))
        configurations.append((title, properties, []))
    titles = [it[0] for it in configurations]
    default = chance.choice([[], [("default", text(chance.choice(titles)))], [("default", text("gone"))], [("default", text(titles[0]))]])
    chance.shuffle(configurations)
    parents = [("images", [], images), ("configurations", default, configurations)]
    chance.shuffle(parents)
    root = ("", [("description", text("made")), ("timestamp", cell(0))], parents)
    return root, chance.choice([*titles, "default", "default", "gone"])


def child(node, name):
    """fdt_subnode_offset: the first child of a name."""
    return next((it for it in node[2] if it[0] == name), None)


def listed(value):
    """fdt_stringlist_get: the texts of a value, or None if one does not end."""
    return value[:-1].decode().split("\0") if value.endswith(b"\0") else None


def chosen(root, name):
    """The names of the images of a configuration, or None and the first thing that is missing."""
    configurations, images = child(root, "configurations"), child(root, "images")
    found = child(configurations, name)
    if found is None and name == "default":
        value = dict(configurations[1]).get("default")
        if value is None:
            return None, ("configuration", name)
        found = child(configurations, value.split(b"\0")[0].decode())
        if found is None:
            return None, ("default", value.split(b"\0")[0].decode())
    if found is None:
        return None, ("configuration", name)
    names, values = [], dict(found[1])
    for key in PROPERTIES:
        if key not in values:
            continue
        words = listed(values[key])
        for word in words or []:
            if child(images, word) is None:
                return None, (found[0], key, word)
            names.append(word)
        if words is None:
            return None, (found[0], key)
    return names, None


def asked(uimg, folder, path, name):
    """What uimg writes, or the words of its refusal."""
    shutil.rmtree(folder, ignore_errors=True)
    os.mkdir(folder)
    words = [uimg, "unpack", "--no-sync", "--config", name, "-C", folder, path]
    done = subprocess.run(words, capture_output=True, text=True, errors="surrogateescape", check=False)
    return done.returncode, sorted(os.listdir(folder)), done.stderr.strip()


def agrees(names, lacks, told):
    """Whether uimg does what U-Boot does."""
    status, files, line = told
    if lacks:
        return status == 1 and not files and f" missing {' '.join(lacks)}".rstrip() in line
    if not names:
        return status == 1 and not files and "no such image" in line
    return status == 0 and files == sorted(set(names))


def main():
    uimg, count = os.path.abspath(sys.argv[1]), int(sys.argv[2]) if len(sys.argv) > 2 else MADE
    chance, counts, wrong = random.Random(SEED), collections.Counter(), []
    with tempfile.TemporaryDirectory() as folder:
        path = f"{folder}/made.itb"
        for number in range(count):
            root, name = made(chance)
            with open(path, "wb") as file:
                file.write(Blob(root).bytes())
            names, lacks = chosen(root, name)
            told = asked(uimg, f"{folder}/out", path, name)
            counts["loaded" if names else "empty" if names == [] else "missing"] += 1
            if not agrees(names, lacks, told):
                wrong.append((number, name, names, lacks, told))
    row("images of a configuration, as U-Boot loads them", count, len(wrong))
    print(dict(counts), file=sys.stderr)
    for it in wrong[:5]:
        print(*it, file=sys.stderr)
    return 1 if wrong else 0


if __name__ == "__main__":
    sys.exit(main())
