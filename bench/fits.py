"""FIT images for the benchmark, written without any tool, and sources of some that tools build."""

import struct

NAMES = [
    "description", "timestamp", "data", "type", "arch", "os", "compression", "load", "entry",
    "algo", "value", "default", "kernel", "data-offset", "data-size", "fdt", "loadables",
]  # fmt: skip
STRINGS = b"".join(name.encode() + b"\0" for name in NAMES)


def padded(data):
    return data + bytes(-len(data) % 4)


def prop(name, value):
    at = STRINGS.index(name.encode() + b"\0")
    return struct.pack(">3I", 3, len(value), at) + padded(value)


def text(name, value):
    return prop(name, value.encode() + b"\0")


def node(name, *parts):
    head = struct.pack(">I", 1) + padded(name.encode() + b"\0")
    return head + b"".join(parts) + struct.pack(">I", 2)


def blob(root):
    """A blob: the header, an empty reservation block, the structure block and the strings."""
    structure = root + struct.pack(">I", 9)
    strings_at = 56 + len(structure)
    total = (strings_at + len(STRINGS) + 3) // 4 * 4
    words = [0xD00DFEED, total, 56, strings_at, 40, 17, 16, 0, len(STRINGS), len(structure)]
    whole = struct.pack(">10I", *words) + bytes(16) + structure + STRINGS
    return whole + bytes(total - len(whole))


def image(name, payload, hashes):
    """An image whose payload is given by these properties."""
    fields = [text("description", "bench"), payload, text("type", "kernel"), text("arch", "arm64")]
    fields += [text("os", "linux"), text("compression", "none")]
    fields += [prop("load", struct.pack(">I", 0x80000)), prop("entry", struct.pack(">I", 0x80000))]
    nodes = [
        node(f"hash-{number}", text("algo", algo), prop("value", value))
        for number, (algo, value) in enumerate(hashes)
    ]
    return node(name, *fields, *nodes)


def fit(images, configurations=1):
    """A FIT of these images."""
    own = [text("description", "bench"), prop("timestamp", struct.pack(">I", 1700000000))]
    below = [
        node(f"conf-{number}", text("description", "c"), text("kernel", "kernel"))
        for number in range(configurations)
    ]
    tree = [node("images", *images), node("configurations", text("default", "conf-0"), *below)]
    return blob(node("", *own, *tree))


def source(images):
    """Image-tree source of these images, with two configurations."""
    below = "".join(f'conf-{number} {{ kernel = "kernel-0"; }};\n' for number in range(2))
    configurations = 'configurations {\ndefault = "conf-0";\n' + below + "};\n"
    body = 'description = "bench";\nimages {\n' + "".join(images) + "};\n" + configurations
    return "/dts-v1/;\n/ {\n" + body + "};\n"


def source_image(number, data, algos, notes=0):
    """Source of one image, with a hash node for each algorithm and a number of other nodes."""
    nodes = [f'hash-{i} {{ algo = "{algo}"; }};' for i, algo in enumerate(algos)]
    nodes += [f'note-{i} {{ description = "n"; }};' for i in range(notes)]
    fields = ['type = "kernel";', 'arch = "arm64";', 'os = "linux";', 'compression = "none";']
    lines = [f"data = {data};", *fields, "load = <0x80000>;", "entry = <0x80000>;", *nodes]
    return f"kernel-{number} {{ " + " ".join(lines) + " };\n"


def included(path):
    return f'/incbin/("{path}")'


def write_source(path, images):
    with open(path, "w") as file:
        file.write(source(images))
