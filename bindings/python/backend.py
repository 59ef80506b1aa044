"""backend.py [FOLDER]: makes the wheel of the package uimg with libuimg.so.0 inside, and leaves it in
FOLDER, by default this one. The environment variable LIBUIMG_DIR names the folder of the library;
the wheel is for the library's machine. It is also the build backend of pyproject.toml, by PEP 517,
for `pip wheel` and `pip install`. It needs Python 3.11 and no package. The same files give the same
wheel."""
import base64
import glob
import hashlib
import os
import struct
import sys
import tomllib
import zipfile

HERE = os.path.dirname(os.path.abspath(__file__))
LIBRARY = "libuimg.so.0"
# The machines that the library is compiled for, by their numbers in ELF.
MACHINES = {62: "x86_64", 183: "aarch64"}


def read(path):
    with open(path, "rb") as file:
        return file.read()


def machine_of(library):
    """Returns the name of the machine that a library is for, from its header."""
    return MACHINES[struct.unpack_from("<H", library, 18)[0]]


def metadata(project):
    """Returns the core metadata of a project, with its README as the description."""
    fields = {
        "Metadata-Version": "2.1",
        "Name": project["name"],
        "Version": project["version"],
        "Summary": project["description"],
        "License": project["license"],
        "Requires-Python": project["requires-python"],
        "Description-Content-Type": "text/markdown",
    }
    head = "".join(f"{name}: {value}\n" for name, value in fields.items())
    return head.encode() + b"\n" + read(f"{HERE}/{project['readme']}")


def line(name, content):
    """Returns a file's line in RECORD."""
    digest = base64.urlsafe_b64encode(hashlib.sha256(content).digest()).rstrip(b"=").decode()
    return f"{name},sha256={digest},{len(content)}\n"


def build_wheel(wheel_directory, config_settings=None, metadata_directory=None):
    """Writes the wheel to a folder, and returns its file name."""
    project = tomllib.loads(read(f"{HERE}/pyproject.toml").decode())["project"]
    library = read(f"{os.environ['LIBUIMG_DIR']}/{LIBRARY}")
    title, tag = f"{project['name']}-{project['version']}", f"py3-none-linux_{machine_of(library)}"
    about = f"{title}.dist-info"
    files = {"uimg/__init__.py": read(f"{HERE}/uimg/__init__.py"), f"uimg/{LIBRARY}": library}
    files |= {f"{about}/licenses/{os.path.basename(it)}": read(it) for it in sorted(glob.glob(f"{HERE}/../../LICENSE-*"))}
    files[f"{about}/METADATA"] = metadata(project)
    files[f"{about}/WHEEL"] = f"Wheel-Version: 1.0\nGenerator: uimg\nRoot-Is-Purelib: false\nTag: {tag}\n".encode()
    record = "".join(line(name, content) for name, content in files.items()) + f"{about}/RECORD,,\n"
    files[f"{about}/RECORD"] = record.encode()
    with zipfile.ZipFile(f"{wheel_directory}/{title}-{tag}.whl", "w", zipfile.ZIP_DEFLATED) as wheel:
        for name, content in files.items():
            entry = zipfile.ZipInfo(name)
            entry.compress_type, entry.external_attr = zipfile.ZIP_DEFLATED, 0o100644 << 16
            wheel.writestr(entry, content)
    return f"{title}-{tag}.whl"


if __name__ == "__main__":
    print(build_wheel(sys.argv[1] if len(sys.argv) > 1 else "."))
