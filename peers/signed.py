"""FIT images with signatures: by the wrapper, for which uimg builds the image and `mkimage -F` signs
it, and by mkimage only, with the same keys.

There are five algorithms, images with and without signed configurations, four placements of the
payloads, keys of a folder, of a file and none, a comment, and public keys that are written to a
device tree. The trees are compared, sorted by name, with the signature of each image, the payloads
after the tree, and the public keys. Of the signature of a configuration only the presence is
compared, since it covers the order of properties, which differs.
"""

import itertools
import os
import shutil
import subprocess
import tempfile

from counting import Count, output
from fit_builds import TIME, tree

WRAPPER = os.path.join(os.path.dirname(os.path.dirname(os.path.abspath(__file__))), "wrappers", "mkimage")
ALGOS = ["sha1,rsa2048", "sha256,rsa2048", "sha256,rsa4096", "sha384,rsa2048", "sha512,rsa4096"]
PLACEMENTS = ["", "-E", "-E -p 3000", "-E -B 200"]
OPTIONS = ["-k keys", "-k keys -r -K keys.dtb", "-k keys -c 'a comment' -t", "-G keys/dev.key", "-k none"]
SOURCE = """/dts-v1/;
/ {
    description = "signed";
    #address-cells = <1>;
    images {
        kernel { description = "k"; type = "kernel"; arch = "arm64"; os = "linux"; compression = "none";
            load = <0x80000>; entry = <0x80000>; data = /incbin/("d");
            hash-1 { algo = "sha256"; }; signature-1 { algo = "ALGO"; key-name-hint = "dev"; }; };
        fdt { description = "f"; type = "flat_dt"; arch = "arm64"; compression = "none"; data = /incbin/("d");
            hash-1 { algo = "sha1"; }; signature-1 { algo = "ALGO"; key-name-hint = "dev"; }; };
    };
    configurations { default = "conf"; conf { description = "c"; kernel = "kernel"; fdt = "fdt";
        SIGNATURE }; };
};
"""
SIGNATURE = 'signature { algo = "ALGO"; key-name-hint = "dev"; sign-images = "kernel", "fdt"; };'


def make_keys(folder):
    """A key and its certificate, for each length."""
    for bits in (2048, 4096):
        keys = f"{folder}/keys{bits}"
        os.mkdir(keys)
        key = ["openssl", "genpkey", "-algorithm", "RSA", "-out", f"{keys}/dev.key"]
        key += ["-pkeyopt", f"rsa_keygen_bits:{bits}", "-pkeyopt", "rsa_keygen_pubexp:65537"]
        subprocess.run(key, capture_output=True, check=True)
        words = ["openssl", "req", "-batch", "-new", "-x509", "-key", f"{keys}/dev.key", "-out", f"{keys}/dev.crt"]
        subprocess.run(words, capture_output=True, check=True)


def made(tool, words, folder, keys, environment):
    """Whether a tool makes an image, its tree, what follows it, and the tree of the public keys."""
    with tempfile.TemporaryDirectory() as here:
        for name in ("d", "fit.its"):
            shutil.copy(f"{folder}/{name}", here)
        os.symlink(keys, f"{here}/keys")
        subprocess.run(["dtc", "-q", "-o", "keys.dtb"], cwd=here, input=b"/dts-v1/; / { };", check=True)
        done = subprocess.run(["sh", "-c", f"{tool} {words} out"], cwd=here, env=environment, capture_output=True)
        left = sorted(it for it in os.listdir(here) if it.startswith("out"))
        if done.returncode:
            return done.returncode, left
        with open(f"{here}/out", "rb") as file:
            image = file.read()
        payloads = image[int.from_bytes(image[4:8], "big") :].lstrip(b"\0")
        return 0, left, fixed(tree(f"{here}/out")), payloads, tree(f"{here}/keys.dtb")


def fixed(answer):
    """A tree without what a configuration's signature is of its blob."""
    status, text = answer
    configurations, images, rest = text.partition(b"\n\timages {")
    kept = [it for it in configurations.split(b"\n") if b"hashed-strings = " not in it]
    return status, [it.partition(b"<")[0] if b"value = " in it else it for it in kept], images + rest


def compare(uimg):
    count = Count()
    with tempfile.TemporaryDirectory() as folder:
        make_keys(folder)
        os.mkdir(f"{folder}/bin")
        os.symlink(uimg, f"{folder}/bin/uimg-mkimage")
        environment = dict(os.environ, SOURCE_DATE_EPOCH=TIME, TZ="UTC", PATH=f"{os.environ['PATH']}:{folder}/bin")
        with open(f"{folder}/d", "wb") as file:
            file.write(b"payload " * 300)
        for algo, signature in itertools.product(ALGOS, (SIGNATURE, "")):
            with open(f"{folder}/fit.its", "w", encoding="ascii") as file:
                file.write(SOURCE.replace("SIGNATURE", signature).replace("ALGO", algo))
            keys = f"{folder}/keys{algo[-4:]}"
            for placement, options in itertools.product(PLACEMENTS, OPTIONS):
                words = f"{placement} {options} -f fit.its"
                answers = (made(tool, words, folder, keys, environment) for tool in (WRAPPER, "mkimage"))
                count.images += 1
                count.expect(f"{algo}: mkimage {words}", *answers)
    return count
