"""Rows of signed FIT images: uimg beside U-Boot's fit_check_sign."""

import os
import shutil
import sys

TOP = os.path.dirname(os.path.dirname(os.path.abspath(__file__)))
sys.path.insert(0, os.path.join(TOP, "peers"))
from fit_check_sign import known  # noqa: E402
from signed_images import Signer  # noqa: E402

# How many images are checked, and the bytes of the kernel in each.
CHECKED, SIZE = 1000, 1024 * 1024
PADDINGS = {"pkcs-1.5": "PKCS #1", "pss": "PSS"}


def rows(row, uimg, folder):
    """Yields the rows, each as row(task, command, the peer's name, its command, whether the peer's
    memory is measured); or none, with a line that says what is missing."""
    peer = known().get("debian")
    if peer is None or shutil.which("openssl") is None:
        print("\nSigned FIT images are left out: openssl, or fit_check_sign of `make signatures`, is missing.")
        return
    signer = Signer(f"{folder}/signed")
    for bits in (2048, 4096):
        for padding, name in PADDINGS.items():
            case = signer.sign(f"{bits}-{padding}", "one", bits, "sha256", padding)
            own, other = commands(uimg, peer, case)
            yield row(f"check a signed FIT image, RSA-{bits} {name}", [*own, case.path], "`fit_check_sign`", [*other, case.path])
    with open(f"{signer.folder}/kernel.bin", "wb") as file:
        file.write(os.urandom(SIZE))
    case = signer.sign("large", "one", 2048, "sha256", "pkcs-1.5", ("-E",))
    names = f"{folder}/signed-names"
    with open(names, "w", encoding="ascii") as file:
        for number in range(CHECKED):
            copy = shutil.copy(case.path, f"{signer.folder}/copy-{number}.itb")
            print(copy, file=file)
    own, other = commands(uimg, peer, case)
    yield row(f"check {CHECKED:,} signed FIT images of 1 MiB", [*own, "--files-from", names], "`fit_check_sign` of each", ["xargs", "-n", "1", "-a", names, *other], False)
    shutil.rmtree(signer.folder)


def commands(uimg, peer, case):
    """The commands of both, without an image."""
    return [uimg, "check", "--strict", "--key", case.key.pem], [peer, "-k", case.tree, "-c", "conf-1", "-f"]
