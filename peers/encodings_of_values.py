"""Values of signatures that the key made of right and of wrong encodings (RFC 8017, section 9)."""

import functools
import hashlib

from signing import DIGEST_INFO, pkcs1, pss, sign_again
from tokens import Blob

SALTS = (0, 1, 20, 32, 33, 100, 221, 222)


def ff(digest, size, message, head=b"\0\1", fill=b"\xff", info=None, rest=b""):
    """EMSA-PKCS1-v1_5 with other parts, and something after the digest."""
    info = DIGEST_INFO[digest] if info is None else info
    tail = b"\0" + bytes.fromhex(info) + hashlib.new(digest, message).digest() + rest
    return head + (fill * size)[: size - len(head) - len(tail)] + tail


def of_sha1(_digest, size, message):
    return pkcs1("sha1", size, message)


# By padding: what is right, and what is wrong.
RIGHT = {
    "pkcs-1.5": {"as RFC 8017 says": pkcs1},
    "pss": {f"salt of {it}": functools.partial(pss, salt=b"\x55" * it) for it in SALTS},
}
WRONG = {
    "pkcs-1.5": {
        "first octet 1": functools.partial(ff, head=b"\1\1"),
        "type 2": functools.partial(ff, head=b"\0\2"),
        "type 0": functools.partial(ff, head=b"\0\0"),
        "another octet of padding": functools.partial(ff, fill=b"\xff" * 50 + b"\xfe"),
        "padding of zeros": functools.partial(ff, fill=b"\0"),
        "octets after the digest": functools.partial(ff, rest=bytes(100)),
        "one octet after the digest": functools.partial(ff, rest=b"\0"),
        "no parameters": functools.partial(ff, info="302f300b0609608648016503040201" + "0420"),
        "no DigestInfo": functools.partial(ff, info=""),
        "DigestInfo of SHA-512": functools.partial(ff, info=DIGEST_INFO["sha512"]),
        "by SHA-1": of_sha1,
        "as PSS": pss,
    },
    "pss": {
        "no mark": functools.partial(pss, mark=b"\2"),
        "salt alone": functools.partial(pss, mark=b"", salt=b"x" * 222),
        "octets before the mark": functools.partial(pss, mark=b"\3\0\1"),
        "another last octet": functools.partial(pss, last=b"\xbd"),
        "as PKCS #1": pkcs1,
    },
}


def encoded(case, padding, folder):
    """The cases of an image whose padding is this one, each with whether it is right."""
    found = []
    for is_right, encodings in ((True, RIGHT), (False, WRONG)):
        for name, encode in encodings[padding].items():
            blob = Blob(case.data())
            sign_again(blob, case.key, encode)
            path = f"{folder}/{padding}-{len(found)}.itb"
            found.append((is_right, case.changed(f"{padding} {name}", path, blob.bytes())))
    return found
