"""Keys, and signatures of the configurations of FIT images by a definition of their message.

A signature of a configuration signs the bytes of tokens that its listed nodes cover, and the start of
the strings block: U-Boot 2023.01+dfsg-2+deb12u3, doc/uImage.FIT/signature.txt and
fit_config_get_hash_list. The padding is that of RFC 8017, sections 9.1 and 9.2."""

import hashlib
import os
import subprocess

from tokens import BEGIN, END, PROP, cells

EXEMPT = {b"data", b"data-size", b"data-position", b"data-offset"}
NO_IMAGES = {b"description", b"compatible", b"default"}
# DER of DigestInfo without the digest (RFC 8017, section 9.2).
DIGEST_INFO = {
    "sha1": "3021300906052b0e03021a05000414",
    "sha256": "3031300d060960864801650304020105000420",
    "sha384": "3041300d060960864801650304020205000430",
    "sha512": "3051300d060960864801650304020305000440",
}


class Key:
    """A key that openssl makes in a folder, with its certificate and its public half in PEM."""

    def __init__(self, folder, name, bits):
        self.folder, self.name, self.bits, self.pem = folder, name, bits, f"{folder}/{name}.pem"
        os.makedirs(folder, exist_ok=True)
        path = f"{folder}/{name}.key"
        run("openssl", "genpkey", "-quiet", "-algorithm", "RSA", "-out", path, "-pkeyopt", f"rsa_keygen_bits:{bits}")
        run("openssl", "req", "-batch", "-new", "-x509", "-key", path, "-out", f"{folder}/{name}.crt")
        run("openssl", "pkey", "-in", path, "-pubout", "-out", self.pem)
        der = run("openssl", "rsa", "-in", path, "-traditional", "-outform", "DER")
        _, self.n, _, _, self.p, self.q, self.dp, self.dq, self.inverse = integers(der)

    def power(self, number):
        """number ^ d % n (RFC 8017, section 5.1.2)."""
        first, second = pow(number, self.dp, self.p), pow(number, self.dq, self.q)
        return second + self.q * ((first - second) * self.inverse % self.p)

    def sign(self, encode, digest, message):
        """The value of a signature by an encoding."""
        size = self.bits // 8
        encoded = encode(digest, size, message)
        return self.power(int.from_bytes(encoded, "big")).to_bytes(size, "big")


def run(*words):
    done = subprocess.run(words, capture_output=True, check=False)
    if done.returncode:
        raise RuntimeError(f"{' '.join(words)}: {done.stderr.decode(errors='replace')}")
    return done.stdout


def integers(der):
    """The numbers of a SEQUENCE of INTEGERs (X.690, section 8)."""
    found, (at, _) = [], content(der, 0)
    while at < len(der):
        at, end = content(der, at)
        found.append(int.from_bytes(der[at:end], "big"))
        at = end
    return found


def content(der, at):
    """Where the content of an element begins and ends."""
    size = der[at + 1]
    if size < 0x80:
        return at + 2, at + 2 + size
    start = at + 2 + size - 0x80
    return start, start + int.from_bytes(der[at + 2 : start], "big")


def pkcs1(digest, size, message):
    info = bytes.fromhex(DIGEST_INFO[digest]) + hashlib.new(digest, message).digest()
    return b"\0\1" + b"\xff" * (size - 3 - len(info)) + b"\0" + info


def pss(digest, size, message, salt=bytes(32), mark=b"\1", last=b"\xbc"):
    """EMSA-PSS: its salt, what is before it, and the last octet."""
    hashed = hashlib.new(digest, message).digest()
    tied = hashlib.new(digest, bytes(8) + hashed + salt).digest()
    block = (mark + salt).rjust(size - len(tied) - 1, b"\0")
    mask = b"".join(hashlib.new(digest, tied + cells(it)).digest() for it in range(size // len(tied) + 1))
    masked = bytearray(a ^ b for a, b in zip(block, mask))
    masked[0] &= 0x7F
    return bytes(masked) + tied + last


def named(value):
    """The texts of a value, if the last one ends with a NUL."""
    return value.split(b"\0")[:-1] if value.endswith(b"\0") else []


def listed(blob, configuration):
    """The paths of the nodes that a configuration's signature covers."""
    nodes, root = blob.nodes(), (b"",)
    found = {root, configuration}
    for _, path, token in blob.placed():
        if token[0] == PROP and path == configuration and token[1] not in NO_IMAGES:
            found |= {(b"", b"images", it) for it in named(token[2])} & set(nodes)
    images = {it for it in found if it[1:2] == (b"images",)}
    return found | {it for it in nodes if it[:-1] in images and (it[-1].startswith(b"hash") or it[-1] == b"cipher")}


def message(blob, configuration, strings):
    """What is signed, with so many bytes of the strings block."""
    inside, parts = listed(blob, configuration), []
    for _, path, token in blob.placed():
        is_signed = path in inside and (token[0] != PROP or token[1] not in EXEMPT)
        if is_signed or (token[0] in (BEGIN, END) and path[:-1] in inside):
            parts.append(blob.raw(token))
    return b"".join(parts) + cells(9) + blob.strings[:strings]


def signature_nodes(blob):
    """The paths of the signature nodes of configurations."""
    return [it for it in blob.nodes() if len(it) == 4 and it[1] == b"configurations" and it[3].startswith(b"signature")]


def sign_again(blob, key, encode=None):
    """Signs each configuration anew, by its signature nodes that name the key. Without an encoding it
    is that of the padding which the node says."""
    for path in signature_nodes(blob):
        hint, algo = (blob.value(path, it) or b"" for it in (b"key-name-hint", b"algo"))
        digest = algo.split(b",")[0].decode("latin-1")
        if hint == key.name.encode() + b"\0" and digest in DIGEST_INFO:
            padded_by = pss if blob.value(path, b"padding") == b"pss\0" else pkcs1
            blob.put(path, b"hashed-strings", cells(0, len(blob.strings)))
            signed = message(blob, path[:3], len(blob.strings))
            blob.put(path, b"value", key.sign(encode or padded_by, digest, signed))
