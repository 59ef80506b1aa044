"""unpack.py: checks an image, and writes the payload at a position to standard output, like
examples/c/unpack.c: `python3 unpack.py kernel.itb 0 > payload`, or by keys `python3 unpack.py
signed.itb 0 dev.pem > payload`. It needs the package of bindings/python, installed or named by
PYTHONPATH."""
import mmap
import os
import stat
import sys

import uimg

WRONG_LINE, FAILED = 2, 3
REASONS = {
    uimg.NOT_RIGHT: "not right, or without a strong hash",
    uimg.BAD_KEYS: "no keys that U-Boot takes",
    uimg.NO_MEMORY: "out of memory",
}


def mapped(path):
    """Returns a file's bytes, mapped. An empty file cannot be mapped, and a pipe has no known
    size."""
    with open(path, "rb") as file:
        about = os.fstat(file.fileno())
        if not stat.S_ISREG(about.st_mode):
            raise OSError(f"{path} is no regular file")
        return mmap.mmap(file.fileno(), 0, access=mmap.ACCESS_READ) if about.st_size else b""


def tell(text):
    print(f"unpack.py: {text}", file=sys.stderr)


def unpack(path, position, *keys):
    image = mapped(path)
    report = uimg.check_signed(image, mapped(*keys)) if keys else uimg.check_strict(image)
    if report.status != uimg.DONE:
        tell(report.fault or REASONS[report.status])
        return report.status
    try:
        payload = uimg.payload(image, position)
    except uimg.Refused as fault:
        tell(fault)
        return fault.status
    if sys.stdout is None:
        raise OSError("standard output is closed")
    sys.stdout.buffer.write(payload)
    sys.stdout.buffer.flush()
    return uimg.DONE


def main(words):
    if len(words) not in (3, 4) or not words[2].isascii() or not words[2].isdigit() or int(words[2]) >= 2**32:
        print("usage: unpack.py IMAGE POSITION [KEYS]", file=sys.stderr)
        return WRONG_LINE
    try:
        return unpack(words[1], int(words[2]), *words[3:])
    except OSError as fault:
        tell(fault)
        # Output that could not be written is not tried again at the end.
        sys.stdout = None
        return FAILED


if __name__ == "__main__":
    sys.exit(main(sys.argv))
