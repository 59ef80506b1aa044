"""Lists and verifies U-Boot images in memory and locates payloads, with libuimg.

    import mmap, uimg
    with open("kernel.itb", "rb") as file:
        image = mmap.mmap(file.fileno(), 0, access=mmap.ACCESS_READ)
    if uimg.check_strict(image, "sha256").status == uimg.DONE:
        payload = uimg.payload(image, "kernel")

check_strict is the check for an image that U-Boot is to boot: each image in it has a right hash of
the strength, and U-Boot takes just the bytes that were checked. Without it U-Boot may take others,
which no hash covers, since by libfdt it finds a node kernel@1 by the name kernel, and the first of
two properties of one name. verify also returns DONE for an image without hashes. check_signed also
requires that each configuration is signed by given keys.

An image is bytes, or anything else with a contiguous buffer. The library is the one that the
environment variable LIBUIMG names, else that of the wheel, else libuimg.so.0 of the system."""
import ctypes
import os
from typing import NamedTuple

DONE, NOT_RIGHT, BAD_KEYS, NO_MEMORY = 0, 1, 2, 3
_STRENGTHS = ("crc32", "md5", "sha1", "sha256", "sha384", "sha512")


class _Report(ctypes.Structure):
    _fields_ = [
        ("status", ctypes.c_uint32),
        ("fault", ctypes.c_uint32),
        ("place", ctypes.c_uint64),
        ("needed", ctypes.c_size_t),
        ("written", ctypes.c_size_t),
        ("peak", ctypes.c_uint64),
    ]


class _Payload(ctypes.Structure):
    _fields_ = [
        ("status", ctypes.c_uint32),
        ("fault", ctypes.c_uint32),
        ("place", ctypes.c_uint64),
        ("start", ctypes.c_size_t),
        ("size", ctypes.c_size_t),
        ("peak", ctypes.c_uint64),
    ]


class _Count(ctypes.Structure):
    _fields_ = [
        ("status", ctypes.c_uint32),
        ("fault", ctypes.c_uint32),
        ("place", ctypes.c_uint64),
        ("count", ctypes.c_size_t),
        ("peak", ctypes.c_uint64),
    ]


def _path():
    """Returns the path of the library, or its name if the loader has to find it."""
    own = f"{os.path.dirname(os.path.abspath(__file__))}/libuimg.so.0"
    return os.environ.get("LIBUIMG") or (own if os.path.isfile(own) else "libuimg.so.0")


_library = ctypes.CDLL(_path())
_bytes, _size = ctypes.POINTER(ctypes.c_uint8), ctypes.c_size_t
for _name in ("uimg_list", "uimg_verify"):
    getattr(_library, _name).argtypes = [_bytes, _size, _bytes, _size, ctypes.POINTER(_Report)]
for _name in ("uimg_check", "uimg_check_strict"):
    getattr(_library, _name).argtypes = [_bytes, _size, ctypes.c_uint32, ctypes.POINTER(_Report)]
_library.uimg_check_signed.argtypes = [_bytes, _size, _bytes, _size, _bytes, _size, ctypes.c_uint32, ctypes.POINTER(_Report)]
for _name in ("uimg_payload_at", "uimg_payload_name"):
    getattr(_library, _name).argtypes = [_bytes, _size, ctypes.c_uint32, ctypes.POINTER(_Payload)]
_library.uimg_payload_count.argtypes = [_bytes, _size, ctypes.POINTER(_Count)]
_library.uimg_payload_named.argtypes = [_bytes, _size, _bytes, _size, ctypes.POINTER(_Payload)]
_library.uimg_fault_line.argtypes = [ctypes.c_uint32, _bytes, _size]
_library.uimg_fault_line.restype = _size
_library.uimg_version.argtypes = [_bytes, _size]
_library.uimg_version.restype = _size


class Report(NamedTuple):
    """The result of a listing or a verification: a status, the line of the fault or "", the
    text, and the peak bytes of the table of a FIT image's nodes, with a window of 8192 bytes."""

    status: int
    fault: str
    text: bytes
    peak: int = 0


class Refused(Exception):
    """A payload was not found: the line of the fault is its text, and status is 1, or 3 if
    memory was refused."""

    def __init__(self, status, line):
        super().__init__(line)
        self.status = status


def _passed(image):
    """Returns a pointer to an image's bytes, their number, and what keeps them."""
    view = memoryview(image).cast("B")
    if not len(view):
        return (ctypes.c_uint8 * 1)(), 0, None
    if not view.readonly:
        array = (ctypes.c_uint8 * len(view)).from_buffer(view)
        return ctypes.cast(array, _bytes), len(view), array
    # ctypes accepts no read-only buffer: the Python buffer call gives its address.
    lent = _Buffer()
    ctypes.pythonapi.PyObject_GetBuffer(ctypes.py_object(view), ctypes.byref(lent), 0)
    return ctypes.cast(lent.buf, _bytes), len(view), _Lent(lent)


class _Buffer(ctypes.Structure):
    _fields_ = [
        ("buf", ctypes.c_void_p),
        ("obj", ctypes.py_object),
        ("len", ctypes.c_ssize_t),
        ("itemsize", ctypes.c_ssize_t),
        ("readonly", ctypes.c_int),
        ("ndim", ctypes.c_int),
        ("format", ctypes.c_char_p),
        ("shape", ctypes.c_void_p),
        ("strides", ctypes.c_void_p),
        ("suboffsets", ctypes.c_void_p),
        ("internal", ctypes.c_void_p),
    ]


class _Lent:
    """A buffer that is released when nothing needs it any more."""

    def __init__(self, lent):
        self.lent = lent

    def __del__(self):
        ctypes.pythonapi.PyBuffer_Release(ctypes.byref(self.lent))


def _text(call, *words):
    """Returns the text that a call writes."""
    text = (ctypes.c_uint8 * 64)()
    return bytes(text[: call(*words, text, len(text))]).decode()


def _line(found):
    """Returns the line of a fault, as the program prints it after `uimg: `; "" for none."""
    line = _text(_library.uimg_fault_line, found.fault)
    return f"{line} at {found.place}" if found.fault >> 8 == ord("B") else line


def _report(call, image):
    pointer, size, _keep = _passed(image)
    room = 4096
    while True:
        text, report = (ctypes.c_uint8 * room)(), _Report()
        call(pointer, size, text, room, ctypes.byref(report))
        if report.written == report.needed:
            return Report(report.status, _line(report), bytes(text[: report.written]), report.peak)
        room = report.needed


def listing(image):
    """Lists an image, as `uimg dumpimage -l`."""
    return _report(_library.uimg_list, image)


def verify(image):
    """Verifies an image, as `uimg verify`. The status is DONE only if each line ends with ok or
    unhashed."""
    return _report(_library.uimg_verify, image)


def check(image, need="sha256"):
    """Checks an image, as `uimg check --need`: DONE only if each hash is right, by crc16-ccitt too,
    which verify calls unsupported, there is an image, and each has a hash node that is compared by
    this algorithm or a stronger one, of crc32, md5, sha1, sha256, sha384 and sha512. There is no
    text."""
    return _check(_library.uimg_check, image, need)


def check_strict(image, need="sha256"):
    """Checks an image, as check does: DONE only if U-Boot reads in it just what was checked."""
    return _check(_library.uimg_check_strict, image, need)


def check_signed(image, keys, need="sha256", config=""):
    """Checks an image, as check_strict does: DONE only if each configuration is signed, too, or, with
    config, the one of this name. The keys are bytes, or another buffer, of a public key in PEM with
    nothing before or after it, or of a control devicetree of U-Boot: of this each key in /signature
    whose required is conf must have signed, or one of them if required-mode is any. A key is RSA of
    2048, 3072 or 4096 bits. For anything else the status is BAD_KEYS."""
    pointer, size, _kept = _passed(keys)
    name, length, _named = _passed(config.encode() if isinstance(config, str) else config)
    return _check(_library.uimg_check_signed, image, need, pointer, size, name, length)


def _check(call, image, need, *more):
    pointer, size, _keep = _passed(image)
    report = _Report()
    call(pointer, size, *more, _STRENGTHS.index(need) + 1, ctypes.byref(report))
    return Report(report.status, _line(report), b"", report.peak)


def place(image, which=0):
    """Returns the offset of a payload in the image, and its size: of the payload at a position,
    counted from 0, or, in a FIT image, of the first image with a name. Raises Refused."""
    pointer, size, _keep = _passed(image)
    found = _Payload()
    if isinstance(which, int):
        _library.uimg_payload_at(pointer, size, _position(which), ctypes.byref(found))
    else:
        name, length, _kept = _passed(which.encode() if isinstance(which, str) else which)
        _library.uimg_payload_named(pointer, size, name, length, ctypes.byref(found))
    _done(found)
    return found.start, found.size


def _position(number):
    if not 0 <= number < 2**32:
        raise ValueError("a position is from 0 to 4294967295")
    return number


def _done(found):
    if found.status != DONE:
        raise Refused(found.status, _line(found) or "out of memory")


def count(image):
    """Returns the number of images in a FIT image, or of parts in a legacy image. Raises
    Refused."""
    pointer, size, _keep = _passed(image)
    found = _Count()
    _library.uimg_payload_count(pointer, size, ctypes.byref(found))
    _done(found)
    return found.count


def name(image, position):
    """Returns the name of the image at a position of a FIT image, as bytes. Raises Refused."""
    pointer, size, _keep = _passed(image)
    found = _Payload()
    _library.uimg_payload_name(pointer, size, _position(position), ctypes.byref(found))
    _done(found)
    return bytes(memoryview(image).cast("B")[found.start : found.start + found.size])


def payload(image, which=0):
    """Returns the bytes of a payload, given as for place. Raises Refused."""
    start, size = place(image, which)
    return bytes(memoryview(image).cast("B")[start : start + size])


def version():
    """Returns the version of the library, as "0.1.0"."""
    return _text(_library.uimg_version)
