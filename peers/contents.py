"""What the signatures of a FIT image are about: each configuration with what it and its images say, and
their payloads. A mutation without a new signature may not change it."""

from signing import EXEMPT, listed
from tokens import PROP, Blob


def number(value):
    return int.from_bytes(value[:4], "big")


def payload(file, blob, image):
    """The bytes of an image's payload."""
    value = {it: blob.value(image, it) for it in EXEMPT}
    if value[b"data-position"] is not None:
        at = number(value[b"data-position"])
    elif value[b"data-offset"] is not None:
        at = (blob.size + 3) // 4 * 4 + number(value[b"data-offset"])
    else:
        return value[b"data"]
    return file[at : at + number(value[b"data-size"] or b"")]


def contents(file):
    """By the name of each configuration, its nodes with their properties, but those that place data, and
    the payloads of its images."""
    blob, found = Blob(file), {}
    for configuration in blob.children(b"configurations"):
        paths = listed(blob, configuration)
        said = {path: [] for path in paths}
        for _, path, token in blob.placed():
            if path in paths and token[0] == PROP and token[1] not in EXEMPT:
                said[path].append(token[1:])
        images = [it for it in paths if it[1:2] == (b"images",) and len(it) == 3]
        found[configuration] = said, {it: payload(file, blob, it) for it in images}
    return found
