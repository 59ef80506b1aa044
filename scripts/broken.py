"""broken.py: images for comparisons, the same at each call."""
import random

EXAMPLES = ["abc-kernel.img", "three-part.img", "kernel.itb"]


def images(count):
    """Returns bytes of images: the examples, and some that are cut or have a few flipped bits."""
    chance = random.Random(1)
    whole = [open(f"examples/{it}", "rb").read() for it in EXAMPLES]
    made = [*whole, b"", b"\xd0\x0d\xfe\xed"]
    while len(made) < count:
        image = bytearray(chance.choice(whole))
        if chance.random() < 0.2:
            image = image[: chance.randrange(len(image))]
        else:
            for _ in range(chance.choice((1, 1, 2, 5))):
                image[chance.randrange(len(image))] ^= 1 << chance.randrange(8)
        made.append(bytes(image))
    return made
