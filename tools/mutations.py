"""Changes of images: of their length, of any bytes, and of the fields that pages have."""

import struct

from compare import PAGE


def pointers(image, block):
    """Where the tuples of a page begin, and their sizes."""
    at = PAGE * block
    items = min(struct.unpack_from("<H", image, at + 12)[0], (PAGE - 24) // 4)
    return [struct.unpack_from("<HH", image, at + 24 + 4 * item) for item in range(items)]


def some_number(rng, was, most, blocks):
    """Another number for a field: near the old one, an edge, a block, or any."""
    return rng.choice([0, 1, 2, 3, was + 1, max(was - 1, 0), rng.randrange(blocks + 1), most, rng.randint(0, most)]) & most


def change_number(rng, image, at, size, blocks):
    """Another number in so many bytes."""
    was = int.from_bytes(image[at : at + size], "little")
    number = some_number(rng, was, 256**size - 1, blocks)
    image[at : at + size] = number.to_bytes(size, "little")


META = [(0, 4), (4, 2), (6, 1), (7, 1), (8, 4), (12, 2), (14, 2), (16, 8), (24, 1), (25, 1), (28, 4), (32, 8), (72, 1)]
HEADER = [(0, 4), (4, 2), (6, 1), (7, 1), (8, 4), (12, 2), (14, 2), (20, 1), (8184, 1)]
LEAF = [(0, 1), (1, 1), (2, 2), (4, 2), (4, 2), (6, 2), (8, 4), (12, 2), (14, 1)]
REDIRECT = [(0, 1), (2, 2), (4, 4), (8, 2), (10, 6), (10, 6)]


def change_inner(rng, image, at, blocks):
    """A field of an inner tuple, of its prefix or of one of its nodes."""
    prefix, nodes = struct.unpack_from("<HH", image, at + 4)
    node = at + 8 + (prefix + 7) // 8 * 8 + 8 * rng.randrange(max(nodes, 1))
    field = rng.choice([(at, 1), (at + 1, 1), (at + 2, 2), (at + 4, 2), (at + 6, 2), (at + 8, 4)] + [(node, 4), (node + 4, 2), (node + 6, 2)] * 3)
    if field[0] + field[1] <= len(image):
        change_number(rng, image, *field, blocks)


def some_tuple(rng, image, block):
    """Where a tuple begins, and its size: one that is no leaf as often as one of all."""
    found = [(PAGE * block + begin, size) for begin, size in pointers(image, block) if PAGE * block + begin + 16 <= len(image)]
    rare = [pointer for pointer in found if image[pointer[0]] != 2]
    return rng.choice(rare if rare and rng.random() < 0.5 else found) if found else None


def swap_links(rng, image, block):
    """The links of two tuples change places: next offsets of a page, or downlinks of two nodes."""
    first, second = some_tuple(rng, image, block), some_tuple(rng, image, block)
    if first is None or image[first[0]] != image[second[0]]:
        return
    size = 6 if image[first[0]] == 1 else 2
    one, other = (at + (8 + 8 * rng.randrange(max(1, length // 8 - 1)) if size == 6 else 4) for at, length in (first, second))
    if max(one, other) + size <= len(image):
        image[one : one + size], image[other : other + size] = image[other : other + size], image[one : one + size]


def change_tuple(rng, image, block, blocks):
    """A field of a tuple, by what it is; or a tuple of the same size in the place of another."""
    chosen, other = some_tuple(rng, image, block), some_tuple(rng, image, block)
    if chosen is None:
        return
    at, size = chosen
    if other[1] == size and rng.random() < 0.15:
        image[at : at + size] = image[other[0] : other[0] + size]
        return
    tag = image[at]
    if tag == 1:
        change_inner(rng, image, at, blocks)
    elif tag == 2 and size > 16 and rng.random() < 0.3:
        change_number(rng, image, at + 16 + rng.randrange(size - 16), 1, blocks)
    else:
        offset, length = rng.choice(LEAF if tag == 2 else REDIRECT)
        change_number(rng, image, at + offset, length, blocks)


def change_once(rng, image):
    """One change."""
    blocks = max(len(image) // PAGE, 1)
    block = rng.randrange(1, blocks) if blocks > 1 else 0
    chance = rng.random()
    if chance < 0.12:
        change_number(rng, image, *rng.choice(META + [(40 + 4 * rng.randrange(8), 4)] * 3), blocks)
    elif chance < 0.2 and block:
        offset, size = rng.choice(HEADER)
        change_number(rng, image, PAGE * block + offset, size, blocks)
    elif chance < 0.28 and block and pointers(image, block):
        item = rng.randrange(len(pointers(image, block)))
        change_number(rng, image, PAGE * block + 24 + 4 * item + 2 * rng.randrange(2), 2, blocks)
    elif chance < 0.4 and block:
        swap_links(rng, image, block)
    elif chance < 0.85 and block:
        change_tuple(rng, image, block, blocks)
    elif chance < 0.9 and blocks > 2:
        other = rng.randrange(1, blocks)
        image[PAGE * block + 12 : PAGE * block + PAGE] = image[PAGE * other + 12 : PAGE * other + PAGE]
    elif image:
        image[rng.randrange(len(image))] = rng.randrange(256)


def changed(rng, image):
    """A copy of an image, or none."""
    chance = rng.random()
    if chance < 0.15:
        return image
    if chance < 0.17:
        return None
    if chance < 0.22:
        return image[: rng.choice([0, 1, 8191, 8192, 8193, len(image) - 1, len(image) - PAGE, rng.randrange(len(image))])]
    if chance < 0.24:
        return image + image[-PAGE:] if rng.random() < 0.5 else image + b"\0"
    copy = bytearray(image)
    for _ in range(rng.choice([1, 1, 1, 1, 2, 3])):
        change_once(rng, copy)
    return bytes(copy)
