#!/usr/bin/env python3
"""Compares the program with another model of it on random scripts.

    compare.py --program 'PATH run' --model 'PATH run' [--count N] [--seed S] [--large PART] [--classes 'quad,kd value,range']
        [--trips N] [--no-vacuum] [--no-save] [--no-stat] [--no-blank] [--no-near]

Both commands read a script from standard input, each in a folder of its own. They must write the same text, end with
the same status, name the same bad line, and save images of the same pages: the same header, and the same tuples in the
order of their offsets. Where the tuples stand on a page, and its free bytes, may differ; how many images differ in that
alone is told. A script on which they differ is left as NAME.differs. Small scripts have edges and bad lines; large ones
have hundreds to thousands of inserts of one shape, with deletes, vacuums and finds between and behind them, and rows
used again. With `--trips N` N scripts of one class are run one after another: each saves the index, and the next goes on
from that image, both commands with `--from` behind them. The last five options leave lines out.
"""

import argparse
import os
import pathlib
import random
import shlex
import struct
import subprocess
import sys
import tempfile
from concurrent.futures import ThreadPoolExecutor

PAGE = 8192
TRIP = "trip"

# The status of a run that was ended, and after how many seconds it was.
HANGS, LONGEST = "no end", 600

EDGES = [-2147483648, -2147483647, -1, 0, 1, 2147483646, 2147483647]
PLAIN = set(range(32, 127)) - {34, 92} | set(range(128, 256))


class Points:
    """Keys and conditions of points."""

    def __init__(self, rng, shape, wide):
        self.rng, self.shape, self.wide = rng, shape, wide

    def at(self, i):
        rng, wide = self.rng, self.wide
        if self.shape == "equal":
            return (0, 0) if rng.random() < 0.97 else (rng.randint(-1, 1), rng.randint(-1, 1))
        if self.shape == "few":
            return rng.randint(0, wide % 7), rng.randint(0, 2)
        if self.shape == "clustered":
            centre = rng.randint(0, 5)
            return centre * 1000 + rng.randint(-3, 3), centre * centre * 100 + rng.randint(-3, 3)
        if self.shape == "sorted":
            return i, i % rng.choice([1, 5])
        if self.shape == "ends" or rng.random() < 0.1:
            return rng.choice(EDGES), rng.choice(EDGES)
        return rng.randint(-wide, wide), rng.randint(-wide, wide)

    def key(self, i):
        return b"%d,%d" % self.at(i)

    def nearest(self):
        """A search for the nearest rows of a point that may have a key or may be an edge."""
        rng = self.rng
        x, y = self.at(rng.randrange(4000)) if rng.random() < 0.8 else (rng.choice(EDGES), rng.choice(EDGES))
        return b"near %d,%d %d" % (x, y, rng.choice([1, 1, 2, 3, 10, 100, 1000, 65535]))

    def condition(self):
        x, y = self.at(self.rng.randrange(4000))
        kind = self.rng.choice([b"eq", b"left", b"right", b"below", b"above", b"in"])
        if kind == b"eq":
            return b"eq %d,%d" % (x, y)
        if kind == b"in":
            a, b = self.at(self.rng.randrange(4000))
            return b"in %d,%d,%d,%d" % (min(x, a), min(y, b), max(x, a), max(y, b))
        return kind + b" %d" % (x if kind in (b"left", b"right") else y)


class Texts:
    """Keys and conditions of texts."""

    def __init__(self, rng, shape, wide):
        self.rng, self.shape = rng, shape
        self.alphabet = rng.choice([b"a", b"ab", b"abc", bytes(range(256)), b"\x00\xff", b"0123456789"])
        self.prefix = bytes(rng.choice(self.alphabet) for _ in range(rng.choice([0, 0, 1, 5, 60, 300, 2000])))

    def text(self, i):
        rng = self.rng
        if self.shape == "equal" and rng.random() < 0.97:
            return self.prefix
        if self.shape == "sorted":
            return b"%06d" % i
        body = bytes(rng.choice(self.alphabet) for _ in range(rng.choice([0, 1, 2, 3, 5, 8, 13])))
        front = self.prefix if self.shape == "clustered" else b""
        return (front[: rng.randint(0, len(front))] + body)[:3900]

    def spelled(self, text):
        rng = self.rng
        told = b'"'
        for byte in text:
            if byte in PLAIN and rng.random() < 0.9:
                told += bytes([byte])
            else:
                told += (b"\\x%02x" if rng.random() < 0.8 else b"\\x%02X") % byte
        return told + b'"'

    def key(self, i):
        return self.spelled(self.text(i))

    def condition(self):
        kind = self.rng.choice([b"eq", b"lt", b"le", b"gt", b"ge", b"starts"])
        text = self.text(self.rng.randrange(4000))
        return kind + b" " + self.spelled(text[: self.rng.randint(0, len(text))])


class Ranges:
    """Keys and conditions of ranges."""

    def __init__(self, rng, shape, wide):
        self.rng, self.points = rng, Points(rng, shape, wide)

    def key(self, i):
        if self.rng.random() < 0.1:
            return b"empty"
        return b"[%d,%d]" % tuple(sorted(self.points.at(i)))

    def condition(self):
        kind = self.rng.choice([b"eq", b"overlap", b"contains", b"within", b"left", b"right"])
        return kind + b" " + self.key(self.rng.randrange(4000))


class Valued:
    """Keys with values beside them, and the conditions of the keys."""

    def __init__(self, rng, keys):
        self.rng, self.keys = rng, keys
        self.condition = keys.condition

    def key(self, i):
        rng = self.rng
        value = rng.choice([i, i, rng.randrange(3), rng.randrange(2**64), 2**64 - 1])
        return self.keys.key(i) + b" value %d" % value


KEYS = {"quad": Points, "kd": Points, "radix": Texts, "range": Ranges}


def query(rng, keys, kinds):
    if b"near" in kinds and isinstance(keys, Points) and rng.random() < 0.4:
        return keys.nearest()
    chance = rng.random()
    if chance < 0.15:
        return b"find all"
    if chance < 0.25:
        return b"find null"
    return b"find where " + b" and ".join(keys.condition() for _ in range(rng.choice([1, 1, 1, 2, 2, 3, 8])))


def insert(rng, keys, i, row, nulls):
    return b"insert %s " % row + (b"null" if rng.random() < nulls else keys.key(i))


def keys_of(rng, classes):
    name = rng.choice(classes)
    shape = rng.choice(["equal", "few", "uniform", "clustered", "sorted", "ends"])
    wide = rng.choice([2, 5, 20, 10000, 1000000])
    bare, _, value = name.partition(" ")
    keys = KEYS[bare](rng, shape, wide)
    return name, Valued(rng, keys) if value else keys


def broken(rng, line):
    """The line with one small change, which is often no line of a script any more."""
    at = rng.randrange(len(line) + 1)
    change = rng.randrange(4)
    if change == 0:
        return line[:at] + line[at + 1 :]
    if change == 1:
        return line[:at] + rng.choice([b" ", b"0", b"-", b"+", b".", b",", b"9", b"x", b'"', b"\\", b"\x7f"]) + line[at:]
    if change == 2:
        return line.replace(b" ", b"  ", 1)
    return line + rng.choice([b" ", b" and", b" and left 3", b",0", b".1", b'"'])


def name_of(rng):
    """A name of an image: mostly one of a few, so that a name is saved over."""
    if rng.random() < 0.8:
        return rng.choice([b"a", b"town", b"_", b"0.-_"])
    return bytes(rng.choice(b"az09_") for _ in range(1)) + bytes(
        rng.choice(b"abcxyz0189_-.") for _ in range(rng.choice([0, 1, 10, 63]))
    )


def other(rng, kinds):
    """A line that is no insert, delete or find."""
    kind = rng.choice([kind for kind in kinds if kind != b"near"] or [b"blank"])
    if kind == b"blank":
        return rng.choice([b"", b"#", b"# a remark", b"#insert 1.1 0,0"])
    return b"save " + name_of(rng) if kind == b"save" else kind


def small(rng, classes, kinds):
    """A script, in one of five cases with a line changed."""
    name, keys = keys_of(rng, classes)
    lines = [b"class " + name.encode()]
    for i in range(rng.choice([0, 3, 10, 40, 350])):
        row = b"%d.%d" % (rng.choice([0, 1, 2, 4294967295]), rng.choice([1, 2, 3, 65535, rng.randint(1, 400)]))
        chance = rng.random()
        if chance < 0.15:
            lines.append(b"delete " + row)
        elif chance < 0.25 and kinds:
            lines.append(other(rng, kinds))
        else:
            lines.append(insert(rng, keys, i, row, 0.1) if chance < 0.8 else query(rng, keys, kinds))
    if b"blank" in kinds and rng.random() < 0.2:
        lines.insert(0, b"# before the class")
    if rng.random() < 0.2:
        at = rng.randrange(len(lines))
        lines[at] = broken(rng, lines[at])
    return b"\n".join(lines) + (b"" if rng.random() < 0.2 else b"\n")


def large(rng, classes, kinds):
    """Many inserts of one shape."""
    name, keys = keys_of(rng, classes)
    count = rng.choice([300, 400, 600, 1000, 1500, 2500, 4000])
    rows = list(range(count))
    if rng.random() < 0.5:
        rng.shuffle(rows)
    nulls = rng.choice([0, 0, 0.1, 0.5, 0.9])
    deletes = rng.choice([0, 0.02, 0.3, 0.8])
    reused = rng.choice([0.01, 0.01, 0.3])
    others = rng.choice([2, 8, 40])
    lines = [b"class " + name.encode()]
    for i in range(count):
        row = rows[i] if rng.random() >= reused else rows[rng.randrange(i + 1)]
        lines.append(insert(rng, keys, i, b"%d.%d" % (row // 300, row % 300 + 1), nulls))
        if rng.random() < deletes:
            row = rows[rng.randint(0, min(i + 3, count - 1))]
            lines.append(b"delete %d.%d" % (row // 300, row % 300 + 1))
        if rng.random() < 8 / count:
            lines.append(query(rng, keys, kinds))
        if kinds and rng.random() < others / count:
            lines.append(other(rng, kinds))
    for _ in range(rng.randint(1, 6)):
        lines.append(query(rng, keys, kinds))
        if kinds and rng.random() < 0.5:
            lines.append(other(rng, kinds))
    return b"\n".join(lines) + b"\n"


def ran(words, text, images):
    """What a program answers and writes, and what it leaves in its folder, where these images stood before; or that it does not end."""
    with tempfile.TemporaryDirectory() as folder:
        for name, image in images.items():
            pathlib.Path(folder, name).write_bytes(image)
        try:
            done = subprocess.run(words, input=text, capture_output=True, check=False, cwd=folder, timeout=LONGEST)
        except subprocess.TimeoutExpired:
            return HANGS, b"", [], {}
        images = {path.name: path.read_bytes() for path in pathlib.Path(folder).iterdir()}
    return done.returncode, done.stdout, done.stderr.splitlines()[:1], images


def trips(words, texts):
    """What each of the scripts leads to. Each goes on from the image that the one before saved."""
    done = [ran(words, texts[0], {})]
    for text in texts[1:]:
        done.append(ran(words + ["--from", TRIP], text, done[-1][3]))
    return done


def as_tuples(page):
    """A page as its header, its last eight bytes, and its tuples in the order of their offsets."""
    items = min(struct.unpack_from("<H", page, 12)[0], (PAGE - 24) // 4)
    pointers = [struct.unpack_from("<HH", page, 24 + 4 * item) for item in range(items)]
    return page[:24], page[8184:], [page[begin : begin + size] for begin, size in pointers]


def settled(image):
    """An image as its pages: the meta page as it is, and each other page as its tuples."""
    pages = [image[at : at + PAGE] for at in range(0, len(image), PAGE)]
    return [page if at == 0 or len(page) < PAGE else as_tuples(page) for at, page in enumerate(pages)]


def all_settled(images):
    return {name: settled(image) for name, image in images.items()}


def is_same(ours, other):
    """Whether two runs end and are the same, but for where the tuples stand on the pages of images."""
    return HANGS not in (ours[0], other[0]) and ours[:3] == other[:3] and all_settled(ours[3]) == all_settled(other[3])


def apart_in_place(ours, other):
    """How many images of the same tuples have other bytes."""
    return sum(name in ours and ours[name] != image for name, image in other.items())


def show(name, text, ours, other):
    print(f"{name} differs: {ours[0]} and {other[0]}, {ours[2]} and {other[2]}")
    for number, (a, b) in enumerate(zip(ours[1].splitlines(), other[1].splitlines()), 1):
        if a != b:
            print(f"  line {number}: {a[:200]!r} and {b[:200]!r}")
            break
    for image in sorted(ours[3].keys() | other[3].keys()):
        a, b = (all_settled(images).get(image) for images in (ours[3], other[3]))
        if a != b:
            at = next((i for i, (x, y) in enumerate(zip(a or [], b or [])) if x != y), None)
            print(f"  image {image}: {a and len(a)} and {b and len(b)} pages, first apart at page {at}")
    pathlib.Path(f"{name}.differs").write_bytes(text)


def scripts(rng, options):
    """So many scripts of one class as there are trips."""
    kinds, name = kinds_of(options), rng.choice(options.classes.split(","))
    texts = [(large if rng.random() < options.large else small)(rng, [name], kinds) for _ in range(options.trips)]
    if options.trips == 1:
        return texts
    return [text.rstrip(b"\n") + b"\nsave %s\n" % TRIP.encode() for text in texts]


def kinds_of(options):
    """The lines that stand between inserts, deletes and finds, and searches for the nearest rows."""
    kinds = [
        (options.vacuum, b"vacuum"),
        (options.save, b"save"),
        (options.stat, b"stat"),
        (options.blank, b"blank"),
        (options.near, b"near"),
    ]
    return [kind for wanted, kind in kinds if wanted]


def compare(options):
    program, model = shlex.split(options.program), shlex.split(options.model)

    def one(number):
        texts = scripts(random.Random(f"{options.seed} {number}"), options)
        pairs = list(zip(texts, trips(program, texts), trips(model, texts)))
        apart = [trip for trip, (_, ours, other) in enumerate(pairs) if not is_same(ours, other)]
        for trip in apart[:1]:
            show(f"{number:05}-{trip}", *pairs[trip])
        placed = sum(apart_in_place(ours[3], other[3]) for _, ours, other in pairs if not apart)
        lines = sum(text.count(b"\n") for text in texts)
        return lines, sum(other[0] != 0 for _, _, other in pairs), sum(len(other[3]) for _, _, other in pairs), placed, bool(apart)

    with ThreadPoolExecutor(options.jobs) as pool:
        lines, refused, images, placed, bad = map(sum, zip(*pool.map(one, range(options.count))))
    print(f"{options.count * options.trips} scripts, {lines} lines, {refused} refused by the model, {bad} differ")
    print(f"{images} images, {placed} of them with other free bytes, or tuples at other places")
    return bad


def main():
    parser = argparse.ArgumentParser(description=__doc__, formatter_class=argparse.RawDescriptionHelpFormatter)
    parser.add_argument("--program", required=True)
    parser.add_argument("--model", required=True)
    parser.add_argument("--count", type=int, default=300)
    parser.add_argument("--seed", default="1")
    parser.add_argument("--large", type=float, default=0.3, help="the part of scripts with many inserts")
    parser.add_argument("--classes", default="quad,kd,radix")
    parser.add_argument("--trips", type=int, default=1, help="how many scripts go on from each other")
    for kind in ("vacuum", "save", "stat", "blank", "near"):
        parser.add_argument(f"--{kind}", action=argparse.BooleanOptionalAction, default=True)
    parser.add_argument("--jobs", type=int, default=os.cpu_count())
    return 1 if compare(parser.parse_args()) else 0


if __name__ == "__main__":
    sys.exit(main())
