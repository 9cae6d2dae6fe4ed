#!/usr/bin/env python3
r"""Draws an image that `save` wrote: the tree, and below it the pages with their fill.

    (cat examples/town.spg; printf '\nsave town\n') | ./spgist run > /dev/null
    tools/draw.py town > town.svg

Of points it draws the plane as the main tree cuts it, of texts the tree from its root down, each part as wide as it has
texts: prefixes dark, labels light, and how many texts a chain has.
The bytes are those of docs/FORMAT.md, sections 1, 2, 3 and 8. `spgist check IMAGE` says whether an image is right.
"""

import collections
import pathlib
import struct
import sys
from xml.sax.saxutils import escape

PAGE, ROOM, FAR = 8192, 8160, 2**31
WIDE, HIGH, MARGIN, LEVEL, CELL, BAR = 880, 560, 10, 18, 44, 70
MAIN_ROOT = 1
CLASSES = {1: "quad tree", 2: "k-d tree", 3: "radix tree"}
KINDS = {1: "inner", 2: "leaf", 3: "dead", 4: "redirect", 5: "placeholder"}
COLOURS = {"inner": "#3b6fb6", "leaf": "#8cbf73", "dead": "#555555", "redirect": "#d1495b", "placeholder": "#edae49",
           "free": "#ffffff"}

Page = collections.namedtuple("Page", "is_inner is_nulls tuples")
Tuple = collections.namedtuple("Tuple", "kind size is_same prefix nodes next rest")
Node = collections.namedtuple("Node", "label block offset")


# ---- reading

def read_tuple(data):
    kind, prefix, nodes, following, rest = KINDS[data[0]], b"", [], 0, b""
    if kind == "inner":
        length, count = struct.unpack_from("<HH", data, 4)
        prefix, first = data[8:8 + length], 8 + (length + 7) // 8 * 8
        for at in range(first, first + 8 * count, 8):
            block, offset, label = struct.unpack_from("<IHh", data, at)
            nodes.append(Node(label, block, offset))
    elif kind == "leaf":
        following, length = struct.unpack_from("<H6xH", data, 4)
        rest = data[16:16 + length]
    return Tuple(kind, len(data), data[1] == 1, prefix, nodes, following, rest)


def read_page(data):
    count, = struct.unpack_from("<H", data, 12)
    pointers = [struct.unpack_from("<HH", data, 24 + 4 * i) for i in range(count)]
    return Page(data[6] == 2, data[7] == 1, [read_tuple(data[at:at + size]) for at, size in pointers])


def read_image(data):
    """The class's number, and the pages by block; the meta page has none."""
    if len(data) < 3 * PAGE or len(data) % PAGE or data[:7] != b"SPGX\1\0\1" or data[24] not in CLASSES:
        raise ValueError
    return data[24], [None] + [read_page(data[at:at + PAGE]) for at in range(PAGE, len(data), PAGE)]


class Tree:
    """The main tree. What stands at a place is an inner tuple, or a list of leaf tuples: a chain, or a root's leaves."""

    def __init__(self, pages):
        self.pages, self.met = pages, set()

    def root(self):
        page = self.pages[MAIN_ROOT]
        return page.tuples[0] if page.is_inner else page.tuples

    def child(self, node):
        tuples, offset, chain = self.pages[node.block].tuples if node.block else [], node.offset, []
        while offset:
            if (node.block, offset) in self.met:
                raise ValueError
            self.met.add((node.block, offset))
            tuple_ = tuples[offset - 1]
            if tuple_.kind == "inner":
                return tuple_
            chain += [tuple_] if tuple_.kind == "leaf" else []
            offset = tuple_.next
        return chain


# ---- points: each inner tuple cuts its box (x1, y1, x2, y2)

def point(data):
    return struct.unpack("<ii", data)


def cut(number, level, box, prefix):
    """The lines of a cut, and the box of each node."""
    x1, y1, x2, y2 = box
    if CLASSES[number] == "quad tree":
        x, y = point(prefix)
        return [(x, y1, x, y2), (x1, y, x2, y)], [(x, y, x2, y2), (x, y1, x2, y), (x1, y1, x, y), (x1, y, x, y2)]
    c, = struct.unpack("<i", prefix)
    if level % 2 == 0:
        return [(x1, c, x2, c)], [(x1, y1, x2, c), (x1, c, x2, y2)]
    return [(c, y1, c, y2)], [(x1, y1, c, y2), (c, y1, x2, y2)]


def cut_plane(number, tree):
    """All points, and the lines with their levels."""
    points, lines = [], []
    todo = [(tree.root(), (-FAR, -FAR, FAR, FAR), 0)]
    while todo:
        at, box, level = todo.pop()
        if isinstance(at, list):
            points += [point(leaf.rest) for leaf in at]
            continue
        boxes = [box] * len(at.nodes)
        if not at.is_same:
            found, boxes = cut(number, level, box, at.prefix)
            lines += [(line, level) for line in found]
        todo += [(tree.child(node), part, level + 1) for node, part in zip(at.nodes, boxes)]
    return points, lines


def draw_points(number, tree):
    points, lines = cut_plane(number, tree)
    xs, ys = [x for x, _ in points] or [0], [y for _, y in points] or [0]
    scale = min(WIDE / max(max(xs) - min(xs), 1), HIGH / max(max(ys) - min(ys), 1))
    wide, high = (max(xs) - min(xs)) * scale + 2 * MARGIN, (max(ys) - min(ys)) * scale + 2 * MARGIN

    def place(x, y):
        x, y = (x - min_x) * scale + MARGIN, high - (y - min_y) * scale - MARGIN
        return f"{min(max(x, 0), wide):.0f} {min(max(y, 0), high):.0f}"

    min_x, min_y, drawn = min(xs), min(ys), []
    for level in sorted({level for _, level in lines}):
        path = "".join(f"M{place(x1, y1)}L{place(x2, y2)}" for (x1, y1, x2, y2), at in lines if at == level)
        drawn.append(f'<path d="{path}" stroke="{COLOURS["inner"]}" stroke-width="{max(3 - level * 0.6, 0.5):.1f}"/>')
    path = "".join(f"M{place(x, y)}h0" for x, y in points)
    drawn.append(f'<path d="{path}" stroke="#222" stroke-width="2.5" stroke-linecap="round"/>')
    return drawn, round(high), f"{len(points)} points"


# ---- texts: a box for each prefix, each label and each chain, as wide as the texts below

def spelled(data):
    return "".join(chr(byte) if 32 <= byte < 127 else f"\\x{byte:02x}" for byte in data)


def label_of(node):
    return {-1: "end", -2: "same"}.get(node.label) or spelled([node.label])


def boxes_below(tree, at, level):
    """The texts below, and the boxes as (level, first text, texts, colour, words)."""
    if isinstance(at, list):
        words = '"' + spelled(at[0].rest) + '"' if len(at) == 1 else str(len(at))
        return len(at), [(level, 0, len(at), COLOURS["leaf"], words)] if at else []
    count, boxes = 0, []
    for node in at.nodes:
        texts, below = boxes_below(tree, tree.child(node), level + 2)
        boxes += [(part, count + first, *more) for part, first, *more in below]
        boxes += [(level + 1, count, texts, "#dde7f3", label_of(node))]
        count += texts
    return count, boxes + [(level, 0, count, "#9dbbe0", '"' + spelled(at.prefix) + '"')]


def draw_texts(tree):
    count, boxes = boxes_below(tree, tree.root(), 0)
    drawn = []
    for level, first, texts, colour, words in sorted(boxes):
        x, wide, y = first / max(count, 1) * WIDE + MARGIN, texts / max(count, 1) * WIDE, level * LEVEL + MARGIN
        if not texts:
            continue
        drawn.append(f'<path d="M{x:.1f} {y}h{wide:.1f}v{LEVEL - 2}h-{wide:.1f}z" fill="{colour}" stroke="#fff"/>')
        if len(words) * 6.5 < wide:
            drawn.append(f'<text x="{x + wide / 2:.1f}" y="{y + 12}" text-anchor="middle">{escape(words)}</text>')
    return drawn, (max((box[0] for box in boxes), default=0) + 1) * LEVEL + MARGIN, f"{count} texts"


# ---- pages: each a bar of its bytes, its kind and block below

def fill_of(page):
    fill = collections.Counter()
    for tuple_ in page.tuples:
        fill[tuple_.kind] += tuple_.size + 4
    return fill


def draw_pages(pages, top):
    drawn, across = [], WIDE // CELL
    for block, page in enumerate(pages[1:], 1):
        x, y = MARGIN + (block - 1) % across * CELL, top + (block - 1) // across * (BAR + 46)
        fill, bottom = fill_of(page), y + BAR
        for kind in KINDS.values():
            part = fill[kind] / ROOM * BAR
            bottom -= part
            if part:
                drawn.append(f'<path d="M{x} {bottom:.1f}h{CELL - 10}v{part:.1f}h-{CELL - 10}z" fill="{COLOURS[kind]}"/>')
        drawn.append(f'<path d="M{x} {y}h{CELL - 10}v{BAR}h-{CELL - 10}z" stroke="#222"/>')
        for line, words in enumerate([block, "inner" if page.is_inner else "leaf", "nulls" if page.is_nulls else ""]):
            drawn.append(f'<text x="{x}" y="{y + BAR + 12 + 11 * line}">{words}</text>')
    return drawn, top + ((len(pages) - 2) // across + 1) * (BAR + 46)


def draw_legend(words, y):
    drawn = [f'<text x="{MARGIN}" y="{y}">{escape(words)}</text>']
    for i, (kind, colour) in enumerate(COLOURS.items()):
        x = WIDE - 90 * (len(COLOURS) - i) + 30
        drawn.append(f'<path d="M{x} {y - 9}h10v10h-10z" fill="{colour}" stroke="#222"/><text x="{x + 14}" y="{y}">{kind}</text>')
    return drawn


def draw(data):
    number, pages = read_image(data)
    tree = Tree(pages)
    drawn, bottom, count = draw_texts(tree) if CLASSES[number] == "radix tree" else draw_points(number, tree)
    drawn += draw_legend(f"{CLASSES[number]}, {count}, {len(pages)} pages", bottom + 20)
    more, high = draw_pages(pages, bottom + 32)
    wide = WIDE + 2 * MARGIN
    return "\n".join([f'<svg xmlns="http://www.w3.org/2000/svg" viewBox="0 0 {wide} {high}" fill="none" '
                      'font-family="sans-serif" font-size="11">', f'<path d="M0 0h{wide}v{high}h-{wide}z" fill="#fff"/>',
                      "<style>text{fill:#222}</style>", *drawn, *more, "</svg>"])


if __name__ == "__main__":
    if len(sys.argv) != 2:
        sys.exit(__doc__)
    try:
        print(draw(pathlib.Path(sys.argv[1]).read_bytes()))
    except (OSError, ValueError, LookupError, struct.error):
        sys.exit(f"{sys.argv[1]} is no image that can be drawn; `spgist check` says what is wrong")
