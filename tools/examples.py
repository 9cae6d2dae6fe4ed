#!/usr/bin/env python3
"""Writes the two large examples, and compares a program with the expected texts.

    examples.py                          writes examples/town.spg and examples/streets.spg
    examples.py --check 'PROGRAM run'    runs every examples/NAME.spg that has a NAME.spg.stdout, and compares

A script that begins with '# Goes on from the image IMAGE of OTHER.spg' is run with `--from IMAGE` in a folder in which
OTHER.spg was run before. The scripts are the same on every machine: all that looks random comes from `Draws`.
"""

import argparse
import os
import pathlib
import re
import shlex
import shutil
import subprocess
import sys
import tempfile

FOLDER = pathlib.Path(__file__).resolve().parent.parent / "examples"


class Draws:
    """A linear congruential generator: the same numbers with every version of Python."""

    def __init__(self, seed):
        self.state = seed

    def below(self, n):
        self.state = (self.state * 6364136223846793005 + 1442695040888963407) % 2**64
        return (self.state >> 33) % n

    def between(self, low, high):
        return low + self.below(high - low + 1)

    def shuffle(self, items):
        for i in range(len(items) - 1, 0, -1):
            j = self.below(i + 1)
            items[i], items[j] = items[j], items[i]


def row(i):
    """The i-th record of a table with 50 records on a block."""
    return f"{i // 50}.{i % 50 + 1}"


def inserts(keys):
    return [f"insert {row(i)} {key}" for i, key in enumerate(keys)]


# ---- a town: houses in metres east and north of its market

SUBURBS = [(1150, 300), (750, 1000), (-450, 1200), (-1250, -200), (-600, -1100), (650, -1050)]


def houses(draws):
    found = []
    for street in range(-6, 7):
        for step in range(-12, 13):
            along = 35 * step + draws.between(-9, 9)
            side = 8 if draws.below(2) else -8
            found.append((along, 60 * street + side))
            found.append((60 * street + side, along))
    for x, y in SUBURBS:
        for _ in range(190):
            # The sum of three draws is denser in the middle.
            far = [sum(draws.between(-110, 110) for _ in range(3)) for _ in range(2)]
            found.append((x + far[0], y + far[1]))
    while len(found) < 2000:
        x, y = draws.between(-4000, 4000), draws.between(-4000, 4000)
        if abs(x) > 1700 or abs(y) > 1700:
            found.append((x, y))
    return found


def town():
    draws = Draws(1)
    places = houses(draws)
    draws.shuffle(places)
    lines = ["class quad"] + inserts([f"{x},{y}" for x, y in places])
    x, y = places[777]
    return lines + [
        "find where in -40,-40,40,40",
        "find where in 700,950,800,1050",
        "find where left -3000",
        "find where right 1000 and above 1000 and below 2500",
        f"find where eq {x},{y}",
        f"delete {row(777)}",
        f"delete {row(777)}",
        f"find where eq {x},{y}",
        f"insert {row(777)} 0,0",
        "find all",
    ]


# ---- an address book: streets with their house numbers

NAMES = (
    "Abbey Acorn Alder Apple Ash Baker Barley Beech Birch Bishop Bridge Brook Canal Castle Cedar Chapel Cherry "
    "Church Clover College Cooper Fern Fisher Forge Garden Glover Green Grove Harbour Hazel Heron High Hill Holly "
    "Ivy Kiln King's Lake Lark Laurel Lime Long Maple Market Meadow Mill Miller's Millpond Mint Moor Nettle New North "
    "Oak Old Orchard Park Pear Pine Poplar Priory Quarry Queen's Ridge River Rose Rowan Rye Saddler Saint Salt School "
    "Short Smith South Spring Station Swan Tanner Temple Thistle Tower Union Vale Vicarage Vine Walnut Water Weaver "
    "Well West Willow Windmill Wood Yew"
).split()
KINDS = ["Street", "Lane", "Road", "Square"]


def addresses(draws):
    found = []
    for number, name in enumerate(NAMES):
        for kind in (KINDS[number % 4], KINDS[(number + 1 + number // 4 % 3) % 4]):
            found += [f"{name} {kind} {house}" for house in range(1, 9 + draws.below(9))]
    draws.shuffle(found)
    return found[:1990] + [f"Café Square {house}" for house in range(1, 6)]


def quoted(text):
    return f'"{text}"'


def streets():
    draws = Draws(2)
    texts = addresses(draws)
    draws.shuffle(texts)
    keys = [quoted(text) for text in texts] + ["null"] * (2000 - len(texts))
    lines = ["class radix"] + inserts(keys)
    mill = next(text for text in texts if text.startswith("Mill "))
    street = mill.rsplit(" ", 1)[0]
    return lines + [
        f'find where starts "{street} "',
        'find where starts "Mill"',
        'find where ge "Oak" and lt "Old"',
        f'find where eq "{texts[777]}"',
        'find where starts "Caf\\xc3\\xa9 "',
        "find null",
        f"delete {row(texts.index(mill))}",
        f'find where starts "{street} "',
        'find where lt "B"',
    ]


def write(name, lines):
    (FOLDER / name).write_text("\n".join(lines) + "\n", encoding="utf-8")


def ran(script, words, folder):
    """What the program prints, in this folder."""
    before = re.match(rb"# Goes on from the image (\S+) of (\S+\.spg)", script.read_bytes())
    if before:
        image, other = before[1].decode(), before[2].decode()
        ran(FOLDER / other, words, folder)
        words = words + ["--from", image]
    with script.open("rb") as source:
        return subprocess.run(words, stdin=source, stdout=subprocess.PIPE, check=False, cwd=folder).stdout


def differs(script, words):
    """Whether the program prints another text than the one beside the script."""
    wanted = pathlib.Path(f"{script}.stdout").read_bytes()
    with tempfile.TemporaryDirectory() as folder:
        printed = ran(script, words, folder)
    print(f"{script.name}: {'as expected' if printed == wanted else 'DIFFERS'}")
    return printed != wanted


def main():
    parser = argparse.ArgumentParser(description=__doc__, formatter_class=argparse.RawDescriptionHelpFormatter)
    parser.add_argument("--check", metavar="COMMAND")
    given = parser.parse_args()
    if given.check is None:
        write("town.spg", town())
        write("streets.spg", streets())
        return 0
    words = shlex.split(given.check)
    words[0] = os.path.abspath(shutil.which(words[0]) or words[0])
    scripts = [script for script in sorted(FOLDER.glob("*.spg")) if pathlib.Path(f"{script}.stdout").exists()]
    return int(any([differs(script, words) for script in scripts]))


if __name__ == "__main__":
    sys.exit(main())
