#!/usr/bin/env python3
"""Times the program on scripts of texts, outside the gate, as points.py does on points.

Streets with house numbers, paths of files, and random hexadecimal; equality, beginnings of three selectivities, and the
texts less than one or at least it.
"""

import timing

NAMES = ["birch", "canal", "castle", "cedar", "chapel", "dock", "elm", "ferry", "garden", "hill", "king", "lake", "mill",
         "north", "oak", "park", "queen", "river", "station", "tower", "union", "vine", "water", "york"]
KINDS = ["street", "road", "lane", "square", "alley"]
FOLDERS = ["bin", "cache", "data", "doc", "etc", "home", "include", "lib", "local", "log", "opt", "share", "src", "var"]


def text(shape, rng):
    if shape == "streets":
        return f"{rng.choice(NAMES)} {rng.choice(KINDS)} {rng.randint(1, 9999)}"
    if shape == "paths":
        folders = "/".join(rng.choice(FOLDERS) for _ in range(rng.randint(2, 6)))
        return f"/{folders}/{rng.choice(NAMES)}{rng.randint(0, 99)}.txt"
    return f"{rng.getrandbits(64):016x}"


def quoted(part):
    return b'"' + part.encode() + b'"'


def measure(options, shape, count, rng):
    values = [text(shape, rng) for _ in range(count)]
    chosen = rng.choices(values, k=count // 4)
    ordered = sorted(values)
    finds = {"equality": [b"find where eq " + quoted(value) for value in chosen]}
    for name, part, many in [("starts, all", 1.0, count), ("starts, most", 0.8, 1000), ("starts, half", 0.5, 500)]:
        fronts = [value[: max(1, int(len(value) * part))] for value in chosen[:many]]
        finds[name] = [b"find where starts " + quoted(front) for front in fronts]
    finds["lt"] = [b"find where lt " + quoted(ordered[len(ordered) // 100])] * 20
    finds["ge"] = [b"find where ge " + quoted(ordered[-len(ordered) // 100])] * 20
    return timing.measure(options, "radix", [quoted(value) for value in values], finds)


if __name__ == "__main__":
    timing.table(timing.arguments(__doc__, ["streets", "paths", "hex"]), measure)
