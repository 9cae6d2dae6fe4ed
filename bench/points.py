#!/usr/bin/env python3
"""Times the program on scripts of points, outside the gate.

For each shape and number of points it runs the built program on a script of inserts alone, and on the same script with
finds of one kind behind it, so many that they take about as long; the time of a find is the difference of the two runs.
Times are of the processor. An insert's time has the reading of its line and the printing of its record and events in it,
and a find's time the printing of its rows. `growth` is the time of an operation over that at the count before.
"""

import timing

WIDE = 10**6


def points(shape, count, rng):
    if shape == "uniform":
        return [(rng.randint(-WIDE, WIDE), rng.randint(-WIDE, WIDE)) for _ in range(count)]
    if shape == "clustered":
        centres = [(rng.randint(-WIDE, WIDE), rng.randint(-WIDE, WIDE)) for _ in range(20)]
        chosen = [rng.choice(centres) for _ in range(count)]
        return [(x + rng.randint(-1000, 1000), y + rng.randint(-1000, 1000)) for x, y in chosen]
    if shape == "equal":
        return [(7, 7)] * count
    return [(i, i) for i in range(count)]


def boxes(values, part, count, rng):
    """Rectangles around points, with about this part of the points where they are spread evenly."""
    xs = [x for x, _ in values]
    ys = [y for _, y in values]
    half_x = int((max(xs) - min(xs)) * part**0.5 / 2)
    half_y = int((max(ys) - min(ys)) * part**0.5 / 2)
    corners = [(x - half_x, y - half_y, x + half_x, y + half_y) for x, y in rng.choices(values, k=count)]
    return [b"find where in %d,%d,%d,%d" % corner for corner in corners]


def measure(options, shape, count, rng):
    values = points(shape, count, rng)
    many = 20 if shape == "equal" else count // 4
    finds = {"equality": [b"find where eq %d,%d" % value for value in rng.choices(values, k=many)]}
    for name, part in [("box 0.01%", 0.0001), ("box 0.1%", 0.001), ("box 1%", 0.01)]:
        finds[name] = boxes(values, part, min(many, int(1 / part)), rng)
    finds["all"] = [b"find all"] * 3
    return timing.measure(options, options.index_class, [b"%d,%d" % value for value in values], finds)


if __name__ == "__main__":
    timing.table(timing.arguments(__doc__, ["uniform", "clustered", "equal", "sorted"]), measure)
