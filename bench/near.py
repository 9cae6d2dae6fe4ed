#!/usr/bin/env python3
"""Times `near` on scripts of points, outside the gate, beside `find where in` of about as many rows.

As points.py: a script of inserts alone, and the same script with searches of one kind behind it; the time of a search is the
difference of the two runs, with the reading of its line and the printing of its rows in it. Searches go out from points of the
index, each moved a little. `met` is how many tuples a search met, by its own count.
"""

import random

import points
import timing


def targets(values, count, rng):
    return [(x + rng.randint(-500, 500), y + rng.randint(-500, 500)) for x, y in rng.choices(values, k=count)]


def square(values, rows):
    """Half the side of the square around a point that has about so many others, taken over a few points."""
    sides = []
    for x, y in values[:: max(1, len(values) // 20)]:
        away = sorted(max(abs(x - a), abs(y - b)) for a, b in values)
        sides.append(away[min(rows, len(away) - 1)])
    return sorted(sides)[len(sides) // 2]


def met(text, word):
    counts = [int(line.split()[6]) for line in text.split(b"\n") if word in line]
    return sum(counts) / max(1, len(counts))


def searches(values, many, rng):
    for rows in (10, 100):
        around = targets(values, many, rng)
        half = square(values, rows)
        corners = [(x - half, y - half, x + half, y + half) for x, y in around]
        yield f"near {rows}", b" near ", [b"near %d,%d %d" % (x, y, rows) for x, y in around]
        yield f"in, of {rows}", b" found ", [b"find where in %d,%d,%d,%d" % corner for corner in corners]


def main():
    options = timing.arguments(__doc__, ["uniform", "clustered"])
    program = [options.program, "run"]
    print(f"{'keys':<10} {'count':>7} {'search':<12} {'per second':>11} {'us':>8} {'rows':>7} {'met':>7}")
    for shape in options.shapes.split(","):
        for count in map(int, options.counts.split(",")):
            rng = random.Random(options.seed)
            values = points.points(shape, count, rng)
            script = timing.inserts(options.index_class, [b"%d,%d" % value for value in values])
            alone, _ = timing.run(program, script, options.repeats)
            for name, word, lines in searches(values, count, rng):
                both, text = timing.run(program, script + lines, options.repeats)
                seconds = max(both - alone, 1e-9) / len(lines)
                told = [line.split() for line in text.split(b"\n") if word in line]
                rows = sum(int(words[4]) for words in told) / len(told)
                print(f"{shape:<10} {count:>7} {name:<12} {1 / seconds:11.0f} {seconds * 1e6:8.2f} {rows:7.1f} {met(text, word):7.1f}", flush=True)


if __name__ == "__main__":
    main()
