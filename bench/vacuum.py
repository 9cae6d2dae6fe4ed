#!/usr/bin/env python3
"""Times a vacuum on scripts of points and of texts, outside the gate.

Three questions: how many rows a second a vacuum sweeps where a third of the rows are deleted; what a vacuum costs that
has nothing to sweep, for each page of the index; and whether pages that a vacuum emptied are taken again, told by the
number of pages after each of ten rounds of insert all, delete all, vacuum. Times are of the processor, each the
difference of two runs. A swept row's time has the printing of its event in it. One vacuum with nothing to sweep is over
too soon to be told from what runs differ by, so there are many.
"""

import argparse
import random

import points
import texts
import timing

# How many vacuums with nothing to sweep are timed together.
IDLE = 500


def keys(index_class, count, rng):
    if index_class == "radix":
        return [texts.quoted(texts.text("streets", rng)) for _ in range(count)]
    return [b"%d,%d" % value for value in points.points("uniform", count, rng)]


def row(i):
    return b"%d.%d" % (1 + i // 60000, 1 + i % 60000)


def pages(text):
    """The number of pages that each `stat` line printed."""
    return [int(line.split()[5]) for line in text.split(b"\n") if b" stat pages " in line]


def a_third(options, index_class, values):
    """Seconds for a row swept, and for a page of a vacuum that has nothing to sweep."""
    program = [options.program, "run"]
    script = timing.inserts(index_class, values)
    deletes = [b"delete " + row(i) for i in range(0, len(values), 3)]
    before, _ = timing.run(program, script + deletes + [b"stat"], options.repeats)
    after, text = timing.run(program, script + deletes + [b"vacuum", b"stat"], options.repeats)
    assert text.count(b" added\n") == len(values), "not all keys were added"
    assert b" vacuumed %d\n" % len(deletes) in text, "not all deleted rows were swept"
    idle, text = timing.run(program, script + deletes + [b"vacuum", b"stat"] + [b"vacuum"] * IDLE, options.repeats)
    assert text.count(b" vacuumed 0\n") == IDLE, "a later vacuum swept a row"
    return (after - before) / len(deletes), (idle - after) / IDLE / pages(text)[0]


def rounds(options, index_class, values):
    """The number of pages after each of ten rounds."""
    script = [b"class " + index_class.encode()]
    for _ in range(10):
        script += timing.inserts(index_class, values)[1:]
        script += [b"delete " + row(i) for i in range(len(values))] + [b"vacuum", b"stat"]
    _, text = timing.run([options.program, "run"], script, 1)
    assert text.count(b" vacuumed %d\n" % len(values)) == 10, "a round did not sweep all its rows"
    return pages(text)


def main():
    parser = argparse.ArgumentParser(description=__doc__)
    parser.add_argument("--program", default="crates/spg_main/out/spg_main")
    parser.add_argument("--count", type=int, default=200_000)
    parser.add_argument("--classes", default="quad,kd,radix")
    parser.add_argument("--repeats", type=int, default=2)
    parser.add_argument("--seed", type=int, default=1)
    options = parser.parse_args()
    for index_class in options.classes.split(","):
        values = keys(index_class, options.count, random.Random(options.seed))
        swept, idle = a_third(options, index_class, values)
        print(f"{index_class}: {1 / swept:.0f} rows swept a second, {idle * 1e6:.2f} us a page with nothing to sweep")
        few = values[: options.count // 10]
        print(f"{index_class}: pages after ten rounds of {len(few)} rows: {rounds(options, index_class, few)}", flush=True)


if __name__ == "__main__":
    main()
