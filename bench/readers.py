#!/usr/bin/env python3
"""Times `find_some` by 1, 2 and 4 threads that search one index at once, outside the gate.

The program is that of spg_example_readers: 40,000 points in a square, each question a box of up to 100 of them, of which it
takes 50. As many questions about boxes far off, which find nothing, are taken away: the building of the index, the reading of
the lines and most of their printing are in both. Seconds are of the clock and of all processors together, the least of so
many runs of each kind; the load of the machine stands above, since other work takes from the clock.
"""

import argparse
import os
import random
import subprocess
import time

import timing

SIDE = 200
BOX = 9
ROWS = 50
THREADS = (1, 2, 4)


def questions(count, off, rng):
    """Boxes of the square, moved so far to the right."""
    for _ in range(count):
        x, y = rng.randrange(SIDE - BOX) + off, rng.randrange(1, SIDE - BOX)
        yield b"%d %d %d %d" % (x, y, x + BOX, y + BOX)


def run(options, threads, lines, rows):
    """The least seconds of the clock and of processors of so many runs, each of which finds so many rows a question."""
    text = b"\n".join([b"%d" % threads, *lines]) + b"\n"
    best = (float("inf"), float("inf"))
    for _ in range(options.repeats):
        used, start = timing.processor_seconds(), time.monotonic()
        done = subprocess.run([options.program], input=text, stdout=subprocess.PIPE, check=True)
        taken = time.monotonic() - start
        best = (min(best[0], taken), min(best[1], timing.processor_seconds() - used))
        assert done.stdout.count(b": %d houses\n" % rows) == len(lines), "another number of rows"
    return best


def main():
    parser = argparse.ArgumentParser(description=__doc__)
    parser.add_argument("--program", default="crates/spg_example_readers/out/spg_example_readers")
    parser.add_argument("--questions", type=int, default=60_000)
    parser.add_argument("--repeats", type=int, default=5)
    parser.add_argument("--seed", type=int, default=7)
    options = parser.parse_args()
    print(f"{os.cpu_count()} processors, load {os.getloadavg()[0]:.1f}")
    print(f"{'threads':>7} {'finds a second':>14} {'us of the clock':>15} {'us of processors':>16} {'times one':>9}")
    alone = None
    for threads in THREADS:
        rng = random.Random(options.seed)
        here = list(questions(options.questions, 0, rng))
        far = list(questions(options.questions, 10 * SIDE, rng))
        found, missed = run(options, threads, here, ROWS), run(options, threads, far, 0)
        clock, worked = (max(one - other, 1e-9) / options.questions * 1e6 for one, other in zip(found, missed))
        alone = alone or clock
        print(f"{threads:>7} {1e6 / clock:>14.0f} {clock:>15.2f} {worked:>16.2f} {alone / clock:>9.2f}", flush=True)


if __name__ == "__main__":
    main()
