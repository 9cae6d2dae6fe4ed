#!/usr/bin/env python3
"""Times inserts with a standby beside inserts without one, outside the gate.

For each number of uniform points the same script of inserts is run by `run`, with no standby, and by `standby LAG` for
each LAG. Both read the same lines and print the same number of them, so the difference is what the standby costs: the
records of the sections, and applying them. Times are of the processor. `to run` is the time over that of `run`.
"""

import argparse
import random

import points
import timing


def commands(lags):
    return [["run"]] + [["standby", lag] for lag in lags.split(",")]


def main():
    parser = argparse.ArgumentParser(description=__doc__)
    parser.add_argument("--program", default="crates/spg_main/out/spg_main")
    parser.add_argument("--class", dest="index_class", default="quad", choices=["quad", "kd"], help="of points")
    parser.add_argument("--counts", default="20000,200000")
    parser.add_argument("--lags", default="0,10,1000")
    parser.add_argument("--repeats", type=int, default=3)
    parser.add_argument("--seed", type=int, default=1)
    options = parser.parse_args()
    print(f"{'points':>7} {'command':<14} {'inserts a second':>17} {'us':>7} {'to run':>7}")
    for count in map(int, options.counts.split(",")):
        keys = [b"%d,%d" % point for point in points.points("uniform", count, random.Random(options.seed))]
        script = timing.inserts(options.index_class, keys)
        alone = None
        for words in commands(options.lags):
            seconds, text = timing.run([options.program, *words], script, options.repeats)
            assert text.count(b" added\n") == count, "not all keys were added"
            alone = alone or seconds
            rate = f"{count / seconds:17.0f} {seconds / count * 1e6:7.2f} {seconds / alone:7.2f}"
            print(f"{count:>7} {' '.join(words):<14} {rate}", flush=True)


if __name__ == "__main__":
    main()
