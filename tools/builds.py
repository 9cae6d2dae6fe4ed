#!/usr/bin/env python3
"""Compares what `build` makes of random lists of inserts with another model of it.

    builds.py --program PATH --model PATH [--count N] [--seed S] [--classes 'quad,kd value,range'] [--jobs N]

N lists of each class. Both commands build each list in a folder of their own and check what they saved. They must write the same
lines, end with the same status, and save images of the same pages, as compare.py says. The program builds each list twice, with
1 worker and with another number of them: the images must be the same byte for byte. Lists have nulls, equal keys, long texts, rows
that come twice, blank lines and remarks; some have a line that is no insert, and some have no line at all.
"""

import argparse
import os
import random
import shlex
import sys
from concurrent.futures import ThreadPoolExecutor

from compare import broken, insert, is_same, keys_of, ran, show

COUNTS = [0, 1, 20, 291, 292, 293, 400, 900, 2000, 6000]


def listed(rng, name):
    """A class line and inserts, in one of ten cases with another line among them."""
    name, keys = keys_of(rng, [name])
    nulls, again = rng.choice([0, 0, 0.1, 0.5, 1]), rng.choice([0, 0.01, 0.3])
    lines = [b"class " + name.encode()]
    for i in range(rng.choice(COUNTS)):
        row = i if rng.random() >= again else rng.randint(0, i)
        lines.append(insert(rng, keys, i, b"%d.%d" % (row // 300, row % 300 + 1), nulls))
        if rng.random() < 0.01:
            lines.append(rng.choice([b"", b"# a remark", b"#"]))
    if rng.random() < 0.1:
        at = rng.randrange(len(lines))
        lines[at] = rng.choice([broken(rng, lines[at]), b"vacuum", b"delete 0.1", b"together", b"save a", b"find all"])
    return b"" if rng.random() < 0.01 else b"\n".join(lines) + rng.choice([b"", b"\n", b"\n", b"\n"])


def built(words, text, workers):
    """What a command answers of `build`, and of a check of the image that it saved."""
    done = ran([*words, "build", f"--workers={workers}", "a"], text, {})
    checked = ran([*words, "check", "a"], b"", done[3])
    return (done[0], checked[0]), done[1] + checked[1], [done[2], checked[2]], done[3]


def compare(options):
    program, model = shlex.split(options.program), shlex.split(options.model)

    def one(case):
        name, number = case
        rng = random.Random(f"{options.seed} {name} {number}")
        text, workers = listed(rng, name), rng.choice([2, 7, 16])
        one, many, other = built(program, text, 1), built(program, text, workers), built(model, text, workers)
        differs = one != many or not is_same(many, other)
        if differs:
            show(f"{name}{number:04}", text, many, other)
        return text.count(b"insert"), other[0][0] != 0, differs

    cases = [(name, number) for name in options.classes.split(",") for number in range(options.count)]
    with ThreadPoolExecutor(options.jobs) as pool:
        inserts, refused, bad = map(sum, zip(*pool.map(one, cases)))
    print(f"{len(cases)} lists, {inserts} inserts, {refused} refused by the model, {bad} differ")
    return bad


def main():
    parser = argparse.ArgumentParser(description=__doc__, formatter_class=argparse.RawDescriptionHelpFormatter)
    parser.add_argument("--program", required=True)
    parser.add_argument("--model", required=True)
    parser.add_argument("--count", type=int, default=200, help="how many lists of each class")
    parser.add_argument("--seed", default="1")
    parser.add_argument("--classes", default="quad,kd,radix")
    parser.add_argument("--jobs", type=int, default=os.cpu_count())
    return 1 if compare(parser.parse_args()) else 0


if __name__ == "__main__":
    sys.exit(main())
