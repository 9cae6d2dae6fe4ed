#!/usr/bin/env python3
"""Compares the program with another model of it on images, most of them changed.

    mutate.py --program PATH --model PATH [--scripts N] [--copies N] [--seed S] [--large PART] [--classes 'quad,kd value,range']

PATH is a program with the words `run`, `run --from NAME` and `check NAME`, such as crates/spg_main/out/spg_main; the model
is another one, beside which it is held. Random scripts, run by the model, save images. Of each image copies are made: as
it is, cut off, longer, or with changes of any bytes, of the meta page, of headers, item pointers, tags, sizes, links,
stamps, rows and keys. Both are asked to check each copy, and to go on from it by a script that saves again under two names.
They must write the same text, end with the same status and the same line on standard error, and leave images of the same
pages. A copy on which they differ, or on which one does not end within ten minutes, is left as NUMBER.image, the script as
NUMBER-run.differs.
"""

import argparse
import collections
import os
import pathlib
import random
import shlex
import sys
from concurrent.futures import ThreadPoolExecutor

import compare
from compare import ran
from mutations import changed

NAME = "town"


def words_of_run(rng):
    """A line of `run` that goes on from the image."""
    options = [rng.choice([["--from", NAME], [f"--from={NAME}"]])]
    if rng.random() < 0.4:
        limit = str(rng.choice([4, 5, 8, 40, 65536, 131072]))
        options.append(rng.choice([["--limit", limit], [f"--limit={limit}"]]))
    rng.shuffle(options)
    return ["run"] + [word for option in options for word in option]


def script_of(rng, large, name):
    """A script of this class, one with many inserts in this part of cases."""
    kinds = [b"vacuum", b"stat", b"blank"]
    make = compare.large if rng.random() < large else compare.small
    return make(rng, [name], kinds).rstrip(b"\n") + b"\n"


def on_copy(options, rng, label, name, image):
    """Compares both on one copy, and gives what the model says of it."""
    program, model = shlex.split(options.program), shlex.split(options.model)
    other = rng.choice(options.classes.split(",")) if rng.random() < 0.1 else name
    text = script_of(rng, options.large / 10, other) + b"save %s\nsave next\n" % NAME.encode()
    lines = [["check", NAME], words_of_run(rng)]
    before = {} if image is None else {NAME: image}
    answers = [[ran(command + line, text, before) for command in (program, model)] for line in lines]
    apart = [(line, both) for line, both in zip(lines, answers) if not compare.is_same(*both)]
    for line, both in apart:
        compare.show(f"{label}-{line[0]}", text, *both)
        pathlib.Path(f"{label}.image").write_bytes(image or b"")
    check = answers[0][1]
    return (check[2][0].split()[-1].decode() if check[2] else "sound"), bool(apart)


def images_of(options, number):
    """An image that the model saves, with its class."""
    rng = random.Random(f"{options.seed} {number}")
    name = rng.choice(options.classes.split(","))
    saved = ran(shlex.split(options.model) + ["run"], script_of(rng, options.large, name) + b"save %s\n" % NAME.encode(), {})
    return rng, name, saved[3].get(NAME)


def mutate(options):
    def one(number):
        rng, name, image = images_of(options, number)
        if image is None:
            return []
        return [on_copy(options, rng, f"{number:04}-{copy:02}", name, changed(rng, image)) for copy in range(options.copies)]

    with ThreadPoolExecutor(options.jobs) as pool:
        found = [answer for answers in pool.map(one, range(options.scripts)) for answer in answers]
    bad = sum(differs for _, differs in found)
    told = collections.Counter(reason for reason, _ in found)
    print(f"{len(found)} images, {bad} differ")
    print(", ".join(f"{reason} {count}" for reason, count in sorted(told.items())))
    return bad


def main():
    parser = argparse.ArgumentParser(description=__doc__, formatter_class=argparse.RawDescriptionHelpFormatter)
    parser.add_argument("--program", required=True)
    parser.add_argument("--model", required=True)
    parser.add_argument("--scripts", type=int, default=500)
    parser.add_argument("--copies", type=int, default=20)
    parser.add_argument("--seed", default="1")
    parser.add_argument("--large", type=float, default=0.2, help="the part of scripts with many inserts")
    parser.add_argument("--classes", default="quad,kd,radix")
    parser.add_argument("--jobs", type=int, default=os.cpu_count())
    return 1 if mutate(parser.parse_args()) else 0


if __name__ == "__main__":
    sys.exit(main())
