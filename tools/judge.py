#!/usr/bin/env python3
"""Has a judge look at what the program prints of random scripts with lanes.

    judge.py --program 'PATH run' --judge 'PATH judge' [--count N] [--seed S] [--classes 'quad,kd value,range'] [--busy THREADS]

The judge is called with the names of two files, the script and the text printed. It must end with status 0 where the
text is a legal history of the script. A script whose text is refused is left as NAME.refused with its text beside it.
With --busy as many other processes keep the processors busy.
"""

import argparse
import os
import pathlib
import random
import shlex
import subprocess
import sys
import tempfile
from concurrent.futures import ThreadPoolExecutor

import compare


def row_of(rng, most):
    row = rng.randrange(most)
    return b"%d.%d" % (row // 300, row % 300 + 1)


def command(rng, keys, rows, weights):
    kind = rng.choices(["insert", "delete", "find", "vacuum"], weights)[0]
    if kind == "insert":
        return compare.insert(rng, keys, rng.randrange(4000), row_of(rng, rows), 0.1)
    if kind == "delete":
        return b"delete " + row_of(rng, rows)
    return compare.query(rng, keys, []) if kind == "find" else b"vacuum"


def script_of(rng, classes):
    """A few commands, then blocks of lanes with a few commands between them."""
    name, keys = compare.keys_of(rng, classes)
    rows = rng.choice([3, 20, 200, 2000])
    size = rng.choice([1, 5, 20, 100])
    lines = [b"class " + name.encode()]
    lines += [command(rng, keys, rows, [8, 1, 1, 0]) for _ in range(rng.choice([0, 5, 100, 600]))]
    for _ in range(rng.choice([1, 1, 2, 4])):
        lines.append(b"together")
        for _ in range(rng.choice([1, 2, 2, 3, 4, 4, 8, 32])):
            weights = rng.choice([[8, 3, 1, 0.3], [8, 3, 1, 0.3], [1, 0, 0, 0], [0, 1, 2, 1], [4, 4, 0, 1], [0, 0, 1, 1]])
            lines.append(b"lane")
            lines += [command(rng, keys, rows, weights) for _ in range(rng.choice([0, 1, size, size, size]))]
        lines.append(b"end")
        lines += [command(rng, keys, rows, [4, 2, 2, 1]) for _ in range(rng.choice([0, 3, 10]))]
        lines += [b"find all", b"stat"]
    return b"\n".join(lines) + b"\n"


def is_legal(program, judge, script, name):
    with tempfile.TemporaryDirectory() as folder:
        done = subprocess.run(program, input=script, capture_output=True, check=False, cwd=folder)
        files = [os.path.join(folder, it) for it in ("script", "text")]
        for file, held in zip(files, (script, done.stdout)):
            pathlib.Path(file).write_bytes(held)
        told = subprocess.run([*judge, *files], capture_output=True, check=False)
    if done.returncode == 0 and told.returncode == 0:
        return True, done.stdout
    print(f"{name} refused: status {done.returncode}, {told.stdout.decode().strip()[:300]}")
    pathlib.Path(f"{name}.refused").write_bytes(script)
    pathlib.Path(f"{name}.refused.text").write_bytes(done.stdout)
    return False, done.stdout


def judge_all(options):
    program, judge = shlex.split(options.program), shlex.split(options.judge)

    def one(number):
        rng = random.Random(f"{options.seed} {number}")
        script = script_of(rng, options.classes.split(","))
        legal, text = is_legal(program, judge, script, f"{number:05}")
        words = (b" row held by ", b" open by ", b" vacuumed ", b" killed")
        return [not legal, script.count(b"\n"), *(text.count(word) for word in words)]

    with ThreadPoolExecutor(options.jobs) as pool:
        bad, lines, held, opened, vacuumed, killed = map(sum, zip(*pool.map(one, range(options.count))))
    print(f"{options.count} scripts with lanes, {lines} lines, {bad} refused")
    print(f"{held} rows held, {opened} vacuums open, {vacuumed} vacuums, {killed} deletes")
    return bad


def main():
    parser = argparse.ArgumentParser(description=__doc__, formatter_class=argparse.RawDescriptionHelpFormatter)
    parser.add_argument("--program", required=True)
    parser.add_argument("--judge", required=True)
    parser.add_argument("--count", type=int, default=500)
    parser.add_argument("--seed", default="1")
    parser.add_argument("--classes", default="quad,kd,radix")
    parser.add_argument("--busy", type=int, default=0, help="so many other processes that keep the processors busy")
    parser.add_argument("--jobs", type=int, default=os.cpu_count())
    options = parser.parse_args()
    busy = [subprocess.Popen([sys.executable, "-c", "while True: pass"]) for _ in range(options.busy)]
    try:
        return 1 if judge_all(options) else 0
    finally:
        for process in busy:
            process.kill()


if __name__ == "__main__":
    sys.exit(main())
