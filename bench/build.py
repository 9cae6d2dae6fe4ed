#!/usr/bin/env python3
"""Times `build` on points and addresses, by 1, 2 and 4 workers, beside inserts one by one, outside the gate.

Seconds are of the clock and of the processor, the least of so many runs. What a run takes to read its script is measured on the
same script with a bad last line, which is read and not built, and is taken away; saving is left in. Inserts one by one are
timed with the text of the run, which they print, and with a `save` behind them.
"""

import argparse
import random
import resource
import subprocess
import tempfile
import time

from points import points
from texts import quoted, text


def seconds(words, script, repeats, status=0):
    """The least seconds of the clock and of the processor, and what was printed."""
    clock = processor = None
    with tempfile.TemporaryDirectory() as folder:
        for _ in range(repeats):
            used, begun = resource.getrusage(resource.RUSAGE_CHILDREN), time.perf_counter()
            done = subprocess.run(words, input=script, stdout=subprocess.PIPE, stderr=subprocess.DEVNULL, cwd=folder, check=False)
            took, spent = time.perf_counter() - begun, resource.getrusage(resource.RUSAGE_CHILDREN)
            assert done.returncode == status, done.returncode
            own = spent.ru_utime + spent.ru_stime - used.ru_utime - used.ru_stime
            clock, processor = min(clock or took, took), min(processor or own, own)
    return clock, processor, done.stdout


def pages_of(text):
    """The pages that `build` or the last `save` tells."""
    if text.startswith(b"built "):
        return int(text.split()[-1])
    return int(next(line.split()[-1] for line in text.split(b"\n") if b" saved " in line))


def measure(options, name, index_class, keys):
    lines = [b"class " + index_class.encode()]
    lines += [b"insert %d.%d %s" % (1 + i // 60000, 1 + i % 60000, key) for i, key in enumerate(keys)]
    script = b"\n".join(lines) + b"\n"
    read = seconds([options.program, "build", "a"], script + b"end\n", options.repeats, 3)
    for workers in options.workers.split(","):
        clock, own, text = seconds([options.program, "build", "a", "--workers", workers], script, options.repeats)
        show(name, len(keys), f"{workers} workers", clock - read[0], own - read[1], pages_of(text))
    clock, own, text = seconds([options.program, "run", "--limit", "131072"], script + b"save a\n", options.repeats)
    show(name, len(keys), "one by one", clock - read[0], own - read[1], pages_of(text))


def show(name, count, how, clock, own, pages):
    print(f"{name:<10} {count:>8} {how:<11} {clock:8.3f} s {own:8.3f} s of processors {count / clock:>11.0f} a second {pages:>7} pages", flush=True)


def main():
    parser = argparse.ArgumentParser(description=__doc__, formatter_class=argparse.RawDescriptionHelpFormatter)
    parser.add_argument("--program", default="crates/spg_main/out/spg_main")
    parser.add_argument("--counts", default="200000")
    parser.add_argument("--workers", default="1,2,4")
    parser.add_argument("--repeats", type=int, default=3)
    parser.add_argument("--seed", type=int, default=1)
    options = parser.parse_args()
    for count in map(int, options.counts.split(",")):
        rng = random.Random(options.seed)
        measure(options, "points", "quad", [b"%d,%d" % point for point in points("uniform", count, rng)])
        measure(options, "addresses", "radix", [quoted(text("streets", rng)) for _ in range(count)])


if __name__ == "__main__":
    main()
