#!/usr/bin/env python3
"""Times lanes beside the same commands without lanes, outside the gate.

Five tables, each by seconds of the clock and of the processor for a command, where the reading of the script and the
printing of the text are in both: inserts in 1, 2, 4 and 16 lanes; finds of one key alone; nine of them to an insert; four lanes of
inserts with and without a lane of vacuums beside them, over an index of which a third of the rows are deleted; and the
script of `gen COUNT 7` in 1, 2 and 4 lanes, beside the same commands without lanes. Each time is the least of several runs,
less that of the script before the block.
"""

import argparse
import random
import resource
import subprocess
import time

import timing
import vacuum

LANES = [1, 2, 4, 16]


def run(program, lines, repeats):
    """The least seconds of the clock and of the processor of so many runs, and what was printed last."""
    script = b"\n".join(lines) + b"\n"
    best = (float("inf"), float("inf"))
    for _ in range(repeats):
        used = timing.processor_seconds()
        start = time.perf_counter()
        done = subprocess.run([program, "run"], input=script, stdout=subprocess.PIPE, check=True)
        clock = time.perf_counter() - start
        best = (min(best[0], clock), min(best[1], timing.processor_seconds() - used))
    return best, done.stdout


def block(lanes):
    """A block of these lanes."""
    lines = [b"together"]
    for lane in lanes:
        lines += [b"lane"] + lane
    return lines + [b"end"]


def shared_out(commands, count):
    """The commands dealt to so many lanes in turn."""
    return [commands[number::count] for number in range(count)]


def told(name, times, before, commands):
    clock, processor = (max(now - then, 0) / commands * 1e6 for now, then in zip(times, before))
    print(f"{name:<34} {clock:>10.2f} {processor:>14.2f}", flush=True)


def compare(options, name, head, commands):
    """The commands outside lanes, and in lanes, behind the same head."""
    before, _ = run(options.program, head, options.repeats)
    alone, _ = run(options.program, head + commands, options.repeats)
    told(f"{name}, no lanes", alone, before, len(commands))
    for count in LANES:
        times, _ = run(options.program, head + block(shared_out(commands, count)), options.repeats)
        told(f"{name}, {count} lanes", times, before, len(commands))


def beside_a_vacuum(options, index_class, values):
    """Four lanes of inserts, alone and with a lane of vacuums beside them."""
    half = len(values) // 2
    head = timing.inserts(index_class, values[:half])
    head += [b"delete " + vacuum.row(number) for number in range(0, half, 3)]
    added = timing.inserts(index_class, values)[1 + half :]
    before, _ = run(options.program, head, options.repeats)
    lanes = shared_out(added, 4)
    alone, _ = run(options.program, head + block(lanes), options.repeats)
    told(f"{index_class}: inserts in 4 lanes", alone, before, len(added))
    beside, text = run(options.program, head + block(lanes + [[b"vacuum"] * 3]), options.repeats)
    told(f"{index_class}: and a lane of 3 vacuums", beside, before, len(added))
    assert text.count(b" vacuumed ") == 3, "a vacuum did not come to its end"


def load_key(index_class, number):
    """The key of an insert of a generated load, whose seed is 7."""
    x, y = (37 * number + 7) % 1000, (91 * number + 7) % 1000
    if index_class == "radix":
        return b'"street %03d house %03d"' % (x, y)
    return b"%d,%d" % (x, y)


def load(index_class, count, lanes):
    """The commands of the lanes of a generated load."""
    dealt = [[] for _ in range(lanes)]
    for number in range(count):
        row = b"%d.%d" % (number // 100, number % 100 + 1)
        dealt[number % lanes].append(b"insert " + row + b" " + load_key(index_class, number))
        if number % 3 == 2:
            dealt[number % lanes].append(b"delete " + row)
    return dealt + [[b"vacuum", b"find all"] * 2]


def loads(options, index_class):
    """A generated load in lanes, and its commands in their order without lanes."""
    head = [b"class " + index_class.encode()]
    before, _ = run(options.program, head, options.repeats)
    for lanes in [0, 1, 2, 4]:
        dealt = load(index_class, options.count, max(lanes, 1))
        body = block(dealt) if lanes else dealt[0] + dealt[1]
        times, _ = run(options.program, head + body, options.repeats)
        told(f"{index_class}: load, {lanes or 'no'} lanes", times, before, sum(map(len, dealt)))


def main():
    parser = argparse.ArgumentParser(description=__doc__)
    parser.add_argument("--program", default="crates/spg_main/out/spg_main")
    parser.add_argument("--count", type=int, default=48_000)
    parser.add_argument("--classes", default="quad,kd,radix")
    parser.add_argument("--repeats", type=int, default=3)
    parser.add_argument("--seed", type=int, default=7)
    options = parser.parse_args()
    print(f"{'us for a command':<34} {'clock':>10} {'processor':>14}")
    for index_class in options.classes.split(","):
        values = vacuum.keys(index_class, options.count, random.Random(options.seed))
        lines = timing.inserts(index_class, values)
        compare(options, f"{index_class}: inserts", lines[:1], lines[1:])
        half = len(values) // 2
        rng = random.Random(options.seed)
        finds = [b"find where eq " + key for key in rng.choices(values[:half], k=half)]
        compare(options, f"{index_class}: finds", lines[: 1 + half], finds)
        mixed = []
        for line in lines[1 + half : 1 + half + half // 10]:
            mixed += [line] + [b"find where eq " + key for key in rng.choices(values[:half], k=9)]
        compare(options, f"{index_class}: 9 finds to an insert", lines[: 1 + half], mixed)
        beside_a_vacuum(options, index_class, values)
        loads(options, index_class)


if __name__ == "__main__":
    main()
