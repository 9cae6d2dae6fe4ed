"""Times the built program on scripts. Shared by points.py and texts.py."""

import argparse
import random
import resource
import subprocess


def processor_seconds():
    used = resource.getrusage(resource.RUSAGE_CHILDREN)
    return used.ru_utime + used.ru_stime


def run(program, lines, repeats):
    """The least processor time of so many runs, and what was printed."""
    script = b"\n".join(lines) + b"\n"
    best = None
    for _ in range(repeats):
        start = processor_seconds()
        done = subprocess.run(program, input=script, stdout=subprocess.PIPE, check=True)
        taken = processor_seconds() - start
        best = taken if best is None else min(best, taken)
    return best, done.stdout


def rows_found(text):
    return sum(int(line.split()[4]) for line in text.split(b"\n") if b" found " in line)


def inserts(index_class, keys):
    lines = [b"class " + index_class.encode()]
    lines += [b"insert %d.%d %s" % (1 + i // 60000, 1 + i % 60000, key) for i, key in enumerate(keys)]
    return lines


def measure(options, index_class, keys, finds):
    """Seconds for an operation of each kind, and how many rows it found."""
    program = [options.program, "run"]
    empty, _ = run(program, [b"class " + index_class.encode()], options.repeats)
    script = inserts(index_class, keys)
    alone, text = run(program, script, options.repeats)
    assert text.count(b" added\n") == len(keys), "not all keys were added"
    times = {"insert": ((alone - empty) / len(keys), None)}
    for name, lines in finds.items():
        both, text = run(program, script + lines, options.repeats)
        times[name] = (max(both - alone, 0) / len(lines), rows_found(text) / len(lines))
    return times


def arguments(about, shapes):
    parser = argparse.ArgumentParser(description=about)
    parser.add_argument("--program", default="crates/spg_main/out/spg_main")
    parser.add_argument("--class", dest="index_class", default="quad", choices=["quad", "kd"], help="of points")
    parser.add_argument("--counts", default="10000,50000,200000")
    parser.add_argument("--shapes", default=",".join(shapes))
    parser.add_argument("--repeats", type=int, default=2)
    parser.add_argument("--seed", type=int, default=1)
    return parser.parse_args()


def table(options, measure_shape):
    """Prints a line for each shape, number of keys and operation."""
    head = f"{'keys':<10} {'count':>7} {'operation':<14} {'per second':>11} {'us':>10}"
    print(f"{head} {'rows':>9} {'us/100 rows':>12} {'growth':>7}")
    for shape in options.shapes.split(","):
        before = {}
        for count in map(int, options.counts.split(",")):
            times = measure_shape(options, shape, count, random.Random(options.seed))
            for name, (seconds, rows) in times.items():
                micros = seconds * 1e6
                rate = f"{1 / seconds:11.0f}" if seconds > 0 else f"{'-':>11}"
                told = f"{rows:9.1f} {micros * 100 / rows:12.1f}" if rows else f"{'':>9} {'':>12}"
                growth = f"{seconds / before[name]:7.2f}" if before.get(name) else f"{'':>7}"
                print(f"{shape:<10} {count:>7} {name:<14} {rate} {micros:>10.2f} {told} {growth}", flush=True)
                before[name] = seconds
