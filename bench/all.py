#!/usr/bin/env python3
"""Prints the tables of docs/SPEED.md: what the program costs on each workload of workloads.py, outside the gate.

    all.py [--program PATH] [--beside PATH] [--memory] [--seconds RUNS] [--only WORDS]

Instructions are counted by callgrind, in millions, reading and printing included; they hardly hang on the machine. `--beside`
counts another program too, before it. `--memory` tells the greatest memory of a run, and `--seconds` the least processor time
of so many runs, both by turns where there are two programs. `--only` takes the workloads whose names have these words.
"""

import argparse
import re
import subprocess

import timing
import workloads

COLLECTED = re.compile(rb"Collected : (\d+)")


def instructions(program, script):
    """Millions of instructions that a run takes."""
    command = ["valgrind", "--tool=callgrind", "--callgrind-out-file=/dev/null", program, "run"]
    done = subprocess.run(command, input=script, stdout=subprocess.DEVNULL, stderr=subprocess.PIPE, check=True)
    return int(COLLECTED.search(done.stderr)[1]) / 1e6


def memory(program, script):
    """The greatest memory of a run, in MiB. A child of this process would be told with the memory that this one has."""
    command = ["/usr/bin/time", "--format=%M", program, "run"]
    done = subprocess.run(command, input=script, stdout=subprocess.DEVNULL, stderr=subprocess.PIPE, check=True)
    return int(done.stderr.split()[-1]) / 1024


def seconds(program, script):
    """Seconds of a processor that a run takes."""
    before = timing.processor_seconds()
    subprocess.run([program, "run"], input=script, stdout=subprocess.DEVNULL, check=True)
    return timing.processor_seconds() - before


def least(programs, script, runs):
    """The least seconds of each program, run by turns."""
    taken = [[seconds(program, script) for program in programs] for _ in range(runs)]
    return [min(column) for column in zip(*taken)]


def costs(options, programs, script):
    """The columns of a workload."""
    yield from (f"{instructions(program, script):,.0f}" for program in programs)
    if options.memory:
        yield from (f"{memory(program, script):.0f}" for program in programs)
    if options.seconds:
        yield from (f"{value * 1e3:.0f}" for value in least(programs, script, options.seconds))


def heads(options, programs):
    """What the columns are called."""
    kinds = ["M instructions"] + ["MiB"] * options.memory + ["ms"] * bool(options.seconds)
    for kind in kinds:
        yield from ([f"{kind}, before", kind] if len(programs) == 2 else [kind])


def line(cells):
    print("| " + " | ".join(cells) + " |", flush=True)


def main():
    parser = argparse.ArgumentParser(description=__doc__, formatter_class=argparse.RawDescriptionHelpFormatter)
    parser.add_argument("--program", default="crates/spg_main/out/spg_main")
    parser.add_argument("--beside")
    parser.add_argument("--memory", action="store_true")
    parser.add_argument("--seconds", type=int, default=0)
    parser.add_argument("--only", default="")
    options = parser.parse_args()
    programs = [options.beside, options.program] if options.beside else [options.program]
    line(["", *heads(options, programs), "Aim"])
    line(["---"] * (len(list(heads(options, programs))) + 2))
    for name, index_class, keys, count, work, aim in workloads.WORKLOADS:
        if options.only in name:
            script = workloads.script(index_class, keys, count, work)
            line([name, *costs(options, programs, script), str(aim or "")])


if __name__ == "__main__":
    main()
