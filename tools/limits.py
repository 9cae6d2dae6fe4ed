#!/usr/bin/env python3
"""Runs scripts whose lanes come to a limit, and has a judge look at what the program prints.

    limits.py --program PATH --judge 'PATH judge' [--count N] [--jobs N] [--loads N]
              [--finds N] [--groups N]

In the first script the index is full in a lane: it has few pages, and the lane inserts long texts. In the second the clock
is at its end: the script begins with an image whose clock is set to its last moment, so that a chain that must move finds
it there. Beside that lane others delete, find and vacuum. Each script is run N times. A run must end with status 0; the
lane that inserts must come to the limit and be refused, and go on to its last command; each command of the other lanes must
be done; and the judge must find the text a legal history: it is called with the names of the script and of the text, with
`--limit P` where the words have it, and with `--from-image FILE` where the run begins with an image.

With --loads a generated load of 48,000 texts in the usual lanes is run so often too, one run after another: it must print
the numbers that were counted from its keys. How long each run took is printed.

With --finds a script of N finds in an empty index is run, which makes 2 N events, and its text must be the one that is written
here: so a journal of more events than any other test has is printed to its end. With --groups a script of N groups of two
lanes is run, in each of which one lane inserts a row and the other looks for nulls.
"""

import argparse
import collections
import pathlib
import random
import shlex
import subprocess
import sys
import tempfile
import time
from concurrent.futures import ThreadPoolExecutor

LONGEST = 600
# Where an image has its clock, and the last moment.
CLOCK = slice(32, 40)
LAST = ((1 << 48) - 1).to_bytes(8, "little")
FULL_PAGES = 5
LOAD = ["gen", "48000", "7", "--class", "radix"]
SUMMARY = b"added 48000\nlive 32000\nfirst 3200\nsecond 16000\nswept 16000\n"


def finds(count):
    """A script of so many finds in an empty index, and the text that it prints."""
    results = [f"{at + 1} {2 * at} {2 * at + 2} found 0 walk 0" for at in range(count)]
    events = [line for at in range(count) for line in (f"{2 * at} 0 open scan all", f"{2 * at + 1} 0 close scan 0")]
    return "class quad\n" + "find all\n" * count, "\n".join([*results, f"journal {2 * count}", *events]) + "\n"


def groups(count):
    """A script of so many groups of lanes."""
    lines = [f"together\nlane\ninsert {at}.1 {at},0\nlane\nfind null\nend\n" for at in range(count)]
    return "class quad\n" + "".join(lines) + "find all\n"


def insert(block, offset, text):
    return 'insert %d.%d "%s"' % (block, offset, text)


def others(lines, blocks):
    """Lanes beside: one deletes and finds, one vacuums and finds."""
    lines += ["lane"] + [line for at in range(20) for line in (f"delete {blocks}.{at + 1}", "find all")]
    lines += ["lane"] + ["vacuum", 'find where starts "a"'] * 8 + ["end", "vacuum", "stat", "find all"]
    return "\n".join(lines) + "\n"


def texts(rng, count, size):
    return ["".join(rng.choice("abcd") for _ in range(size)) for _ in range(count)]


def full_script():
    """50 short texts, then a lane that inserts more long ones than five pages hold."""
    rng = random.Random(1)
    lines = ["class radix"] + [insert(0, at + 1, text) for at, text in enumerate(texts(rng, 50, 20))]
    return others(lines + ["together", "lane"] + [insert(1, at + 1, text) for at, text in enumerate(texts(rng, 60, 600))] + ["find all"], 0)


def first_script():
    """What the image of the second script holds: chains on several pages."""
    rng = random.Random(2)
    lines = ["class radix"] + [insert(0, at + 1, text) for at, text in enumerate(texts(rng, 300, 60))]
    return "\n".join(lines + ["save moved"]) + "\n"


def clock_script():
    """A lane that inserts until chains must move."""
    rng = random.Random(3)
    lines = ["class radix", "together", "lane"] + [insert(1, at + 1, text) for at, text in enumerate(texts(rng, 300, 60))]
    return others(lines + ["find all"], 0)


Case = collections.namedtuple("Case", "name words script image refusal")


def outcomes(script, text):
    """Each command's outcome, lane by lane: the lanes' commands are numbered one lane after another."""
    lines = [line.split(b" ", 3) for line in text.split(b"\njournal ")[0].split(b"\n")]
    answers = [line[3] for line in lines if len(line) == 4]
    commands = [line for line in script.encode().split(b"\n")[1:] if line and line not in (b"together", b"end")]
    lanes, at = [[]], 0
    for command in commands:
        if command == b"lane":
            lanes.append([])
            continue
        lanes[-1].append((command, answers[at]))
        at += 1
    return lanes


def what_is_wrong(case, done):
    if done.returncode != 0:
        return f"status {done.returncode}"
    lanes = outcomes(case.script, done.stdout)
    busy, rest = lanes[-3], lanes[-2:]
    if not any(answer == case.refusal for _, answer in busy):
        return f"no {case.refusal.decode()}"
    if not busy[-1][1].startswith(b"found"):
        return "the lane did not go on to its last command"
    ends = {b"delete": (b"killed", b"not live"), b"find": (b"found",), b"vacuum": (b"vacuumed", b"open by"), b"stat": (b"stat",)}
    for command, answer in (pair for lane in rest for pair in lane):
        if not answer.startswith(ends[command.split()[0]]):
            return f"{command.decode()}: {answer.decode()[:40]}"
    return None


class Runner:
    def __init__(self, options, folder):
        self.program, self.judge = shlex.split(options.program), shlex.split(options.judge)
        self.folder = pathlib.Path(folder)

    def room(self, image):
        room = pathlib.Path(tempfile.mkdtemp(dir=self.folder))
        if image:
            (room / "moved").write_bytes(image)
        return room

    def ran(self, words, script, room):
        return subprocess.run(self.program + words, input=script.encode(), cwd=room, capture_output=True, check=False, timeout=LONGEST)

    def late_image(self):
        """An image at the end of its clock."""
        room = self.room(None)
        self.ran(["run"], first_script(), room)
        image = bytearray((room / "moved").read_bytes())
        image[CLOCK] = LAST
        return bytes(image)

    def one(self, case):
        room = self.room(case.image)
        done = self.ran(case.words, case.script, room)
        wrong = what_is_wrong(case, done)
        script, text, image = (room / it for it in ("script", "text", "moved"))
        script.write_text(case.script)
        text.write_bytes(done.stdout)
        words = [*self.judge, str(script), str(text)]
        words += ["--from-image", str(image)] if case.image else ["--limit", str(FULL_PAGES)]
        judged = subprocess.run(words, capture_output=True, check=False, timeout=LONGEST)
        return wrong or (None if judged.returncode == 0 else judged.stdout.decode(errors="replace").strip())

    def load(self):
        """How many seconds the load took, and what is wrong with it."""
        begun = time.monotonic()
        try:
            done = self.ran(LOAD, "", self.room(None))
        except subprocess.TimeoutExpired:
            return LONGEST, "no end"
        wrong = None if (done.returncode, done.stdout) == (0, SUMMARY) else f"status {done.returncode}: {done.stdout.decode()}"
        return time.monotonic() - begun, wrong

    def find(self, count):
        """What is wrong with the text of so many finds."""
        script, text = finds(count)
        done = self.ran(["run"], script, self.room(None))
        return None if (done.returncode, done.stdout) == (0, text.encode()) else f"status {done.returncode}"

    def group(self, count):
        """What is wrong with the text of so many groups of lanes."""
        done = self.ran(["run"], groups(count), self.room(None))
        answers = [line.split(b" ", 3)[3] for line in done.stdout.split(b"\n")[: 2 * count]]
        wanted = [b"added", b"found 0"] * count
        found_all = b" found %d walk " % count in done.stdout.split(b"\n")[2 * count]
        return None if (done.returncode, answers, found_all) == (0, wanted, True) else f"status {done.returncode}"


def main():
    parser = argparse.ArgumentParser(description=__doc__, formatter_class=argparse.RawDescriptionHelpFormatter)
    parser.add_argument("--program", required=True)
    parser.add_argument("--judge", required=True)
    parser.add_argument("--count", type=int, default=20)
    parser.add_argument("--jobs", type=int, default=2)
    parser.add_argument("--loads", type=int, default=0)
    parser.add_argument("--finds", type=int, default=0)
    parser.add_argument("--groups", type=int, default=0)
    options = parser.parse_args()
    wrong = 0
    with tempfile.TemporaryDirectory() as folder, ThreadPoolExecutor(options.jobs) as pool:
        runner = Runner(options, folder)
        cases = [
            Case("full", ["run", "--limit", str(FULL_PAGES)], full_script(), None, b"full"),
            Case("clock", ["run", "--from", "moved"], clock_script(), runner.late_image(), b"clock full"),
        ]
        for case in cases:
            found = [it for it in pool.map(runner.one, [case] * options.count) if it]
            print(f"{case.name}: {options.count} runs, {len(found)} wrong {found[:3] if found else ''}", flush=True)
            wrong += len(found)
        for _ in range(options.loads):
            seconds, is_wrong = runner.load()
            print(f"load: {seconds:.1f} s {is_wrong or ''}", flush=True)
            wrong += bool(is_wrong)
        for what, count, run in (("finds", options.finds, runner.find), ("groups", options.groups, runner.group)):
            if count:
                is_wrong = run(count)
                print(f"{what}: {count}, {is_wrong or 'none wrong'}", flush=True)
                wrong += bool(is_wrong)
    return 1 if wrong else 0


if __name__ == "__main__":
    sys.exit(main())
