#!/usr/bin/env python3
"""Refuses the allocations of runs of the program, one after another, and has a judge look at what it prints.

    refuse_memory.py --program PATH --judge 'PATH judge' [--points N] [--run N] [--only WORD] [--jobs N]

PATH is the program, which takes its memory by malloc and realloc of the C library. Each script is run once, and the
allocations are counted; then once for each of them, which is refused, and with --points for at most so many, evenly
spread. With --run N the N - 1 behind it are refused too. Each run must end by itself, with status 0, or 8 for want of
memory. A text that ends before its journal does was cut off as it was written: where no lanes stood in the script it
must be a front of the text that is printed with memory to spare, and it is counted as cut. Any other text is given to
the judge, which is called with the names of the script and of the text, and with `--allow-faults --images FOLDER`; it
must end with status 0. So is a text of status 0. With status 8 such a text has a command that answered `memory`, and
those behind it were done. The words `check` and `build` print one line or nothing. A run that breaks one of these is
left as NAME-NUMBER.refused with its text beside it.
"""

import argparse
import os
import pathlib
import random
import shlex
import subprocess
import sys
import tempfile
from concurrent.futures import ThreadPoolExecutor

HERE = pathlib.Path(__file__).resolve().parent
LONGEST = 600
DONE, NO_MEMORY = 0, 8
KINDS = ["unharmed", "nothing", "cut", "memory"]

TOWN = """class radix
insert 0.1 "12 High Street, Oxford"
insert 0.2 "14 High Street, Oxford"
insert 0.3 "3 Mill Lane, Ely"
insert 0.4 null
find where starts "1"
delete 0.2
find where starts "1"
vacuum
find all
save town
"""


def insert(row, text):
    return 'insert %d.%d "%s"' % (row // 100, row % 100 + 1, text)


def growing():
    """400 texts: a root divides, nodes are added to inner tuples, their prefixes split, chains move and divide."""
    rng = random.Random(33)
    word = lambda size: "".join(rng.choice("abcdefgh") for _ in range(size))
    texts = [f"the long street {word(1)} {word(60)}" for _ in range(150)]
    texts += [f"the long street {chr(ord('i') + i % 9)} {word(50)}" for i in range(60)]
    texts += [f"the long avenue {word(1)} {word(60)}" for _ in range(60)]
    texts += [f"the short lane {word(40)}" for _ in range(40)]
    texts += [f"the long street a {word(3)} {word(90)}" for _ in range(90)]
    lines = [insert(row, text) for row, text in enumerate(texts)]
    return "\n".join(["class radix", *lines, "stat", "find all", 'find where starts "the long street a"', "save grown"]) + "\n"


def lanes():
    """Two lanes beside each other: one inserts and deletes, one vacuums and finds."""
    rng = random.Random(34)
    lines = ["class quad", "together", "lane"]
    for row in range(300):
        lines.append("insert %d.%d %d,%d" % (row // 100, row % 100 + 1, rng.randrange(-500, 500), rng.randrange(-500, 500)))
        if row % 3 == 2:
            lines.append("delete %d.%d" % (row // 100, row % 100 + 1))
    lines += ["lane"] + ["vacuum", "find all", "find where left 0"] * 6 + ["end", "vacuum", "stat", "find all", "save beside"]
    return "\n".join(lines) + "\n"


def every_command():
    """Each kind of command outside lanes, over points."""
    rng = random.Random(35)
    at = lambda: "%d,%d" % (rng.randrange(-90, 90), rng.randrange(-90, 90))
    lines = ["class kd"] + ["insert 0.%d %s" % (row + 1, at()) for row in range(60)] + ["insert 1.1 null", "insert 0.1 0,0"]
    lines += ["delete 0.%d" % row for row in range(1, 60, 7)] + ["delete 9.9", "vacuum", "vacuum", "stat"]
    lines += ["find all", "find null", "find where in -40,-40,40,40 and left 20", "near 0,0 5", "save here", "insert 0.1 5,5", "save here"]
    return "\n".join(lines) + "\n"


def inserts():
    """A list of inserts, for `build`."""
    rng = random.Random(36)
    rows = ["insert %d.%d %d,%d" % (row // 100, row % 100 + 1, rng.randrange(-9999, 9999), rng.randrange(-9999, 9999)) for row in range(1500)]
    return "\n".join(["class quad", *rows]) + "\n"


class Case:
    """A script with the words that run it, and the script that saves the image with which it begins."""

    def __init__(self, name, words, script, before=None):
        self.name, self.words, self.script, self.before = name, words, script, before
        self.judged = words[0] == "run" and "--from" not in words
        self.beside = "together" in script


def cases():
    """Each is judged, but those that begin with an image or are no `run`: these say what they say with memory to spare, or less."""
    example = (HERE.parent / "examples" / "town.spg").read_text()
    return [
        Case("town", ["run"], TOWN),
        Case("growing", ["run"], growing()),
        Case("lanes", ["run"], lanes()),
        Case("commands", ["run"], every_command()),
        Case("example", ["run"], example),
        Case("check", ["check", "here"], "", every_command()),
        Case("build", ["build", "built", "--workers", "2"], inserts()),
    ]


class Runner:
    """Runs the program with allocations refused."""

    def __init__(self, options, library, folder):
        self.program = shlex.split(options.program)
        self.judge = shlex.split(options.judge)
        self.run, self.library, self.folder = options.run, library, pathlib.Path(folder)
        self.known = {}

    def image_of(self, case):
        """What a case begins with: files of a folder."""
        room = self.folder / f"{case.name}-before"
        room.mkdir()
        if case.before is not None:
            subprocess.run(self.program + ["run"], input=case.before.encode(), cwd=room, capture_output=True, check=True, timeout=LONGEST)
        return {it.name: it.read_bytes() for it in room.iterdir()}

    def ran(self, case, files, first):
        """The status, the text and the number of allocations, with the folder that holds what was saved."""
        room = pathlib.Path(tempfile.mkdtemp(dir=self.folder))
        for name, content in files.items():
            (room / name).write_bytes(content)
        told = room.with_suffix(".told")
        env = {**os.environ, "LD_PRELOAD": self.library, "REFUSE_FROM": str(first), "REFUSE_COUNT": str(self.run), "REFUSE_TOLD": str(told)}
        done = subprocess.run(self.program + case.words, input=case.script.encode(), cwd=room, env=env, capture_output=True, check=False, timeout=LONGEST)
        count = int(told.read_text()) if told.exists() else 0
        return done.returncode, done.stdout, count, room

    def is_judged(self, case, text, room):
        """What the judge says of a text and the images beside it; it is asked once of those that are alike."""
        key = case.name, text, *((it.name, it.read_bytes()) for it in sorted(room.iterdir()))
        if key not in self.known:
            self.known[key] = self.judged(case, text, room)
        return self.known[key]

    def judged(self, case, text, room):
        script, said = room.with_suffix(".script"), room.with_suffix(".text")
        script.write_text(case.script)
        said.write_bytes(text)
        words = [*self.judge, str(script), str(said), "--allow-faults", "--images", str(room)]
        done = subprocess.run(words, capture_output=True, check=False, timeout=LONGEST)
        return done.returncode == 0, done.stdout.decode(errors="replace").strip()


def is_whole(text):
    """Whether a text has as many events as it says."""
    lines = text.split(b"\n")
    heads = [at for at, line in enumerate(lines) if line.startswith(b"journal ")]
    return text.endswith(b"\n") and bool(heads) and len(lines) - 2 - heads[-1] == int(lines[heads[-1]].split()[1])


def kind_of(runner, case, plain, status, text, room):
    """What became of a run, and what is wrong with it if anything is."""
    if status not in (DONE, NO_MEMORY):
        return None, f"status {status}"
    if status == NO_MEMORY and not text:
        return "nothing", None
    whole = is_whole(text) if case.words[0] == "run" else text == plain
    if status == DONE and not whole:
        return None, "status 0 and a text that is not whole"
    if not whole:
        return "cut", None if case.beside or plain.startswith(text) else "no front of the text"
    kind = "unharmed" if status == DONE else "memory"
    if (b" memory\n" in text) != (kind == "memory") and case.words[0] == "run":
        return None, f"status {status} and its text disagree on `memory`"
    ok, said = runner.is_judged(case, text, room) if case.judged else (text == plain, "another text")
    return kind, None if ok else said


def refuse(runner, case, points, pool):
    """Runs a case with each of its allocations refused; the numbers of what came of it, and how many went wrong."""
    files = runner.image_of(case)
    status, plain, count, room = runner.ran(case, files, 0)
    if status != DONE or count == 0:
        sys.exit(f"{case.name}: status {status} with memory to spare, {count} allocations counted")
    wanted = range(1, count + 1) if points == 0 or points >= count else sorted({1 + at * (count - 1) // max(points - 1, 1) for at in range(points)})

    def one(first):
        status, text, _, room = runner.ran(case, files, first)
        kind, wrong = kind_of(runner, case, plain, status, text, room)
        if wrong:
            print(f"{case.name}: allocation {first}: {wrong}", flush=True)
            pathlib.Path(f"{case.name}-{first}.refused").write_text(case.script)
            pathlib.Path(f"{case.name}-{first}.text").write_bytes(text)
        for file in [*room.iterdir()]:
            file.unlink()
        return kind, bool(wrong)

    answers = list(pool.map(one, wanted))
    return count, len(wanted), [sum(kind == it for kind, _ in answers) for it in KINDS], sum(wrong for _, wrong in answers)


def library_in(folder):
    """The library that refuses, compiled."""
    library = os.path.join(folder, "refuse_memory.so")
    subprocess.run(["cc", "-O1", "-shared", "-fPIC", "-o", library, str(HERE / "refuse_memory.c")], check=True)
    return library


def main():
    parser = argparse.ArgumentParser(description=__doc__, formatter_class=argparse.RawDescriptionHelpFormatter)
    parser.add_argument("--program", required=True)
    parser.add_argument("--judge", required=True)
    parser.add_argument("--points", type=int, default=0)
    parser.add_argument("--run", type=int, default=1)
    parser.add_argument("--only", default="")
    parser.add_argument("--jobs", type=int, default=2)
    options = parser.parse_args()
    wrong = 0
    with tempfile.TemporaryDirectory() as folder, ThreadPoolExecutor(options.jobs) as pool:
        runner = Runner(options, library_in(folder), folder)
        print(f"{'script':10}{'allocations':>12}{'refused':>9}" + "".join(f"{it:>10}" for it in KINDS) + f"{'wrong':>7}")
        for case in cases():
            if options.only in case.name:
                count, refused, kinds, bad = refuse(runner, case, options.points, pool)
                print(f"{case.name:10}{count:12}{refused:9}" + "".join(f"{it:10}" for it in kinds) + f"{bad:7}", flush=True)
                wrong += bad
    return 1 if wrong else 0


if __name__ == "__main__":
    sys.exit(main())
