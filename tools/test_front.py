#!/usr/bin/env python3
"""Tests what a user meets first: `./spgist`, its first start and the next, its help, and how it ends. The program is built
once, unproved, in a copy of this repository; where it must be built anew, a false `rt` gives a program that was built.

usage: test_front.py"""

import contextlib
import glob
import os
import pathlib
import pty
import re
import shutil
import subprocess
import sys
import tempfile
import time

from limits import finds
from sources import TOP, text_of

EXAMPLES = pathlib.Path(TOP, "examples")
# The most bytes of a script.
LONGEST = 67_108_864
# Beside these and Python `./spgist` needs no command.
COMMANDS = ["cat", "dirname", "env", "find", "readlink", "sh"]
# A false `rt`. Asked to try, it counts, and runs a program that was built before, as `rt try` does: from a folder for
# temporary files, which it takes away.
FALSE_RT = """#!/bin/sh
case $1 in
version) echo '{version}' ;;
try)
    echo try >> {count}
    room=$(mktemp -d)
    cp {program} "$room/program"
    "$room/program" gen 200000 7 > /dev/null &
    trap 'kill $!' TERM
    wait
    rm -r "$room" ;;
esac
"""


def expect(what, found, wanted):
    if found != wanted:
        raise AssertionError(f"{what}: {found!r} where {wanted!r} is wanted")


class Copy:
    """A copy of this repository's files, without what was built, and a folder beside it to stand in."""

    def __init__(self, room):
        self.top, self.here, self.bin = f"{room}/copy", f"{room}/here", f"{room}/bin"
        shutil.copytree(TOP, self.top, ignore=shutil.ignore_patterns("out", ".git", "__pycache__"))
        os.mkdir(self.here)
        os.mkdir(self.bin)
        for command in COMMANDS:
            os.symlink(os.path.realpath(shutil.which(command)), f"{self.bin}/{command}")
        os.symlink(os.path.realpath(sys.executable), f"{self.bin}/python3")
        self.spgist, self.program = f"{self.top}/spgist", f"{self.top}/out/unproved/spg_main"
        self.source = pathlib.Path(self.top, "crates/spg_main/src/main.rt")

    def run(self, *words, script=b"", path=None, **how):
        """Runs ./spgist from the folder beside the copy."""
        env = {**os.environ, "PATH": path or os.environ["PATH"]}
        how = {"stdout": subprocess.PIPE, **how}
        if "stdin" not in how:
            how["input"] = script
        return subprocess.run([self.spgist, *words], cwd=self.here, env=env, stderr=subprocess.PIPE, check=False, **how)

    def false_rt(self, version):
        """A search path on which `rt` says this version, and the file in which it counts what it tried."""
        folder = tempfile.mkdtemp(dir=os.path.dirname(self.top))
        words = {"version": version, "count": f"{folder}/count", "program": self.program}
        file = pathlib.Path(folder, "rt")
        file.write_text(FALSE_RT.format(**words), encoding="utf-8")
        file.chmod(0o755)
        return f"{folder}:{os.environ['PATH']}", words["count"]

    @contextlib.contextmanager
    def changed(self):
        """A source with one more line; at the end its old text, and what was built of it."""
        text, built = self.source.read_bytes(), os.path.dirname(self.program)
        shutil.copytree(built, f"{built}.kept")
        self.source.write_bytes(text + b"// changed\n")
        try:
            yield
        finally:
            self.source.write_bytes(text)
            shutil.rmtree(built)
            os.rename(f"{built}.kept", built)


def is_line_of_needed(said):
    return said.count(b"\n") == 1 and b"rattle-kit-" in said and b"is needed" in said


def test_first_start(copy):
    began = time.monotonic()
    ran = copy.run("run", script=EXAMPLES.joinpath("first.spg").read_bytes())
    print(f"    the first answer came after {time.monotonic() - began:.0f} seconds")
    expect("what was said", ran.stderr.count(b"\n"), 1)
    expect("that it says what it built", b"without its proofs" in ran.stderr, True)
    expect("its text", ran.stdout, EXAMPLES.joinpath("first.spg.stdout").read_bytes())
    expect("its status", ran.returncode, 0)


def test_second_start(copy):
    taken = []
    for _ in range(3):
        began = time.monotonic()
        ran = copy.run("run", script=EXAMPLES.joinpath("first.spg").read_bytes())
        taken.append(time.monotonic() - began)
        expect("what was said", ran.stderr, b"")
        expect("its text", ran.stdout, EXAMPLES.joinpath("first.spg.stdout").read_bytes())
    print(f"    the next answer came after {min(taken):.2f} seconds")
    expect("that it came within a second", min(taken) <= 1, True)


def test_examples(copy):
    words = [sys.executable, f"{copy.top}/tools/examples.py", "--check", f"{copy.program} run"]
    ran = subprocess.run(words, cwd=copy.here, capture_output=True, text=True, check=False)
    expect(f"the status of examples.py ({ran.stdout}{ran.stderr})", ran.returncode, 0)


def test_help(copy):
    """Nothing is built for it, and no rt is asked."""
    hidden = f"{copy.program}.hidden"
    os.rename(copy.program, hidden)
    texts = {(ran.stdout, ran.stderr, ran.returncode) for ran in (copy.run(it, path=copy.bin) for it in ("help", "--help", "-h"))}
    os.rename(hidden, copy.program)
    expect("how many answers there are", len(texts), 1)
    text, said, status = texts.pop()
    expect("what was said", said, b"")
    expect("the status", status, 0)
    for words in (b"./spgist run <", b"--limit", b"./spgist gen", b"--lanes", b"--class"):
        expect(f"that it tells of {words}", words in text, True)


def test_help_at_a_terminal(copy):
    reader, terminal = pty.openpty()
    ran = subprocess.run([copy.spgist], stdin=terminal, stdout=terminal, stderr=terminal, check=False, timeout=60)
    os.close(terminal)
    expect("the status", ran.returncode, 0)
    expect("that it is the help", b"./spgist run <" in os.read(reader, 1 << 16), True)
    os.close(reader)


def test_other_words(copy):
    for words in ([], ["walk"], ["run", "--help"]):
        ran = copy.run(*words)
        expect(f"the answer to {words}", (ran.returncode, ran.stdout, ran.stderr), (2, b"", b"usage\n"))


def test_same_text_with_a_newer_time(copy):
    os.utime(copy.source)
    expect("the answer without rt", copy.run("run", script=b"class quad\n", path=copy.bin).stdout, b"journal 0\n")


def test_wrong_rt(copy):
    path, _ = copy.false_rt("rattle-kit-1 logic 0")
    with copy.changed():
        ran = copy.run("run", script=b"class quad\n", path=path)
    expect("the status", ran.returncode, 127)
    expect(f"that a line says what is needed ({ran.stderr})", is_line_of_needed(ran.stderr), True)


def test_no_rt(copy):
    with copy.changed():
        ran = copy.run("run", script=b"class quad\n", path=copy.bin)
    expect("the status", ran.returncode, 127)
    expect(f"that a line says what is needed ({ran.stderr})", is_line_of_needed(ran.stderr), True)


def test_two_starts_after_a_change(copy):
    """It is built anew, once."""
    version = subprocess.run(["rt", "version"], capture_output=True, text=True, check=True).stdout.strip()
    path, count = copy.false_rt(version)
    how = {"cwd": copy.here, "env": {**os.environ, "PATH": path}, "stdin": subprocess.PIPE, "stdout": subprocess.PIPE}
    with copy.changed():
        both = [subprocess.Popen([copy.spgist, "run"], stderr=subprocess.DEVNULL, **how) for _ in range(2)]
        expect("the answers", [it.communicate(b"class quad\n")[0] for it in both], [b"journal 0\n"] * 2)
        expect("what was built", text_of(count), "try\n")
        expect("what the next start says", copy.run("run", script=b"class quad\n", path=path).stderr, b"")
        expect("what was built by then", text_of(count), "try\n")


def test_broken_pipe(copy):
    with open(EXAMPLES.joinpath("town.spg"), "rb") as script:
        started = subprocess.Popen([copy.spgist, "run"], cwd=copy.here, stdin=script, stdout=subprocess.PIPE, stderr=subprocess.PIPE)
    expect("the first line", started.stdout.readline(), b"1 0 2 added\n")
    started.stdout.close()
    said = started.stderr.read()
    started.stderr.close()
    expect("the status", started.wait(timeout=120), 5)
    expect("what was said", said, b"write fault\n")


def test_full_disk(copy):
    with open("/dev/full", "wb") as full:
        ran = copy.run("run", script=b"class quad\n", stdout=full)
    expect("the end", (ran.returncode, ran.stderr), (5, b"write fault\n"))


def test_longest_script(copy):
    first, line = b"class quad\n", b"#" * 1023 + b"\n"
    script = first + line * ((LONGEST - len(first)) // len(line))
    script += b"#" * (LONGEST - len(script))
    ran = copy.run("run", script=script)
    expect("the end", (ran.returncode, ran.stdout, ran.stderr), (0, b"journal 0\n", b""))
    ran = copy.run("run", script=script + b"#")
    expect("the status with a byte more", ran.returncode, 3)
    expect("what was said", ran.stderr.splitlines()[:1], [b"bad script line 0"])


def test_many_lines(copy):
    script = b"class quad\n" + b"#\n" * 200_000
    expect("the text", copy.run("run", script=script).stdout, b"journal 0\n")
    expect("the last line", ended(copy.run("run", script=script + b"walk\n")), (3, [b"bad script line 200002"]))


def test_save_where_the_user_stands(copy):
    ran = copy.run("run", script=b"class quad\ninsert 1.1 3,4\nsave pages\n")
    expect("the status", ran.returncode, 0)
    expect("the size of what was saved", os.path.getsize(f"{copy.here}/pages") % 8192, 0)
    expect("where it is not", os.path.exists(f"{copy.top}/pages"), False)


def test_pictures(copy):
    """Those of the documents are what draw.py draws of the examples."""
    for name in ("town", "streets"):
        copy.run("run", script=EXAMPLES.joinpath(f"{name}.spg").read_bytes() + f"\nsave {name}\n".encode())
        words = [sys.executable, f"{copy.top}/tools/draw.py", f"{copy.here}/{name}"]
        drawn = subprocess.run(words, capture_output=True, text=True, check=False)
        expect("what was said", (drawn.stderr, drawn.returncode), ("", 0))
        expect(f"the picture {name}", drawn.stdout == text_of(f"{copy.top}/docs/pictures/{name}.svg"), True)


def lines_of(text):
    return [line.strip() for line in text.splitlines() if line.strip()]


def test_documents(copy):
    """Each block of docs/EMBEDDING.md and docs/CLASSES.md stands in a program that embeds an index, or in a class beside it."""
    files = glob.glob(f"{copy.top}/crates/spg_example_*/src/*.rt") + glob.glob(f"{copy.top}/crates/spg_example_*/specs/*.antt")
    whole = "\n".join(lines_of("\n".join(text_of(it) for it in files)))
    for document in ("EMBEDDING", "CLASSES"):
        for block in re.findall(r"^```(?:rust|antt)\n(.*?)^```$", text_of(f"{copy.top}/docs/{document}.md"), re.M | re.S):
            expect(f"that {document} quotes {block}", "\n".join(lines_of(block)) in whole, True)


def ended(ran):
    """The exit status, and the first line on standard error."""
    return ran.returncode, ran.stderr.splitlines()[:1]


def test_statuses(copy):
    expect("of a bad script", ended(copy.run("run", script=b"class quad\ninsert\n")), (3, [b"bad script line 2"]))
    with open(copy.bin + "/../into", "wb") as closed:
        expect("of input that cannot be read", ended(copy.run("run", stdin=closed)), (4, [b"read fault"]))
    os.mkdir(f"{copy.here}/taken")
    expect("of a save over a folder", ended(copy.run("run", script=b"class quad\nsave taken\n")), (6, [b"image fault"]))
    expect("of no image", ended(copy.run("check", "none")), (7, [b"bad image 0 missing"]))


def test_words_behind_the_second(copy):
    """Texts that four pages do not hold."""
    script = b"class radix\n" + b"".join(b'insert 1.%d "%s"\n' % (at, b"%d" % at * 3_000) for at in range(1, 9))
    last = {words: copy.run(*words, script=script).stdout.split(b"\n")[7][-5:] for words in (("run",), ("run", "--limit", "4"))}
    expect("the last insert", list(last.values()), [b"added", b" full"])


def test_many_events(copy):
    """More of them than 16 bits count."""
    script, text = finds(32_769)
    ran = copy.run("run", script=script.encode())
    expect("the status", ran.returncode, 0)
    expect("that its text is right", ran.stdout == text.encode(), True)


def run(test, copy):
    """Runs a test; whether it passed."""
    try:
        test(copy)
        why = None
    except Exception as error:  # whatever a test meets is its failure
        why = f"{type(error).__name__}: {error}"
    print(f"{test.__name__} {'passed' if why is None else 'FAILED: ' + why}", flush=True)
    return why is None


def main():
    tests = [it for name, it in globals().items() if name.startswith("test_")]
    with tempfile.TemporaryDirectory(prefix="spgist-test-") as room:
        copy = Copy(room)
        passed = sum(run(it, copy) for it in tests)
    print(f"{passed} passed, {len(tests) - passed} failed")
    sys.exit(0 if passed == len(tests) else 1)


if __name__ == "__main__":
    main()
