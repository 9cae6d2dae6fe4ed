#!/usr/bin/env python3
"""Builds the C programs of `examples/` against the proved library and compares what they print; where valgrind is there,
nothing is lost but the boxes of three handles. Without a C compiler, the library or SQLite there is less to do, or nothing.

usage: test_c.py"""

import os
import re
import shutil
import subprocess
import sys
import tempfile

from sources import TOP, say, text_of

CRATE = f"{TOP}/crates/spg_c"
LIBRARY = f"{CRATE}/out/libspg_c.a"
EXAMPLES = f"{TOP}/examples"
# Where a toolchain has its memory functions for C.
HEAP = "c/liblibc_c.a"
KIT = "/opt/rattle"
HANDLES = 3


def newest_source():
    """When the sources of the library's own crate were last written."""
    folders = (walk for part in ("src", "specs", "proofs") for walk in os.walk(f"{CRATE}/{part}"))
    return max(os.path.getmtime(os.path.join(at, file)) for at, _, files in folders for file in files)


def heap():
    """The toolchain's memory functions for C, or nothing."""
    beside = os.path.dirname(os.path.dirname(os.path.realpath(shutil.which("rt") or "/")))
    return next((file for file in (f"{beside}/{HEAP}", f"{KIT}/{HEAP}") if os.path.exists(file)), None)


def run(*words, text=None):
    """What a command prints. It must end well."""
    done = subprocess.run(words, input=text, capture_output=True, encoding="utf-8", check=False)
    if done.returncode != 0:
        raise SystemExit(f"{' '.join(words)}: {done.returncode}\n{done.stdout}{done.stderr}")
    return done.stdout + done.stderr


def expect(what, found, wanted):
    if found != wanted:
        raise SystemExit(f"{what} prints {found!r} where {wanted!r} is wanted")


def test_places(room, cc, memory):
    program = f"{room}/places"
    folder = f"{EXAMPLES}/c"
    run(cc, "-std=c11", "-O2", "-Wall", "-Wextra", "-Werror", f"{folder}/places.c", LIBRARY, memory, "-o", program)
    expect("places", run(program), text_of(f"{folder}/stdout"))
    if shutil.which("valgrind"):
        lost = run("valgrind", "--leak-check=full", "--error-exitcode=9", "--errors-for-leak-kinds=none", program)
        blocks = re.search(r"in use at exit: [\d,]+ bytes in (\d+) blocks", lost)
        expect("valgrind", blocks and blocks[1], str(HANDLES))


def test_sqlite(room, cc, memory):
    if not shutil.which("sqlite3") or not os.path.exists("/usr/include/sqlite3ext.h"):
        say("no SQLite: examples/sqlite is not tried")
        return
    folder, module = f"{EXAMPLES}/sqlite", f"{room}/spgist.so"
    run(cc, "-std=c11", "-O2", "-Wall", "-Wextra", "-Werror", "-fPIC", "-shared", f"{folder}/spgist.c", LIBRARY, memory, "-lm", "-o", module)
    script = text_of(f"{folder}/shops.sql")
    expect("shops.sql", run("sqlite3", "-cmd", f".load {module}", ":memory:", text=script), text_of(f"{folder}/stdout"))


def main():
    cc, memory = shutil.which("gcc") or shutil.which("cc"), heap()
    if not cc or not memory or not os.path.exists(LIBRARY) or os.path.getmtime(LIBRARY) < newest_source():
        say("no C compiler, or no proved library of these sources: the C examples are not tried")
        return
    with tempfile.TemporaryDirectory() as room:
        test_places(room, cc, memory)
        test_sqlite(room, cc, memory)
    print("test_c: ok")


if __name__ == "__main__":
    sys.exit(main())
