#!/usr/bin/env python3
"""Prints the path of a program that is built of the sources as they are: the proved one where there is one, else one that
is built without its proofs, and kept.

usage: unproved.py

`rt try` builds the program with checks that run with it, runs it in a folder of its own, and keeps nothing. So it is started
here on a load that lasts, in a folder for temporary files that is known, and the file that it runs is copied."""

import fcntl
import glob
import os
import shutil
import signal
import subprocess
import sys
import tempfile
import time

from sources import PROGRAM, PROVED, PROVED_SUM, TOP, require_toolchain, say, sum_of_sources, text_of

FOLDER = f"{TOP}/out/unproved"
UNPROVED = f"{FOLDER}/{PROGRAM}"
UNPROVED_SUM = f"{FOLDER}/{PROGRAM}.sum"
# A load on which the program works for some seconds.
LOAD = ["gen", "200000", "7"]
# What is looked for, how often.
SECONDS = 0.2
# What the shell says of a command that is there and cannot be started.
NOT_BUILT = 126


def words_of_processes():
    """The words of each process of this machine that may be read."""
    for file in glob.glob("/proc/[0-9]*/cmdline"):
        try:
            with open(file, "rb") as it:
                yield os.fsdecode(it.read()).split("\0")
        except OSError:
            pass


def program_below(room):
    """The file below a folder that a process is running, or None. A linker is done with it then."""
    for words in words_of_processes():
        for word in words:
            if word.startswith(f"{room}/") and os.access(word, os.X_OK) and os.path.isfile(word):
                return word
    return None


def works(program):
    """Whether it does the smallest script. A file that was taken away while it was copied does not."""
    ran = subprocess.run([program, "run"], input=b"class quad\n", capture_output=True, check=False)
    return ran.returncode == 0 and ran.stdout == b"journal 0\n"


def copied(found, to):
    try:
        shutil.copy(found, to)
        return works(to)
    except OSError:
        return False


def catch(room, to):
    """Builds the program and copies it to a file; whether that went well."""
    with open(f"{room}/said", "w+", encoding="utf-8", errors="replace") as said:
        tried = subprocess.Popen(
            ["rt", "try", "--", *LOAD],
            cwd=f"{TOP}/crates/{PROGRAM}",
            env={**os.environ, "TMPDIR": room},
            stdin=subprocess.DEVNULL,
            stdout=said,
            stderr=subprocess.STDOUT,
        )
        try:
            while tried.poll() is None:
                found = program_below(room)
                if found and copied(found, to):
                    return True
                time.sleep(SECONDS)
        finally:
            # It ends what it started, and removes its folder.
            tried.terminate()
            tried.wait()
        said.seek(0)
        sys.stderr.write(said.read())
        return False


def build(began):
    """Builds the program and puts it in its place, whole or not at all."""
    say("built without its proofs, in about a minute; `./prove` proves it, about 30 minutes")
    sources = sum_of_sources(with_proofs=False)
    with tempfile.TemporaryDirectory(prefix="spgist-") as room:
        # Where a program stands behind the old sum, it is not the one of that sum.
        if os.path.exists(UNPROVED_SUM):
            os.remove(UNPROVED_SUM)
        if not catch(room, f"{FOLDER}/new"):
            say("the program is not built: see above")
            sys.exit(NOT_BUILT)
    os.utime(f"{FOLDER}/new", (began, began))
    os.replace(f"{FOLDER}/new", UNPROVED)
    with open(f"{FOLDER}/new", "w", encoding="utf-8") as it:
        it.write(sources)
    os.replace(f"{FOLDER}/new", UNPROVED_SUM)


def is_built(program, file, with_proofs):
    """Whether a program is there and was built of the sources as they are, whose sum is in a file."""
    return os.access(program, os.X_OK) and text_of(file) == sum_of_sources(with_proofs)


def main():
    # A source that changes from here on is newer than the program. File systems keep times a little late.
    began = time.time() - 1
    if is_built(PROVED, PROVED_SUM, with_proofs=True):
        os.utime(PROVED, (began, began))
        print(PROVED)
        return
    os.makedirs(FOLDER, exist_ok=True)
    with open(f"{FOLDER}/lock", "w", encoding="utf-8") as lock:
        # A second start waits for the first, and takes what it built.
        fcntl.flock(lock, fcntl.LOCK_EX)
        if is_built(UNPROVED, UNPROVED_SUM, with_proofs=False):
            os.utime(UNPROVED, (began, began))
        else:
            require_toolchain()
            build(began)
    print(UNPROVED)


if __name__ == "__main__":
    # What was started is ended, and what was begun is taken away, when this is told to stop.
    signal.signal(signal.SIGTERM, lambda number, _: sys.exit(128 + number))
    try:
        main()
    except KeyboardInterrupt:
        sys.exit(128 + signal.SIGINT)
