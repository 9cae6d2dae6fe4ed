#!/usr/bin/env python3
"""Runs each test of each crate and each example, and proves nothing. The last line is 'N passed, M failed'.

usage: try.py [--jobs N] [CRATE..]

The tests of a crate are built and run by `rt try --test`, N crates beside each other, those that stand on most first; N is the
number of processors where it is left out. The examples are run by the program that `./spgist` starts. Of a crate with a test that
fails all is shown that was printed. With names, the tests of those crates alone."""

import argparse
import glob
import os
import re
import subprocess
import sys
import tempfile
import time
from concurrent.futures import ThreadPoolExecutor, as_completed

from sources import TOP, crates_and_below, require_toolchain


def has_tests(crate):
    for file in glob.glob(f"{TOP}/crates/{crate}/src/**/*.rt", recursive=True):
        with open(file, encoding="utf-8") as it:
            if "#[test]" in it.read():
                return True
    return False


def run(words, folder):
    how = {"stdin": subprocess.DEVNULL, "stdout": subprocess.PIPE, "stderr": subprocess.STDOUT, "text": True, "errors": "replace"}
    done = subprocess.run(words, cwd=folder, check=False, **how)
    return done.returncode, done.stdout


def try_tests(crate):
    """How many tests passed and failed, and what was printed. A run that ends with no count is a test that failed."""
    status, said = run(["rt", "try", "--test"], f"{TOP}/crates/{crate}")
    counts = re.search(r"^test result: .* (\d+) passed; (\d+) failed;", said, re.M)
    passed, failed = (int(counts[1]), int(counts[2])) if counts else (0, 1)
    return crate, passed, max(failed, int(status != 0)), said


def try_examples():
    with tempfile.TemporaryDirectory() as folder:
        _, said = run([sys.executable, f"{TOP}/tools/examples.py", "--check", f"{TOP}/spgist run"], folder)
    passed, failed = said.count(": as expected"), said.count(": DIFFERS")
    return "examples", passed, failed if passed else max(failed, 1), said


def main():
    parser = argparse.ArgumentParser(description=__doc__, formatter_class=argparse.RawDescriptionHelpFormatter)
    parser.add_argument("--jobs", type=int, default=os.cpu_count(), metavar="N")
    parser.add_argument("crates", nargs="*", metavar="CRATE")
    given = parser.parse_args()
    require_toolchain()
    below = crates_and_below()
    crates = sorted((it for it in given.crates or below if has_tests(it)), key=lambda it: len(below[it]), reverse=True)
    began = time.monotonic()
    passed = failed = 0
    with ThreadPoolExecutor(max(1, given.jobs)) as pool:
        tried = [] if given.crates else [pool.submit(try_examples)]
        tried += [pool.submit(try_tests, it) for it in crates]
        for one in as_completed(tried):
            what, good, bad, said = one.result()
            print(f"{what}: {good} passed, {bad} failed; {time.monotonic() - began:.0f} s", flush=True)
            if bad:
                print(said, flush=True)
            passed, failed = passed + good, failed + bad
    print(f"{passed} passed, {failed} failed")
    sys.exit(1 if failed else 0)


if __name__ == "__main__":
    main()
