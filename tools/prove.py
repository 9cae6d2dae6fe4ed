#!/usr/bin/env python3
"""Proves the crates that the program stands on, lowest first, and builds the program. Says after each crate how many
are left, and about how long that takes.

usage: prove.py

Each crate has all processors. What was proved is kept beside its sources, so this goes on where it was stopped, and
after a change proves only what changed and the crates above."""

import os
import subprocess
import sys
import time

from sources import PROGRAM, PROVED, PROVED_SUM, TOP, crates_of_program, require_toolchain, say, sum_of_sources

# A crate that is kept from an earlier run takes less.
KEPT_SECONDS = 5
# Seconds that each crate took in a first run on four processors that did nothing else. What is left is reckoned by them.
SECONDS = {
    "spg_base": 31, "spg_io": 28, "spg_sort": 8, "spg_opclass": 50, "spg_points": 20, "spg_quad": 20,
    "spg_kd": 30, "spg_radix": 64, "spg_rows": 62, "spg_calls": 8, "spg_forest": 14, "spg_cover": 10,
    "spg_page": 45, "spg_tree": 38, "spg_chain": 26, "spg_descend": 37, "spg_split": 77, "spg_move": 40,
    "spg_vacuum": 28, "spg_scan": 94, "spg_seats": 10, "spg_core": 220, "spg_image": 19, "spg_turn": 24,
    "spg_desk": 130, "spg_script": 64, "spg_report": 20, "spg_histories": 10, "spg_perform": 212,
    "spg_app": 165, "spg_main": 153,
    # Guessed by what they took on a busy machine.
    "spg_bounds": 30, "spg_clauses": 20, "spg_survey": 60, "spg_keys": 50, "spg_verdict": 16, "spg_adopt": 10,
    "spg_verify": 10, "spg_whole": 80,
}
# A crate that was not measured.
OTHER_SECONDS = 60


def seconds_of(crates):
    return sum(SECONDS.get(crate, OTHER_SECONDS) for crate in crates)


def prove(crate):
    """Proves a crate. Where it fails, all that was printed is shown, and this ends."""
    # `rt run` builds the program when it is proved, and runs it: here on the smallest script.
    words = ["rt", "run", "--", "run"] if crate == PROGRAM else ["rt", "lib"]
    done = subprocess.run(
        words,
        cwd=f"{TOP}/crates/{crate}",
        input="class quad\n",
        text=True,
        stdout=subprocess.PIPE,
        stderr=subprocess.STDOUT,
        check=False,
    )
    if done.returncode:
        sys.stderr.write(done.stdout)
        say(f"{crate} is not proved: see above")
        sys.exit(1)


class Pace:
    """How long what is left will take, by the crates that were not kept from an earlier run."""

    def __init__(self):
        self.took, self.measured = 0, 0

    def add(self, crate, seconds):
        if seconds > KEPT_SECONDS:
            self.took += seconds
            self.measured += seconds_of([crate])

    def minutes(self, crates):
        pace = self.took / self.measured if self.measured else 1
        return pace * seconds_of(crates) / 60


def prove_all(crates):
    pace = Pace()
    for number, crate in enumerate(crates, start=1):
        began = time.monotonic()
        prove(crate)
        pace.add(crate, time.monotonic() - began)
        left = crates[number:]
        if left:
            say(f"{crate}, {number} of {len(crates)}; some {pace.minutes(left) + 1:.0f} minutes left")


def keep(sources, began):
    """Writes down of which sources the program was built. One that changed meanwhile is newer than the program."""
    os.makedirs(os.path.dirname(PROVED_SUM), exist_ok=True)
    with open(PROVED_SUM, "w", encoding="utf-8") as it:
        it.write(sources)
    os.utime(PROVED, (began, began))


def main():
    require_toolchain()
    crates = crates_of_program()
    say(f"proving {len(crates)} crates: this happens once, and after a change of them")
    # File systems keep times a little late.
    began, sources = time.time() - 1, sum_of_sources(with_proofs=True)
    prove_all(crates)
    keep(sources, began)
    if sources != sum_of_sources(with_proofs=True):
        say("a source changed meanwhile: start again")
        sys.exit(1)
    say(f"all {len(crates)} crates are proved and the program is built, in some {(time.time() - began) / 60 + 1:.0f} minutes; `./spgist` runs it")


if __name__ == "__main__":
    try:
        main()
    except KeyboardInterrupt:
        say("stopped; the next start goes on there")
        sys.exit(130)
