#!/usr/bin/env python3
"""Shows that each of some wrong ways to wake who waits for the lock is seen by the tests of spg_turn.

usage: wakes.py [--seconds N] [WORD]

Three of those tests let each thread that has to wait sleep until it is woken: 63, four and two threads that take turns. Each
wrong body of WRONG, or those whose names have WORD, is put into a copy, and one of the three must not end within N seconds, 60
where it is left out, which is what `rt ci` gives a test. The lock as it is comes first, and ends in all three. Nothing is
proved: the tests are built and run by `rt try --test`."""

import argparse
import pathlib
import shutil
import subprocess
import sys
import tempfile

from sources import TOP, require_toolchain

CRATES = ["spg_base", "spg_turn"]
LOCK = "crates/spg_turn/src/turn.rt"
TESTS = ["sixty_three_threads_are_woken", "four_threads_are_woken", "two_threads_are_woken"]
RING = "self.ring(&mut seat, ticket.wrapping_add(1));"
WAITS = """            let rung = shared.peek(bell);
            let sleeps = looks >= most;
            self.begin_sleep(seat, sleeps);
            let now = shared.load::<Look>(seat, NOW);
"""
# Each wrong way to wake: what stands in the lock, and what in its place.
WRONG = {
    "the bell is read after the look": [(WAITS, "\n".join([*WAITS.split("\n")[1:4], WAITS.split("\n")[0], ""]))],
    "who is about to sleep tells it after the look": [(WAITS, "\n".join([*WAITS.split("\n")[0:2], WAITS.split("\n")[3], WAITS.split("\n")[2], ""]))],
    "the next ticket but one is rung": [(RING, "self.ring(&mut seat, ticket.wrapping_add(2));")],
    "the ticket that was served is rung": [(RING, "self.ring(&mut seat, ticket);")],
    "no ticket is rung": [(RING, "")],
    "a ticket is rung before it is served": [
        (RING, ""),
        ("let ticket = shared.fetch_add::<Serve>(", "let next = shared.peek(NOW).wrapping_add(1); self.ring(&mut seat, next); let _ticket = shared.fetch_add::<Serve>("),
    ],
    "one bell is rung alone": [("            let bell = bell_of(ticket);\n            shared.fetch_add", "            let bell = FIRST_BELL;\n            shared.fetch_add")],
    "all wait at one bell": [("FIRST_BELL + (ticket % 64) as usize", "FIRST_BELL + (ticket % 1) as usize")],
    "four bells for 64 seats": [("FIRST_BELL + (ticket % 64) as usize", "FIRST_BELL + (ticket % 4) as usize")],
    "a ticket is rung only before it is drawn": [("shared.peek(NEXT) != ticket &&", "shared.peek(NEXT) == ticket &&")],
    "a ticket is rung only where two sleep": [("shared.peek(SLEEPERS) != 0", "shared.peek(SLEEPERS) > 1")],
    "who was woken looks no more": [("shared.park(rt, bell, (rung & 0xffff_ffff) as u32);", "for _ in rt.forever() { shared.park(rt, bell, (rung & 0xffff_ffff) as u32); }")],
    "the bell is changed, and nobody woken": [("            shared.wake_one(bell);\n", "")],
}


def changed(text, pairs):
    for old, new in pairs:
        if text.count(old) != 1:
            sys.exit(f"wakes.py: `{old.strip()}` stands {text.count(old)} times in the lock, and not once")
        text = text.replace(old, new)
    return text


def copy_to(room):
    for crate in CRATES:
        shutil.copytree(f"{TOP}/crates/{crate}", f"{room}/crates/{crate}", ignore=shutil.ignore_patterns("out"))
    shutil.copy(f"{TOP}/HANDLES", room)
    lines = pathlib.Path(TOP, "crates.txt").read_text(encoding="utf-8").splitlines()
    kept = [line for line in lines if line.replace(":", " ").split(" ")[0] in CRATES]
    pathlib.Path(room, "crates.txt").write_text("\n".join(kept) + "\n", encoding="utf-8")


def seen_by(room, wrong, seconds):
    """The tests that do not pass with this in the lock, and what was printed."""
    text = pathlib.Path(TOP, LOCK).read_text(encoding="utf-8")
    pathlib.Path(room, LOCK).write_text(changed(text, wrong), encoding="utf-8")
    words = ["rt", "try", "--test", "--seconds", str(seconds)]
    ran = subprocess.run(words, cwd=f"{room}/crates/spg_turn", stdin=subprocess.DEVNULL, capture_output=True, text=True, errors="replace", check=False)
    said = ran.stdout + ran.stderr
    if "test tests::threads_take_turns ..." not in said:
        return None, said
    return [it for it in TESTS if f"tests::{it} ... ok" not in said], said


def main():
    parser = argparse.ArgumentParser(description=__doc__, formatter_class=argparse.RawDescriptionHelpFormatter)
    parser.add_argument("word", nargs="?", default="", metavar="WORD")
    parser.add_argument("--seconds", type=int, default=60, metavar="N")
    given = parser.parse_args()
    require_toolchain()
    missed = 0
    with tempfile.TemporaryDirectory(prefix="spgist-wakes-") as room:
        copy_to(room)
        tests, said = seen_by(room, [], given.seconds)
        if tests != []:
            sys.exit(f"wakes.py: the lock as it is does not pass\n{said}")
        for name, wrong in WRONG.items():
            if given.word in name:
                tests, said = seen_by(room, wrong, given.seconds)
                told = f"not built\n{said}" if tests is None else f"seen by {', '.join(tests)}" if tests else "NOT SEEN"
                print(f"{name}: {told}", flush=True)
                missed += not tests
    sys.exit(1 if missed else 0)


if __name__ == "__main__":
    main()
