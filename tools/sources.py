"""What the program is made of: its crates, the files that it is built of, and the toolchain that it needs."""

import glob
import hashlib
import os
import re
import subprocess
import sys

TOP = os.path.dirname(os.path.dirname(os.path.realpath(__file__)))
PROGRAM = "spg_main"
PROVED = f"{TOP}/crates/{PROGRAM}/out/{PROGRAM}"
# The sum of the sources of which the proved program was built.
PROVED_SUM = f"{TOP}/out/proved.sum"
# What the shell says of a command that was not found.
NOT_FOUND = 127


def say(words):
    print(f"spgist: {words}", file=sys.stderr, flush=True)


def crates_and_below():
    """For each crate its line's crates and those below them; crates.txt has each crate behind those that it stands on."""
    below = {}
    with open(f"{TOP}/crates.txt", encoding="utf-8") as lines:
        for line in lines:
            found = re.match(r"(spg\w+)[^:]*:(.*)", line)
            if found:
                named = re.findall(r"spg\w+", found[2])
                below[found[1]] = set(named).union(*(below[it] for it in named))
    return below


def crates_of_program():
    """The program's crates in the order of crates.txt."""
    below = crates_and_below()
    return [crate for crate in below if crate in below[PROGRAM] or crate == PROGRAM]


def sum_of_sources(with_proofs):
    """A checksum of the names and bytes of the program's sources, with its contracts' definitions and proofs or without."""
    files = [f"{TOP}/crates.txt"]
    for crate in crates_of_program():
        folder = f"{TOP}/crates/{crate}"
        files += sorted(glob.glob(f"{folder}/src/**/*.rt", recursive=True))
        if with_proofs:
            files += sorted(glob.glob(f"{folder}/specs/**/*.antt", recursive=True))
            files += sorted(glob.glob(f"{folder}/proofs/**/*.antt", recursive=True))
    whole = hashlib.sha256()
    for file in files:
        with open(file, "rb") as it:
            whole.update(f"{file[len(TOP):]} {os.path.getsize(file)}\n".encode())
            whole.update(it.read())
    return whole.hexdigest()


def text_of(file):
    """The text of a file, or nothing where it cannot be read."""
    try:
        with open(file, encoding="utf-8") as it:
            return it.read()
    except OSError:
        return ""


def require_toolchain():
    """Ends with a line and a status where the toolchain is missing, or has not the logic that README names."""
    needed = re.search(r"logic \w+", text_of(f"{TOP}/README.md"))[0]
    wanted = f"the toolchain Rattle is needed, command `rt`, of which `rt version` says `rattle-kit-.. {needed}`"
    try:
        ran = subprocess.run(["rt", "version"], stdin=subprocess.DEVNULL, capture_output=True, text=True, check=False)
    except OSError:
        say(f"{wanted}; here is no `rt`")
        sys.exit(NOT_FOUND)
    if not ran.stdout.strip().endswith(needed):
        say(f"{wanted}; here it says `{ran.stdout.strip()[:80]}`")
        sys.exit(NOT_FOUND)
