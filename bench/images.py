#!/usr/bin/env python3
"""Times `check` and `run --from` on images, outside the gate, beside a plain loop in C that reads the image and touches each tuple.

Two images: one of uniform points, class quad, that the program saves; and one of as many pages as an image may have,
class radix, written here: two levels of inner tuples below the root, and on each leaf page one chain of a few texts.
Time is of the processor, the least of so many runs; memory is the greatest that a run had. `run --from` does an empty
script: what it takes has the printing of two lines for each row in it.
"""

import argparse
import os
import pathlib
import random
import struct
import subprocess
import tempfile

import points
import timing

PAGE, UPPER = 8192, 8184
LEAF, INNER = 3, 2
PLAIN = pathlib.Path(__file__).resolve().parent / "read_image.c"


def page(kind, tree, block, tuples):
    """A page with these tuples, each put before the last."""
    image, upper, pointers = bytearray(PAGE), UPPER, b""
    for one in tuples:
        upper -= len(one)
        image[upper : upper + len(one)] = one
        pointers += struct.pack("<HH", upper, len(one))
    image[:24] = struct.pack("<4sHBBIHHQ", b"SPGX", 1, kind, tree, block, len(tuples), upper, 0)
    image[24 : 24 + len(pointers)] = pointers
    return image


def inner(places):
    """An inner tuple of class radix: a node for each byte from 0 on."""
    nodes = b"".join(struct.pack("<IHh", block, offset, label) for label, (block, offset) in enumerate(places))
    return struct.pack("<BBHHH", 1, 0, 8 + len(nodes), 0, len(places)) + nodes


def leaf(offset, following, rest):
    padded = rest + bytes(-len(rest) % 8)
    return struct.pack("<BBHHHIHH", 2, 0, 16 + len(padded), following, offset, 0, len(rest), 0) + padded


def split(places):
    return [places[at : at + 256] for at in range(0, len(places), 256)]


def write_large(file, pages, texts):
    """An image of so many pages, with so many texts on each leaf page."""
    # Three inner tuples of 256 nodes fit on a page.
    lowest = -(-pages // 256)
    low_pages = -(-lowest // 3)
    first = 3 + low_pages + 1
    groups = split([(block, 1) for block in range(first, pages)])
    low = [(3 + at // 3, 1 + at % 3) for at in range(len(groups))]
    high = split(low)
    head = struct.pack("<4sHBBIHHQ", b"SPGX", 1, 1, 0, 0, 0, UPPER, 0) + struct.pack("<BBHIQ", 3, 0, 0, pages, 0)
    file.write(head + bytes(PAGE - len(head)))
    file.write(page(INNER, 0, 1, [inner([(first - 1, 1 + at) for at in range(len(high))])]))
    file.write(page(LEAF, 1, 2, []))
    for at in range(low_pages):
        file.write(page(INNER, 0, 3 + at, [inner(group) for group in groups[3 * at : 3 * at + 3]]))
    file.write(page(INNER, 0, first - 1, [inner(group) for group in high]))
    chain = [leaf(1 + at, (2 + at) % (texts + 1), b"%d Long Lane, Ely" % at) for at in range(texts)]
    one = page(LEAF, 0, 0, chain)
    begins = [struct.unpack_from("<H", one, 24 + 4 * at)[0] for at in range(texts)]
    for block in range(first, pages):
        struct.pack_into("<I", one, 8, block)
        for begin in begins:
            struct.pack_into("<I", one, begin + 8, block)
        file.write(one)


def save_points(program, folder, count):
    values = points.points("uniform", count, random.Random(1))
    script = timing.inserts("quad", [b"%d,%d" % value for value in values]) + [b"save points"]
    subprocess.run([program, "run"], input=b"\n".join(script) + b"\n", stdout=subprocess.DEVNULL, check=True, cwd=folder)


def timed(words, folder, script, repeats):
    """The least processor time, and the greatest memory in MB."""
    seconds, memory = [], []
    for _ in range(repeats):
        with open(script, "rb") as source:
            process = subprocess.Popen(words, stdin=source, stdout=subprocess.DEVNULL, cwd=folder)
        _, status, used = os.wait4(process.pid, 0)
        process.returncode = status
        assert status == 0, f"{words} ended with {status}"
        seconds.append(used.ru_utime + used.ru_stime)
        memory.append(used.ru_maxrss / 1024)
    return min(seconds), max(memory)


def measure(options, folder, name, index_class):
    script = pathlib.Path(folder, "empty")
    script.write_text(f"class {index_class}\n", encoding="ascii")
    runs = [
        ("plain loop", [f"{folder}/plain", name]),
        ("check", [options.program, "check", name]),
        ("run --from", [options.program, "run", "--from", name, "--limit", "131072"]),
    ]
    least = None
    for told, words in runs:
        seconds, memory = timed(words, folder, script, options.repeats)
        least = least or seconds
        print(f"{name:<8} {told:<11} {seconds:8.3f} s {seconds / least:6.1f} times {memory:7.0f} MB", flush=True)


def main():
    parser = argparse.ArgumentParser(description=__doc__, formatter_class=argparse.RawDescriptionHelpFormatter)
    parser.add_argument("--program", default="crates/spg_main/out/spg_main", type=os.path.abspath)
    parser.add_argument("--count", type=int, default=200_000, help="points of the first image")
    parser.add_argument("--pages", type=int, default=131_072, help="pages of the second, at least 1,000")
    parser.add_argument("--texts", type=int, default=8, help="texts on each leaf page of it")
    parser.add_argument("--repeats", type=int, default=3)
    options = parser.parse_args()
    with tempfile.TemporaryDirectory() as folder:
        subprocess.run(["cc", "-O2", "-o", f"{folder}/plain", str(PLAIN)], check=True)
        save_points(options.program, folder, options.count)
        measure(options, folder, "points", "quad")
        with open(f"{folder}/large", "wb") as file:
            write_large(file, options.pages, options.texts)
        measure(options, folder, "large", "radix")


if __name__ == "__main__":
    main()
