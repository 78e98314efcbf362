#!/usr/bin/env python3
"""Makes crates/replay/stdin and crates/replay/stdout: a fixed list of cases out of one batch of `compare`.

    compare/replay.py [COMPARE]     from anywhere; COMPARE is the built program, compare/target/release/compare if not given

The batch has every telling case, a part of the exhaustive ones and random ones; all that have at most 8,192 bytes are taken, in
their order. Added are TypeInfo streams of each length below 32 and with each bit of the first four bytes turned, and the names of
the ids 0 to 0x1FF: the batch asks for every id that a table has, so an id that it doesn't ask for has no name.
At the end `compare judge` holds the whole list against jetdb.
"""

import itertools
import os
import struct
import subprocess
import sys
import tempfile

ROOT = os.path.join(os.path.dirname(os.path.abspath(__file__)), "..")
SEED, COUNT, LONGEST = "1", "5991", "8192"
TYPE_INFO, NAMES, PAIRING = 2, 6, 11
MAGIC = 0xACCDEAF7


def frames(cases):
    """Each frame as its kind, its two numbers and its bytes."""
    at = 0
    while at < len(cases):
        kind, first, second, size = struct.unpack_from("<4I", cases, at)
        at += 16 + size
        yield kind, first, second, cases[at - size : at]


def frame(kind, first, second, data):
    return struct.pack("<4I", kind, first, second, len(data)) + data


def line_count(kind, lines):
    """How many lines a case has, by its kind and the lines from its first on."""
    if kind == PAIRING:
        return 1 + len(list(itertools.takewhile(lambda line: line.startswith("C "), itertools.islice(lines, 1, None))))
    if kind in (0, 4, 5, 6, 7, 8):
        return {0: 0, 4: 2, 5: 2, 6: 4, 7: 1, 8: 3}[kind]
    number, first, second = [int(word) for word in lines[0].split()[1:4]]
    return 1 if number else 1 + first + second


def cases(name):
    """Each case of a batch as its frame and the text that must be printed for it."""
    with open(name + ".cases", "rb") as file:
        data = file.read()
    with open(name + ".expected", encoding="ascii") as file:
        lines = file.readlines()
    at = 0
    for case in frames(data):
        end = at + line_count(case[0], lines[at : at + 2000])
        yield case, "".join(lines[at:end])
        at = end
    assert at == len(lines)


def chosen(name):
    asked = set()
    for case, text in cases(name):
        if case[0] == NAMES:
            asked.add(case[1])
        yield case, text
    for size in range(32):
        yield (TYPE_INFO, 1024, 0, struct.pack("<I", MAGIC).ljust(32, b"\0")[:size]), "A 1 0 0 0\n"
    for bit in range(32):
        yield (TYPE_INFO, 1024, 0, struct.pack("<I", MAGIC ^ 1 << bit).ljust(32, b"\0")), "A 2 0 0 0\n"
    for number in range(0x200):
        if number not in asked:
            yield (NAMES, number, 0, b""), "B\n" * 4


def main():
    built = os.environ.get("CARGO_TARGET_DIR", os.path.join(ROOT, "compare/target"))
    compare = sys.argv[1] if len(sys.argv) > 1 else os.path.join(built, "release/compare")
    stdin, stdout = (os.path.join(ROOT, "crates/replay", part) for part in ("stdin", "stdout"))
    with tempfile.TemporaryDirectory() as folder:
        name = os.path.join(folder, "batch")
        subprocess.run([compare, "batch", SEED, COUNT, name, LONGEST], check=True, stdout=subprocess.DEVNULL)
        kept = list(chosen(name))
    with open(stdin, "wb") as file:
        file.write(b"".join(frame(*case) for case, _ in kept))
    with open(stdout, "w", encoding="ascii") as file:
        file.write("".join(text for _, text in kept))
    subprocess.run([compare, "judge", stdin, stdout], check=True)


main()
