#!/usr/bin/env python3
"""Counts two hundred made forms and reports by ./oskuramos totals, in one run, and checks each number against the listings.

tests/depot.py [HOW MANY]: of the streams, made from examples/make.py's parts with a fixed seed, some are of Access 2000 and some later,
some have codes that the table lacks and types without a name, and some are cut. The lines of ./oskuramos list give the sums.
"""
import collections
import pathlib
import random
import re
import subprocess
import sys
import tempfile

ROOT = pathlib.Path(__file__).resolve().parent.parent
sys.path.insert(0, str(ROOT / "examples"))
import make  # noqa: E402

TYPES = [0x64, 0x65, 0x66, 0x67, 0x68, 0x69, 0x6A, 0x6B, 0x6C, 0x6D, 0x6E, 0x6F, 0x70, 0x72, 0x76, 0x77, 0x7A, 0x7B, 0x7C, 0x80, 0x95]
SECTIONS = [0x98, 0x99, 0x9A, 0x9B, 0x9C, 0x9D, 0x9E]
LATER_TYPES = TYPES + [0x247F, 0x1B70, 0x66A, 0x1470]
LATER_KINDS = [(0x01, b"\x01"), (0x02, b"\x10\x00"), (0x04, b"\x01\x02\x03\x04"), (0x06, bytes(4)), (0x08, bytes(8)), (0x09, make.GUID), (0x0A, make.text("a")), (0x0A, b"odd"), (0x0B, b"\x01")]
MARKS = "bool notdefault short long double guid text binary loose".split()
WORDS = {"0": "read", "4": "fits no reading", "5": "too long", "6": "too many controls", "7": "too many properties", "8": "bad code table"}


def property_2000(dice):
    id = dice.choice([0x14, 0x2F, 0x30, 0x38, 0x60, 0x61, 0x63, 0x9C, 0xCE, 0xD0, 0xD5, 0xDC, 0xDD, 0xDF, dice.randrange(0x14, 0xFD)])
    if id < 0x30:
        return make.flag(id)
    if id < 0x60:
        return make.byte(id, dice.randrange(256))
    if id < 0x9C:
        return make.short(id, dice.randrange(-32768, 32768))
    if id < 0xBA:
        return make.long(id, dice.randrange(-2147483648, 2147483648))
    return make.sized(id, dice.choice([b"", b"\x3d\xd8", make.GUID, bytes(8), make.text("x" * dice.randrange(9))]))


def entry_2000(dice, depth):
    inside = None if depth == 0 or dice.random() < 0.6 else [entry_2000(dice, depth - 1) for _ in range(dice.randrange(4))]
    return make.entry(dice.choice(TYPES), [property_2000(dice) for _ in range(dice.randrange(6))], inside)


def form_2000(dice):
    top = [make.entry(dice.choice(SECTIONS), [property_2000(dice) for _ in range(2)], [entry_2000(dice, 3) for _ in range(dice.randrange(9))]) for _ in range(dice.randrange(1, 5))]
    return make.stream_2000(dice.choice([make.FORM, make.REPORT]), [property_2000(dice) for _ in range(dice.randrange(9))], top)


def node_later(dice, depth):
    properties = [(dice.randrange(0x10, 0x9000),) + dice.choice(LATER_KINDS) for _ in range(dice.randrange(1, 5))]
    children = [] if depth == 0 else [node_later(dice, depth - 1) for _ in range(dice.randrange(4))]
    return make.node(dice.choice(LATER_TYPES), properties, children)


def form_later(dice):
    own = [(dice.randrange(0x10, 0x200),) + dice.choice(LATER_KINDS) for _ in range(dice.randrange(1, 6))]
    nodes = [node_later(dice, 0)] + [make.node(make.DETAIL, [make.name("Detail")], [node_later(dice, 2) for _ in range(dice.randrange(8))])]
    return b"\x01" + bytes(13) + make.group(own, nodes)


def streams(many):
    dice = random.Random(27)
    for n in range(many):
        stream = (form_later if n % 3 == 2 else form_2000)(dice)
        yield stream[: dice.randrange(len(stream))] if n % 20 == 7 else stream


def run(verb, files):
    done = subprocess.run([str(ROOT / "oskuramos"), verb, "--"] + files, stdout=subprocess.PIPE, stderr=subprocess.DEVNULL, text=True)
    if done.returncode > 1:
        sys.exit("depot: %s came to %d" % (verb, done.returncode))
    return done.stdout.split("\n")


def listed(lines, old):
    """The sums by the lines of the listings; `old` has the names of the Access 2000 streams."""
    sums = collections.Counter()
    file = None
    for line in lines:
        part = line.split(" ")
        if part[0] == "file":
            file = line[5:]
        elif part[0] == "answer":
            sums["files by answer", "%s %s" % (part[1], WORDS[part[1]])] += 1
        elif part[0] == "C":
            sums["controls by type", "other types" if part[3] == "-" else part[3]] += 1
        elif part[0] == "P":
            sums["properties", "unmapped" if file in old and int(part[2], 16) >= 0x8000 else "mapped"] += 1
            sums["values by kind", part[4]] += 1
    return sums


def printed(lines):
    """The numbers that totals prints, and how many codes there are in its list."""
    sums, codes, heading = collections.Counter(), 0, None
    for line in lines:
        if line[:1] != " ":
            heading = re.sub(r" +\d+$", "", line)
        elif heading.startswith("codes"):
            codes += int(line.split()[-1])
        elif not heading.startswith("refused"):
            found = re.match(r"  (.*?) +(\d+)(  #+)?$", line)
            sums[heading, found.group(1)] += int(found.group(2))
    return sums, codes


def main():
    many = int(sys.argv[1]) if len(sys.argv) > 1 else 200
    with tempfile.TemporaryDirectory() as folder:
        files, old = [], set()
        for n, stream in enumerate(streams(many)):
            file = str(pathlib.Path(folder) / ("form %03d.blob" % n))
            pathlib.Path(file).write_bytes(stream)
            files.append(file)
            if stream[:1] == b"\x13":
                old.add(file)
        want = listed(run("list", files), old)
        got, codes = printed(run("totals", files))
    for place in sorted(set(want) | set(got)):
        if want[place] != got[place]:
            sys.exit("depot: FAILED: %s, %s: %d in the listings, %d counted" % (place + (want[place], got[place])))
    if codes != want["properties", "unmapped"]:
        sys.exit("depot: FAILED: %d codes are listed, and %d properties are unmapped" % (codes, want["properties", "unmapped"]))
    sizes = [sum(n for (heading, _), n in got.items() if heading == h) for h in ("files by answer", "controls by type", "properties", "values by kind")]
    print("depot: %d streams (%d read), %d controls, %d properties (%d unmapped), %d values: each number as in the listings" % (
        sizes[0], got["files by answer", "0 read"], sizes[1], sizes[2], codes, sizes[3]))


if __name__ == "__main__":
    main()
