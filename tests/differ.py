#!/usr/bin/env python3
"""Holds ./oskuramos diff against two plain listings of made forms, under random older and newer code tables.

tests/differ.py [PAIRS] [FORMS]: so many pairs of tables (20), each with so many forms (15) of tests/depot.py's making. The newer table has rows of any kind for ids that
the default one lacks; the older is a part of it, and in some pairs also has a row that was corrected or taken back, so that only --anyway compares.
What `diff --csv` prints of a form must be the rows in which `list` and `csv` differ under the two tables, and the exit status must say whether there are any.
"""
import csv
import io
import pathlib
import random
import struct
import subprocess
import sys
import tempfile

ROOT = pathlib.Path(__file__).resolve().parent.parent
sys.dont_write_bytecode = True
sys.path.insert(0, str(ROOT / "tests"))
import depot  # noqa: E402
from depot import make  # noqa: E402


def property_of(dice):
    """A property of any id, its value as long as the id tells."""
    id = dice.choice([0x60, 0xCE, 0xD0, 0xDC, 0xDD, 0xDF] + [dice.randrange(0xFD) for _ in range(6)])
    if id < 0xBD:
        size = 0 if id < 0x30 else 1 if id < 0x60 else 2 if id < 0x80 else 4
        return bytes([id]) + dice.randbytes(size)
    return make.sized(id, dice.choice([b"", b"\x3d\xd8", make.GUID, struct.pack("<d", dice.random()), make.text("x, \"\u00e9\n" * dice.randrange(3)), dice.randbytes(dice.randrange(40))]))


depot.property_2000 = property_of


def run(statuses, *words):
    done = subprocess.run([str(ROOT / "oskuramos"), *map(str, words)], stdout=subprocess.PIPE, stderr=subprocess.PIPE)
    if done.returncode not in statuses:
        sys.exit(f"differ: FAILED: {' '.join(map(str, words))}: status {done.returncode}: {done.stderr.decode()}")
    return done.returncode, done.stdout.decode()


# ---- tables

def newer_of(dice, scopes):
    """Rows for other ids, of any kind, in every scope."""
    out = []
    for kind, code, rows in scopes:
        taken = {row[0] for row in rows}
        more = [(id, dice.randrange(0x300), dice.randrange(5)) for id in dice.sample(range(0xFD), 40) if id not in taken]
        out.append((kind, code, sorted(rows + more)))
    return out


def older_of(dice, scopes):
    keep = dice.choice([0.2, 0.6, 0.95])
    return [(kind, code, [row for row in rows if dice.random() < keep]) for kind, code, rows in scopes if dice.random() < 0.9]


def spoiled(dice, scopes):
    """A row of the older table that the newer has otherwise."""
    kind, code, rows = dice.choice([scope for scope in scopes if scope[2]])
    n = dice.randrange(len(rows))
    rows[n] = (rows[n][0], rows[n][1] ^ 1, rows[n][2])


# ---- what two listings say

def listings(table, forms):
    """By form the C and P lines of `list` and the records of `csv`."""
    _, printed = run((0,), "list", "-t", table, *forms)
    lines = [part.split("\n")[2:] for part in printed.split("file ")[1:]]
    _, text = run((0,), "csv", "--file", "-t", table, *forms)
    records = {str(form): [] for form in forms}
    for record in list(csv.reader(io.StringIO(text, newline="")))[1:]:
        records[record[0]].append(record[1:])
    return [([w.split() for w in part if w.startswith("C")], [w.split() for w in part if w.startswith("P")], records[str(form)]) for part, form in zip(lines, forms)]


def as_shown(kind, value):
    """A value as `diff` has it: a flag has none, and a fraction is decimal and not its bits."""
    if kind == "notdefault":
        return ""
    return repr(struct.unpack(">d", bytes.fromhex(value))[0]) if kind == "double" else value


def expected(form, older, newer, anyway):
    """The records that must come: file, control, type, property, id, kind, value; with --anyway the rows of controls before them, without values."""
    out = []
    if anyway:
        for old, new in zip(older[0], newer[0]):
            if old[2:] != new[2:]:
                parts = [part for part, a, b in (("type", 2, 4), ("name", 4, 5), ("properties", 5, 7), ("nesting", 7, 9)) if old[a:b] != new[a:b]]
                out.append([str(form), new[1], new[2], ", ".join(parts), "", "control", ""])
    for row, (old, new) in enumerate(zip(older[1], newer[1])):
        if old[2:] != new[2:] or older[2][row][2:] != newer[2][row][2:]:
            control, type_code, name, kind, value = newer[2][row]
            if anyway and new[3] == "-":
                name = new[2] if old[3] == "-" else old[3]
            out.append([str(form), control, type_code, name, new[2], kind, as_shown(kind, value)])
    return out


def said(older, newer, forms, anyway):
    status, text = run((0, 1), "diff", "--csv", *(["--anyway"] if anyway else []), older, newer, *forms)
    rows = list(csv.reader(io.StringIO(text, newline="")))[1:]
    records = [[r[0], r[1], r[3], r[5], r[7], r[8], "" if r[8] == "control" else r[9]] for r in rows]
    if status != (1 if records else 0):
        sys.exit(f"differ: FAILED: the exit status is {status} where {len(records)} properties differ")
    return records


def main():
    pairs, count = (list(map(int, sys.argv[1:])) + [20, 15][len(sys.argv) - 1:])
    dice = random.Random(2000)
    scopes = make.rows_of((ROOT / "data" / "access2000.codes").read_bytes())
    told = 0
    with tempfile.TemporaryDirectory() as folder:
        folder = pathlib.Path(folder)
        for pair in range(pairs):
            rows = newer_of(dice, scopes)
            parts = older_of(dice, rows)
            anyway = pair % 4 == 3
            if anyway:
                spoiled(dice, parts)
            older, newer = folder / "older.codes", folder / "newer.codes"
            older.write_bytes(make.codes(parts))
            newer.write_bytes(make.codes(rows))
            forms = [folder / f"{n}.blob" for n in range(count)]
            for form in forms:
                form.write_bytes((depot.form_later if dice.random() < 0.1 else depot.form_2000)(dice))
            if anyway:
                run((2,), "diff", "--quiet", older, newer, *forms)
            must = [record for form, a, b in zip(forms, listings(older, forms), listings(newer, forms)) for record in expected(form, a, b, anyway)]
            got = said(older, newer, forms, anyway)
            if got != must:
                first = next((pair for pair in zip(got, must) if pair[0] != pair[1]), (len(got), len(must)))
                sys.exit(f"differ: FAILED: pair {pair}: {first[0]} is told where the two listings have {first[1]}")
            told += len(must)
    print(f"differ: {pairs * count} forms under {pairs} pairs of code tables, {told} differences told as two listings have them")


if __name__ == "__main__":
    main()
