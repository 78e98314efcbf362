#!/usr/bin/env python3
"""Random code tables, shown as text and made again from it by the built programs.

    tests/tables.py [COUNT] [SEED] [EVERY]     200 tables where no count is given

Each well-formed table must be shown with the words that this file writes of it, and be made again, byte for byte, from the text that was shown and from
the same words with other blanks, remarks, letters and line ends; the latter, and what is damaged, only of each EVERY-th table (1). A damaged table must be judged as `well_formed` below judges it, which was
written from document 01 and from no code. A damaged text must be refused at the line at which `read_text` refuses it, or give the same bytes.
"""
import os
import random
import resource
import struct
import subprocess
import sys

ROOT = os.path.dirname(os.path.dirname(os.path.abspath(__file__)))
KINDS = ["number", "text", "guid", "double", "bytes"]
HEX = set("0123456789abcdefABCDEF")


# ---- document 01, "Code table: contents, then bodies"
def ascend(numbers):
    return all(a < b for a, b in zip(numbers, numbers[1:]))


def well_formed(table):
    if len(table) < 4:
        return False
    headers, scopes = table[1], struct.unpack_from("<H", table, 2)[0]
    bodies = 4 + 2 * headers + 5 * scopes
    if headers > 4 or scopes > 64 or len(table) < bodies:
        return False
    if not ascend(struct.unpack_from("<%dH" % headers, table, 4)):
        return False
    contents = [struct.unpack_from("<BHH", table, 4 + 2 * headers + 5 * i) for i in range(scopes)]
    if any(kind > 2 or (kind < 2 and code) for kind, code, _ in contents) or not ascend([c[:2] for c in contents]):
        return False
    if len(table) != bodies + 4 * sum(count for _, _, count in contents):
        return False
    for _, _, count in contents:
        rows = [struct.unpack_from("<BHB", table, bodies + 4 * i) for i in range(count)]
        bodies += 4 * count
        if not ascend([r[0] for r in rows]) or any(i > 0xFC or target > 0x7FFF or kind > 4 for i, target, kind in rows):
            return False
    return True


# ---- a table as (layout, header codes, [((kind, code), [(id, target, kind)])])
def packed(layout, headers, scopes):
    out = struct.pack("<BBH", layout, len(headers), len(scopes)) + struct.pack("<%dH" % len(headers), *headers)
    out += b"".join(struct.pack("<BHH", kind, code, len(rows)) for (kind, code), rows in scopes)
    return out + b"".join(struct.pack("<BHB", *row) for _, rows in scopes for row in rows)


def words(layout, headers, scopes):
    lines = ["layout %02X" % layout] + ["header %04X" % code for code in headers]
    for (kind, code), rows in scopes:
        lines.append(["form", "report", "entry %04X" % code][kind])
        lines += ["%02X %04X %s" % (i, target, KINDS[k]) for i, target, k in rows]
    return [line.split() for line in lines]


def some_table(rng):
    headers = sorted(rng.sample(range(65536), rng.randint(0, 4)))
    most = rng.choice([0, 1, 3, 3, 8, 8, 64])
    codes = sorted(rng.sample(range(65536), rng.randint(0, most)))
    keys = [(k, 0) for k in (0, 1) if rng.random() < 0.6] + [(2, c) for c in codes]
    size = rng.choice([0, 2, 5, 5, 20, 253])
    scopes = []
    for key in keys[:64]:
        ids = sorted(rng.sample(range(253), rng.randint(0, size)))
        scopes.append((key, [(i, rng.choice([rng.randrange(0x200), rng.randrange(0x8000), 0x7FFF]), rng.randrange(5)) for i in ids]))
    return rng.randrange(256), headers, scopes


def damaged(rng, table):
    t = bytearray(table)
    for _ in range(rng.choice([1, 1, 1, 2, 5])):
        way = rng.randrange(6)
        at = rng.randrange(len(t)) if t else 0
        if way == 0 and t:
            t[at] = rng.choice([0, 1, 2, 3, 4, 5, 0xFC, 0xFD, 0xFF, rng.randrange(256)])
        elif way == 1 and t:
            t[at] ^= 1 << rng.randrange(8)
        elif way == 2:
            del t[at:]
        elif way == 3:
            t += bytes(rng.randrange(256) for _ in range(rng.randint(1, 5)))
        elif way == 4:
            t[at:at] = bytes([rng.randrange(256)])
        elif t:
            del t[at]
    return bytes(t)


# ---- the text
def without_remarks(text):
    return [w for w in (line.split("#", 1)[0].split() for line in text.split("\n")) if w]


def other_text(rng, lines):
    """The same words with other blanks, letters, remarks and line ends."""
    out = []
    for w in lines:
        while rng.random() < 0.1:
            out.append(rng.choice(["", " \t", "# entry 0064", "   #"]))
        w = [x.lower() if HEX.issuperset(x) and rng.random() < 0.5 else x for x in w]
        blank = rng.choice([" ", "  ", "\t", " \t "])
        out.append(rng.choice(["", " ", "\t"]) + blank.join(w) + rng.choice(["", "", " ", "# x", " # layout", "\t"]))
    text = "".join(line + rng.choice(["\n", "\n", "\r\n"]) for line in out)
    return text[:-1] if text and rng.random() < 0.2 and not text.endswith("\r\n") else text


def number(word, digits):
    return int(word, 16) if len(word) == digits and HEX.issuperset(word) else None


# why a line is refused, in the words that are printed
FIRST = "a layout must come first, such as layout 13"
TWICE = "the layout is named a second time; keep one"
UNKNOWN = "begin with layout, header, form, report, entry or a row's id"
TWO = "two hex digits must follow, such as layout 13"
FOUR = "the second word must be four hex digits, as 0064"
MORE = "there are too many words; remarks stand after #"
LATE = "header lines stand before the first scope"
HEADERS = "header codes must ascend; this one doesn't"
FIVE = "a table has at most 4 header codes"
SCOPES = "form, report, entries by code must ascend"
MANY = "a table has at most 64 scopes"
EARLY = "a row stands below a form, a report or an entry"
IDS = "ids must ascend; this one doesn't"
HIGH = "an id is at most FC"
TARGET = "a target is at most 7FFF"
KIND = "the third word must be number, text, guid, double or bytes"
NONE = "no layout is named; write one, such as layout 13"


def item(w):
    """What the words of a line say by themselves: a tuple, or why they can't be taken."""
    if w[0] == "layout":
        return MORE if len(w) > 2 else TWO if len(w) < 2 or number(w[1], 2) is None else ("layout", number(w[1], 2))
    if w[0] in ("header", "entry"):
        return MORE if len(w) > 2 else FOUR if len(w) < 2 or number(w[1], 4) is None else (w[0], number(w[1], 4))
    if w[0] in ("form", "report"):
        return MORE if len(w) > 1 else (w[0], 0)
    if number(w[0], 2) is None:
        return UNKNOWN
    if len(w) > 3:
        return MORE
    if len(w) < 2 or number(w[1], 4) is None:
        return FOUR
    if len(w) < 3 or w[2] not in KINDS:
        return KIND
    return "row", number(w[0], 2), number(w[1], 4), KINDS.index(w[2])


def broken(said, layout, headers, scopes):
    """The rule that a line breaks below those that were taken, or None."""
    what, first = said[0], said[1]
    if what == "layout":
        return None if layout is None else TWICE
    if layout is None:
        return FIRST
    if what == "header":
        return LATE if scopes else HEADERS if headers and first <= headers[-1] else FIVE if len(headers) == 4 else None
    if what != "row":
        key = (["form", "report", "entry"].index(what), first)
        return SCOPES if scopes and key <= scopes[-1][0] else MANY if len(scopes) == 64 else None
    if not scopes:
        return EARLY
    rows = scopes[-1][1]
    return HIGH if first > 0xFC else IDS if rows and first <= rows[-1][0] else TARGET if said[2] > 0x7FFF else None


def read_text(text):
    """The table of a text, or the line that is refused and why, as it is printed."""
    layout, headers, scopes, n = None, [], [], 0
    lines = text.split("\n")
    if lines[-1] == "":
        lines.pop()
    for n, line in enumerate(lines, 1):
        w = [x for x in line.split("#", 1)[0].replace("\t", " ").replace("\r", " ").split(" ") if x]
        if not w:
            continue
        said = item(w)
        why = said if isinstance(said, str) else broken(said, layout, headers, scopes)
        if why:
            return "line %d: %s\n" % (n, why)
        if said[0] == "layout":
            layout = said[1]
        elif said[0] == "header":
            headers.append(said[1])
        elif said[0] == "row":
            scopes[-1][1].append(said[1:])
        else:
            scopes.append(((["form", "report", "entry"].index(said[0]), said[1]), []))
    return "line %d: %s\n" % (n + 1, NONE) if layout is None else packed(layout, headers, scopes)


def damaged_text(rng, text):
    lines = text.split("\n")
    for _ in range(rng.choice([1, 1, 2])):
        at = rng.randrange(len(lines))
        w = lines[at].split(" ")
        way = rng.randrange(8)
        if way == 0:
            lines.insert(at, rng.choice(lines))
        elif way == 1:
            del lines[at]
        elif way == 2:
            w.insert(rng.randint(0, len(w)), rng.choice(["0064", "13", "form", "number", "8000", "FD", "x"]))
        elif way == 3 and len(w) > 1:
            del w[rng.randrange(len(w))]
        elif way == 4:
            w[rng.randrange(len(w))] = rng.choice(["0064", "13", "form", "header", "report", "entry", "layout", "bytes", "8000", "7FFF", "FD", "FC", "FORM", "0", "00000", "G0"])
        elif way == 5 and len(lines) > 1:
            other = rng.randrange(len(lines))
            lines[at], lines[other] = lines[other], lines[at]
            continue
        elif way == 6:
            letters = list(lines[at])
            if letters:
                letters[rng.randrange(len(letters))] = rng.choice(" #\t\rfF07x")
            w = ["".join(letters)]
        if at < len(lines) and way in (2, 3, 4, 6):
            lines[at] = " ".join(w)
        if not lines:
            lines = [""]
    return "\n".join(lines)


# ---- the programs
def programs():
    kit = os.path.dirname(subprocess.run(["rt", "doc"], stdout=subprocess.PIPE, text=True, check=True).stdout.strip())
    folder = os.path.join(kit, "toolchain/lib")
    words = [os.path.join(folder, "ld-linux-x86-64.so.2"), "--library-path", folder]
    return lambda name, data: subprocess.run(words + [os.path.join(ROOT, "crates", name, "out", name)], input=data, stdout=subprocess.PIPE, check=True).stdout


def fail(number, what, **shown):
    sys.exit("tables: FAILED at table %d: %s\n%s" % (number, what, "\n".join("%s: %r" % x for x in shown.items())))


def main():
    count = int(sys.argv[1]) if len(sys.argv) > 1 else 200
    seed = int(sys.argv[2]) if len(sys.argv) > 2 else 14
    every = int(sys.argv[3]) if len(sys.argv) > 3 else 1
    soft, hard = resource.getrlimit(resource.RLIMIT_STACK)
    resource.setrlimit(resource.RLIMIT_STACK, (hard if 0 < hard < 1 << 27 else 1 << 27, hard))
    run = programs()
    rng = random.Random(seed)
    tally = dict(tables=0, damaged=0, broken=0, texts=0, refused=0, bytes=0, rows=0)
    for n in range(count):
        parts = some_table(rng)
        table = packed(*parts)
        if not well_formed(table):
            fail(n, "the maker of tables is wrong", table=table)
        text = run("tableshow", table)
        if without_remarks(text.decode()) != words(*parts):
            fail(n, "another text was shown", table=table, text=text)
        made = b"table %d\n" % len(table) + table
        other = other_text(rng, words(*parts)).encode()
        for given in (text, other) if n % every == 0 else (text,):
            if run("tablemake", given) != made:
                fail(n, "another table was made", table=table, text=given, printed=run("tablemake", given)[:200])
        tally["tables"] += 1
        tally["bytes"] += len(table)
        tally["rows"] += sum(len(rows) for _, rows in parts[2])
        if n % every:
            continue
        bad = damaged(rng, table)
        shown = run("tableshow", bad)
        if shown.startswith(b"layout ") != well_formed(bad) or not shown.startswith((b"layout ", b"byte ")):
            fail(n, "a damaged table was misjudged", table=bad, printed=shown[:200])
        strange = damaged_text(rng, other.decode() if rng.random() < 0.5 else text.decode())
        answer, printed = read_text(strange), run("tablemake", strange.encode())
        if isinstance(answer, bytes):
            right = printed == b"table %d\n" % len(answer) + answer
        else:
            right = printed == answer.encode()
        if not right:
            fail(n, "a damaged text was misjudged", text=strange, answer=answer, printed=printed[:200])
        tally["damaged"] += 1
        tally["broken"] += not shown.startswith(b"layout ")
        tally["texts"] += 3
        tally["refused"] += not isinstance(answer, bytes)
    print("tables: %(tables)d tables (%(bytes)d bytes, %(rows)d rows) shown and made again from their text; %(damaged)d of them from another spelling too; as many damaged ones judged as document 01 "
          "does, %(broken)d of them broken; as many damaged texts, %(refused)d refused, each at its line and with its reason" % tally)


if __name__ == "__main__":
    main()
