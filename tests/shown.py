#!/usr/bin/env python3
"""Holds what ./oskuramos show --json prints against the other verbs: tests/shown.py FILE..

Every line must be JSON with the fields of docs/FORMAT.md and nothing else. Answers, rows, ids, kinds and codes must be those of
./oskuramos list, values those of ./oskuramos csv, names and nesting those that the lines of ./oskuramos show have."""
import json
import math
import pathlib
import re
import struct
import subprocess
import sys

ROOT = pathlib.Path(__file__).resolve().parent.parent
KINDS = "bool notdefault short long double guid text binary loose".split()


def run(*words):
    done = subprocess.run([str(ROOT / "oskuramos")] + list(words), stdout=subprocess.PIPE, stderr=subprocess.DEVNULL)
    if done.returncode > 1:
        sys.exit("shown: %s came to %d" % (words[0], done.returncode))
    return done.stdout


def refuse_constant(word):
    raise ValueError("%s is no JSON" % word)


def read(line):
    return json.loads(line.decode("utf-8", "strict"), parse_constant=refuse_constant)


def records(text):
    """The records of comma-separated text, without its header."""
    all, record, field, at = [], [], "", 0
    for part in re.finditer(r'"((?:[^"]|"")*)"|([^",\r\n]+)|(,)|(\r\n)', text, re.DOTALL):
        assert part.start() == at
        at = part.end()
        if part.group(1) is not None:
            field = part.group(1).replace('""', '"')
        elif part.group(2) is not None:
            field = part.group(2)
        else:
            record.append(field)
            field = ""
            if part.group(4):
                all.append(record)
                record = []
    return all[1:]


def stored(shown):
    """A property's value as ./oskuramos csv writes it; of bytes only those that are shown."""
    kind, value = shown["kind"], shown["value"]
    if kind == "bool":
        return {True: "yes", False: "no"}[value]
    if kind == "double":
        bits = struct.pack(">Q", int(shown["bits"], 16))
        number = struct.unpack(">d", bits)[0]
        assert (value is None) == (not math.isfinite(number)), shown
        assert value is None or struct.pack(">d", float(value)) == bits, shown
        return shown["bits"]
    if kind in ("binary", "loose"):
        assert value is None and len(shown["hex"]) == 2 * min(32, shown["bytes"]), shown
        return shown["hex"]
    if kind == "notdefault":
        assert value is None, shown
        return "-"
    return value if kind in ("text", "guid") else str(value)


def fields(kind, unmapped):
    own = {"double": {"bits"}, "binary": {"bytes", "hex"}, "loose": {"bytes", "hex"}}
    return {"row", "id", "name", "kind", "value"} | own.get(kind, set()) | ({"unmapped"} if unmapped else set())


def hold_properties(shown, first, rows, values, old):
    for place, one in enumerate(shown):
        row = rows[first + place]
        assert one["row"] == first + place == int(row[1]) and one["id"] == row[2] and (one["name"] or "-") == row[3] and one["kind"] == row[4], (one, row)
        unmapped = old and int(row[2], 16) >= 0x8000
        assert set(one) == fields(one["kind"], unmapped), one
        if unmapped:
            assert set(one["unmapped"]) == {"code", "scope"} and one["unmapped"]["code"] == row[2][2:], one
        whole = values[first + place]
        assert stored(one) == (whole[:64] if one["kind"] in ("binary", "loose") else whole), (one, whole)
    return first + len(shown)


def hold_control(one, line):
    assert set(one) == {"number", "code", "type", "level", "parent", "name", "named", "properties"} | ({"bytes", "hex"} if one["named"] == "loose" else set()), one
    assert [str(one["number"]), one["code"], one["type"] or "-"] == line[1:4], (one, line)
    assert [str(one["level"]), "-" if one["parent"] is None else str(one["parent"])] == line[7:9], (one, line)
    size = {"numbered": "-", "loose": "%db" % one.get("bytes", 0)}.get(one["named"]) or str(len(one["name"]))
    assert size == line[4] and int(line[6]) == len(one["properties"]), (one, line)
    if one["named"] == "numbered":
        assert one["name"] == "Control_%d" % one["number"], one


def hold(shown, listed, values):
    """One object against the lines of the listing and the values."""
    answer = listed[0].split()
    assert shown["answer"] == int(answer[1]), shown
    if answer[1] != "0":
        assert set(shown) == {"file", "answer", "why"} | ({"counts"} if answer[1] in ("6", "7") else set()), shown
        return 0
    assert set(shown) == {"file", "answer", "reading", "counts", "object", "controls"}, list(shown)
    controls = [line.split(" ") for line in listed if line.startswith("C ")]
    rows = [line.split(" ") for line in listed if line.startswith("P ")]
    old = shown["reading"].startswith("Access 2000 ")
    assert shown["object"]["kind"] == (shown["reading"].split()[-1] if old else "object"), shown["object"]["kind"]
    at = hold_properties(shown["object"]["properties"], 0, rows, values, old)
    assert at == int(answer[4]) and len(shown["controls"]) == len(controls)
    for one, line in zip(shown["controls"], controls):
        hold_control(one, line)
        at = hold_properties(one["properties"], at, rows, values, old)
    assert at == len(rows)
    unmapped = sum(old and int(row[2], 16) >= 0x8000 for row in rows)
    assert shown["counts"] == {"controls": len(controls), "properties": len(rows), "unmapped": unmapped}, shown["counts"]
    return len(rows)


def flat(shown):
    """The lines of an object, as ./oskuramos show prints names and nesting: (depth, name or key)."""
    yield 0, shown["object"]["kind"]
    for one in shown["object"]["properties"]:
        yield 1, one
    for control in shown["controls"]:
        yield control["level"] + 1, control
        for one in control["properties"]:
            yield control["level"] + 2, one


def hold_lines(shown, lines):
    """One object against the lines for a person."""
    counts = shown["counts"]
    assert lines[0] == "%s, %d controls, %d properties, %d unmapped" % (shown["reading"], counts["controls"], counts["properties"], counts["unmapped"])
    told = list(flat(shown))
    assert len(told) == len(lines) - 1
    for (depth, one), line in zip(told, lines[1:]):
        assert len(line) - len(line.lstrip(" ")) == 2 * depth, line
        line = line.lstrip(" ")
        if isinstance(one, str):
            assert line == one
        elif "number" in one:
            name = one["name"]
            if one["named"] == "text":
                head, name = line.split(' "', 1)
                assert read(('"' + name).encode()) == one["name"], line
            else:
                head = line[: -len(name) - 1] if name else line.split(" loose ")[0]
            assert head == "#%d %s" % (one["number"], one["type"] or "type " + one["code"]), line
        else:
            key, value = line.split(" = ", 1)
            if "unmapped" in one:
                assert key == "!! unmapped code %(code)s of %(scope)s" % one["unmapped"], line
            else:
                assert key == (one["name"] or one["id"]), line
            if one["kind"] == "text":
                assert read(value.encode()) == one["value"], line


def main():
    files = sys.argv[1:]
    shown = run("show", "--json", "--", *files).split(b"\n")
    if shown.pop() != b"" or len(shown) != len(files):
        sys.exit("shown: FAILED: %d lines for %d files" % (len(shown), len(files)))
    read_files, properties = 0, 0
    for file, line in zip(files, shown):
        one = read(line)
        try:
            assert one["file"] == file, one["file"]
            values = [record[4] for record in records(run("csv", "--", file).decode("utf-8"))]
            properties += hold(one, run("list", "--", file).decode().splitlines(), values)
            if one["answer"] == 0:
                hold_lines(one, run("show", "--", file).decode("utf-8").split("\n")[:-1])
                read_files += 1
        except AssertionError as wrong:
            sys.exit("shown: FAILED: %s: %s" % (file, wrong))
    print("shown: %d streams (%d read), %d properties: JSON, lines, listings and comma-separated text say the same" % (len(files), read_files, properties))


main()
