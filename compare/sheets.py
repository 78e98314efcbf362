#!/usr/bin/env python3
"""Reads each text of a file by Python's csv module, and holds its fields against those that stand beside it. A line has the text, a blank, and the records:
fields in hex, a comma between two of them and a semicolon between two records."""
import csv
import io
import sys


def records(text):
    return list(csv.reader(io.StringIO(text.decode("latin-1"), newline=""), strict=True))


def main():
    count = fields = 0
    with open(sys.argv[1]) as lines:
        for line in lines:
            text, read = line.rstrip("\n").split(" ")
            text = bytes.fromhex(text)
            must = [[bytes.fromhex(field).decode("latin-1") for field in record.split(",")] for record in read.split(";")]
            found = records(text)
            if found != must:
                print(f"sheets.py: {text!r}\nis read as {found!r}\nmust be {must!r}")
                return 1
            count += 1
            fields += sum(map(len, must))
    print(f"{count} texts, {fields} fields: the same by Python's csv module")
    return 0


sys.exit(main())
