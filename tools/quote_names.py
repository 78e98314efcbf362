#!/usr/bin/env python3
"""Quotes two aliases before port.py runs, in the checkout's top folder.

port.py takes a folder in which a name of the kit's library stands in snake case for one that is turned already, and skips half of its steps. Two functions of
this repository, entry_value and room_for, are called as lemmas of the kit are; quoted, they are not read.
"""

PATH = "crates/calls/specs/Functions.antt"
with open(PATH, encoding="utf-8") as f:
    text = f.read()
for name in ("entry_value", "room_for"):
    text = text.replace(f" as {name}\n", f" as \u00ab{name}\u00bb\n")
with open(PATH, "w", encoding="utf-8") as f:
    f.write(text)
