#!/usr/bin/env python3
"""Makes Access 2000 Blobs that break a rule of panels each, in the folder named.

It prints a line for each: the file, the rule, what ./oskuramos check must say of what broke it.
"""
import pathlib
import sys

sys.dont_write_bytecode = True
sys.path.insert(0, str(pathlib.Path(__file__).resolve().parent.parent / "examples"))
import make  # noqa: E402


def form(controls):
    return make.stream_2000(make.FORM, [], [make.entry(make.DETAIL, [make.sized(0xDF, make.text("Detail"))], controls)])


def label(name, properties=()):
    return make.entry(make.LABEL, [*properties, make.sized(0xDC, make.text(name))])


def deep(levels):
    control = make.named_2000(make.PAGE, "deepest")
    for n in range(levels):
        control = make.named_2000(make.PAGE, f"page{n}", [control])
    return control


def box(sources):
    return make.entry(make.TEXT_BOX, [make.sized(0xDC, make.text("txt"))] + [make.sized(0xDD, make.text(s)) for s in sources])


BROKEN = [
    ("no-type", 1, "its type is 0001", [make.named_2000(0x01, "odd")]),
    ("no-name", 2, "is numbered", [make.entry(make.LABEL, [])]),
    ("same-name", 3, "control 1 has this name", [label("lbl"), label("lbl")]),
    ("no-source", 4, "it has none", [box([])]),
    ("two-sources", 4, "it has 2", [box(["A", "B"])]),
    ("no-letters", 4, "it has one that is empty", [box([""])]),
    ("negative", 5, "its Width is short -5", [label("lbl", [make.short(0x62, -5)])]),
    ("deep", 6, "its level is 8", [deep(7)]),
]


def main():
    folder = pathlib.Path(sys.argv[1])
    for title, rule, words, controls in BROKEN:
        (folder / title).write_bytes(form(controls))
        print(title, rule, words)


main()
