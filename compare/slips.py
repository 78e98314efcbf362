#!/usr/bin/env python3
"""Shows that the comparison sees slips: each edit below puts one into the plain reader, and jetdb must then differ, or for wishes 8 and 9 document 02 read once more.

Works on a copy of this folder; takes some minutes. Prints a line for each slip; fails if one isn't seen.
"""
import os
import pathlib
import shutil
import subprocess
import sys
import tempfile

HERE = pathlib.Path(__file__).resolve().parent
ROOT = HERE.parent

SLIPS = [
    # file, what is there, what is put in its place
    ("access2000", "const LEVELS: usize = 256;", "const LEVELS: usize = 255;"),
    ("access2000", "s[8] == 0x97", "s[8] != 0x96"),
    ("access2000", "|| entry.has_list", ""),
    ("access2000", "(0x98..=0x9E)", "(0x98..=0x9D)"),
    ("access2000", "n => (at + 2, n as usize)", "0xFE => (at + 2, 1),\n            n => (at + 2, n as usize)"),
    ("access2000", "{ 0xDF } else { 0xDC }", "{ 0xDC } else { 0xDF }"),
    ("access2000", "entry.run.iter().find(|p| p.id == wanted)", "entry.run.iter().rfind(|p| p.id == wanted)"),
    ("access2000", "0x8000 | p.id", "0x4000 | p.id"),
    ("access2000", "{ 0x1900 }", "{ 0x1800 }"),
    ("access2000", "(1, _) if is_utf16(bytes)", "(1, _)"),
    ("access2000", "start: p.start,\n        length: p.length,", "start: p.start + (p.length == 0) as usize,\n        length: p.length,"),
    ("access2000", "(pos == s.len())", "(pos <= s.len())"),
    ("access2000", "0x30..=0x7F => value::short", "0x30..=0x6F => value::short"),
    ("later", "const LEVELS: usize = 256;", "const LEVELS: usize = 255;"),
    ("later", "node.children > 0", "node.children > 1"),
    ("later", "scan(s, own.stop)", "scan(s, 14)"),
    ("later", "if (253..=255)", "if (253..=254)"),
    ("later", "(0x01 | 0x03 | 0x04, 1 | 2 | 4)", "(0x03 | 0x04, 1 | 2 | 4)"),
    ("later", "-0x8000..=0x7FFF", "-0x8000..=0xFFFF"),
    ("later", "group(s, from, end)", "group(s, from, end.max(s.len()))"),
    ("later", "text(properties.first()?)", "text(properties.last()?)"),
    ("later", "[6, 8].contains", "[6, 9].contains"),
    ("later", "(0x0A | 0x0C, _) if is_utf16(bytes)", "(0x0A, _) if is_utf16(bytes)"),
    ("access2000", "level: entry.level,", "level: entry.level.min(2),"),
    ("later", "level: node.level,", "level: node.level.min(2),"),
    ("mod", "above.truncate(control.level);", "above.truncate(control.level.max(1));"),
    ("value", "0xDC..=0xDF => return false", "0xDC..=0xDE => return false"),
    ("value", "let mut exponent = 1023 - 126;", "let mut exponent = 1023 - 127;"),
    ("value", "if v >= 0x8000 {", "if v > 0x8000 {"),
    ("typeinfo", "{ 36 }", "{ 35 }"),
    ("typeinfo", "type_code % 256 == 0x77", "type_code == 0x77"),
    ("typeinfo", "if second_length > 0", "if second_length > 1"),
    ("typeinfo", "{ (at + 8, first_length) }", "{ (second.min(s.len() - first_length), first_length) }"),
    ("typeinfo", "(s.len() - 32) / 8", "(s.len() - 31) / 8"),
    ("typeinfo", "s.get(start + length) != Some(&0)", "s.get(start + length).is_none() && second_length > 0"),
    ("typeinfo", "while all.len() < count", "while all.iter().filter(|e: &&Entry| e.type_code != 0x1EFF).count() < count"),
    ("join", "(one.layout, &one.header) != (other.layout, &other.header)", "one.header != other.header"),
    ("join", "said.len() > 1", "said.len() > 2"),
    ("join", "all.len() > MOST_SCOPES", "all.len() >= MOST_SCOPES"),
    ("join", "bytes.len() > room", "bytes.len() >= room"),
    ("join", "insert((row.target, row.kind))", "insert((row.target, 0))"),
    ("readers", "stream.first() != Some(&codes.layout)", "stream.first().is_some_and(|first| *first != codes.layout)"),
    ("readers", "Codes::parse(table) else { return refusal(8) };", "Codes::parse(table).filter(|c| stream.first() == Some(&c.layout)) else { return refusal(15) };"),
    ("readers", "map_or(refusal(4),", "map_or(refusal(15),"),
    ("readers", "u32::from(first) == layout", "first == layout as u8"),
    ("readers", "rows(&later::reading(stream))", "rows(&later::reading(&stream[stream.len().min(1)..]))"),
]


def is_seen(copy, environment):
    build = ["cargo", "build", "--profile", "slips", "--offline", "--quiet"]
    subprocess.run(build, cwd=copy / "compare", env=environment, check=True)
    program = pathlib.Path(environment["CARGO_TARGET_DIR"]) / "slips" / "compare"
    for words in (["random", "1", "10000"], ["joins", "2000", "1"], ["readers", "2000", "1"], ["all", "2"]):
        run = subprocess.run([program, *words], stdout=subprocess.PIPE, stderr=subprocess.STDOUT, text=True)
        if run.returncode != 0:
            return run.stdout
    return None


def try_slip(copy, environment, name, old, new):
    path = copy / "compare" / "src" / "plain" / f"{name}.rs"
    text = path.read_text()
    if text.count(old) != 1:
        sys.exit(f"{name}: `{old}` stands {text.count(old)} times")
    path.write_text(text.replace(old, new))
    seen = is_seen(copy, environment)
    path.write_text(text)
    print("seen  " if seen else "UNSEEN", name, old.split("\n")[0], "->", new.split("\n")[0], flush=True)
    return seen


def main():
    with tempfile.TemporaryDirectory() as folder:
        copy = pathlib.Path(folder) / "copy"
        shutil.copytree(HERE, copy / "compare", ignore=shutil.ignore_patterns("target"))
        for used in ("examples", "crates/rules"):
            shutil.copytree(ROOT / used, copy / used)
        source = os.environ.get("JETDB_SRC") or "../shared/docs/src/crates/jetdb/src"
        environment = dict(os.environ, JETDB_SRC=str((ROOT / source).resolve()), CARGO_TARGET_DIR=str(pathlib.Path(folder) / "target"), RUSTFLAGS="-Awarnings")
        results = [try_slip(copy, environment, *slip) for slip in SLIPS]
    print(f"{sum(map(bool, results))} of {len(SLIPS)} slips seen")
    return 0 if all(results) else 1


if __name__ == "__main__":
    sys.exit(main())
