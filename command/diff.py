"""The words, the comma-separated text and the page of ./oskuramos diff. Plain code: what differs comes from the proved programs.

Called by command/diff.sh as diff.py ROOT SCRATCH FORM ANYWAY PAGE OLDER OLDER_FILE NEWER NEWER_FILE BLOBS. The folder SCRATCH has what the programs
said: the texts of both tables, whether the newer is a successor, and for each form the lines of `difflist`, or the listings of both tables.
Exit status: 0 no form differs, 10 some do.
"""
import hashlib
import os
import pathlib
import struct
import sys

sys.dont_write_bytecode = True
import diffpage  # noqa: E402  (beside this file)

ROOT, SCRATCH = pathlib.Path(sys.argv[1]), pathlib.Path(sys.argv[2])
SOME_DIFFER = 10
PROPERTIES, ROWS = ("property", "properties"), ("row", "rows")
MOST_BYTES = 32  # of a value's bytes no more are shown in words


# ---- names

def names_of(table):
    lines = (ROOT / "data" / "names" / f"{table}.txt").read_text().split("\n")
    return {int(line[:4], 16): line[5:] for line in lines if line}


TYPE_NAMES = names_of("control-type")
NUMBER_NAMES, TEXT_NAMES, BYTES_NAMES = names_of("number"), names_of("text"), names_of("bytes")
KINDS = ["bool", "notdefault", "short", "long", "double", "guid", "text", "binary", "loose"]


def property_name(mark, id):
    names = NUMBER_NAMES if mark <= 4 else TEXT_NAMES if mark in (6, 8) else BYTES_NAMES
    return names.get(id, f"{id:04X}")


def type_name(code):
    return TYPE_NAMES.get(code, f"type {code:04X}")


# ---- code tables, by their text

class Table:
    """A code table: what each scope and id is tied to."""

    def __init__(self, name, file, text):
        self.name = name
        self.sha = hashlib.sha256(pathlib.Path(file).read_bytes()).hexdigest()
        self.rows, scope = {}, None
        for line in text.split("\n"):
            word = line.partition(" ")[0]
            if word in ("form", "report", "entry"):
                scope = scope_words(line)
            elif word not in ("", "layout", "header"):
                self.rows[scope, word] = row_in(line)


def scope_words(line):
    """The line of a scope, its type's name in brackets."""
    said, _, remark = line.partition("  # ")
    return said + (f" ({remark})" if remark else "")


def row_in(line):
    """The line of a row: target, kind, the target's name. `none` is no row."""
    said, _, remark = line.partition("  # ")
    return None if said == "none" else (*said.split()[1:], remark)


def row_words(row):
    """What a row ties a code to: the target's name, its number and kind."""
    if row is None:
        return "has no row"
    target, kind, name = row
    return f"is {name or 'a property without a name'} ({target}, {kind})"


def learnt(older, newer):
    return [(scope, code, row) for (scope, code), row in newer.rows.items() if (scope, code) not in older.rows]


def first_lost(lines):
    """The first row of the older table that the newer hasn't, by the proved program's lines: scope, code, the older's row, the newer's or None."""
    return scope_words(lines[0]), lines[1].split()[0], row_in(lines[1]), row_in(lines[2])


def lost(older, newer):
    """All of these rows, by the texts of the tables."""
    return [(scope, code, row, newer.rows.get((scope, code))) for (scope, code), row in older.rows.items() if newer.rows.get((scope, code)) != row]


# ---- values, by mark and bytes

def hex_bytes(data):
    shown = data[:MOST_BYTES].hex(" ").upper()
    return shown + (" .." if len(data) > MOST_BYTES else "")


def quoted(text):
    """Text in quotes on one line: what isn't a printing sign is escaped."""
    out = "".join(c if c.isprintable() and c not in '"\\' else escaped(c) for c in text)
    return f'"{out}"'


def escaped(c):
    return "\\" + c if c in '"\\' else f"\\u{ord(c):04X}" if ord(c) < 0x10000 else f"\\U{ord(c):08X}"


def file_name(name):
    """A file's name on one line: a byte that isn't UTF-8, a sign that doesn't print and a backslash are escaped."""
    return "".join(f"\\x{ord(c) - 0xDC00:02X}" if 0xDC80 <= ord(c) <= 0xDCFF else c if c.isprintable() and c != "\\" else escaped(c) for c in name)


def guid(data):
    a, b, c = struct.unpack("<IHH", data[:8])
    return f"{{{a:08X}-{b:04X}-{c:04X}-{data[8:10].hex().upper()}-{data[10:].hex().upper()}}}"


def value(mark, data):
    """A value as a reader wants it: a number, a text, or bytes in hex."""
    if mark == 1:
        return ""
    if mark in (2, 3):
        return str(int.from_bytes(data, "little", signed=len(data) > 1))
    if mark == 4:
        return repr(struct.unpack("<d", data)[0])
    if mark == 5:
        return guid(data)
    if mark == 6:
        return data.decode("utf-16-le")
    return data.hex().upper()


def value_words(kind, shown):
    if kind == "notdefault":
        return "set (not at its default)"
    if kind == "text":
        return f"text {quoted(shown)}"
    if kind == "binary":
        return f"bytes {hex_bytes(bytes.fromhex(shown))}" if shown else "no bytes"
    return f"{kind} {shown}"


# ---- what differs

class Difference:
    """A property that comes out otherwise. `older` and `newer` are what the tables show, in words."""

    def __init__(self, **words):
        self.__dict__.update(words)


class Form:
    def __init__(self, number):
        self.number = number
        self.name = said(f"name.{number}")
        self.data = pathlib.Path(said(f"taken.{number}")).read_bytes()
        self.differences, self.remark = [], ""
        self.rows, self.what = 0, PROPERTIES  # how many there are to differ, and of what


def said(file):
    return (SCRATCH / file).read_bytes().decode("utf-8", "surrogateescape")


def control_name(data, mark, start, size):
    if mark == 1:
        return f"Control_{start}"
    name = data[start:start + size]
    return name.decode("utf-16-le") if mark == 0 else name.decode("latin-1")


def difference(data, words):
    """A D line: ten words of the property, four of its control where it has one."""
    _, control, code, kind, _, older, newer, mark, start, size = words[:10]
    own = len(words) == 10
    stored = data[start:start + size]
    shown = value(mark, stored)
    return Difference(
        control=None if own else control,
        type=None if own else words[10],
        name=("the form itself" if kind == 0 else "the report itself") if own else control_name(data, *words[11:]),
        property=property_name(mark, newer), code=f"{code:02X}", id=f"{newer:04X}", kind=KINDS[mark], value=shown, bytes=stored.hex().upper(), start=start, length=size,
        older=f"code {code:02X} without a meaning ({older:04X}), " + (f"bytes {hex_bytes(stored)}" if stored else "no bytes"),
        newer=value_words(KINDS[mark], shown))


def by_program(form):
    lines = said(f"differ.{form.number}").split("\n")
    form.rows = int(lines[0].split()[3])
    form.differences = [difference(form.data, [int(w) for w in line.split()[1:]]) for line in lines if line.startswith("D ")]


# ---- what differs anyway, by two listings

def listed(form, table):
    """The C and P lines of a listing as words, and the records of the comma-separated text: these have the values whole."""
    lines = [line.split() for line in said(f"{table}.list.{form.number}").split("\n")]
    printed = said(f"{table}.csv.{form.number}")
    records = fields_of(printed.partition("\n")[2])[1:] if printed.startswith("answer 0 ") else []
    return [w for w in lines if w[:1] == ["C"]], [w for w in lines if w[:1] == ["P"]], records


def owners(controls, rows):
    """For each property row the control that it belongs to, or None for the object's own."""
    out = [None] * rows
    for words in controls:
        first, count = int(words[5]), int(words[6])
        out[first:first + count] = [words] * count
    return out


def names_in(records):
    """The name of each control that has one, by its number as the records have it."""
    out = {}
    for control, _, name, _, shown in records:
        if name == "Name":
            out.setdefault(control, shown)
    return out


def value_in(record):
    """A record's value as the lines of `difflist` give it: a flag has none, and a fraction is decimal."""
    kind, shown = record[3:]
    return "" if kind == "notdefault" else repr(struct.unpack(">d", bytes.fromhex(shown))[0]) if kind == "double" else shown


def shown_row(words, record):
    """A P line in words, with the value of its record."""
    id, name, kind = words[2:5]
    what = f"{name} ({id})" if name != "-" else f"code {id[2:]} without a meaning ({id})" if id >= "8000" else id
    return f"{what}, {value_words(kind, value_in(record))}"


def control_parts(words):
    """What a C line says of a control, part by part."""
    return {
        "type": f"type {words[2]} ({words[3]})",
        "name": "no name" if words[4] == "-" else f"a name of length {words[4]}",
        "properties": f"{many(int(words[6]), *PROPERTIES)} from row {words[5]} on",
        "nesting": f"level {words[7]}, " + ("in no control" if words[8] == "-" else f"in control {words[8]}")}


def by_listings(form):
    old_controls, old_rows, old_records = listed(form, "older")
    new_controls, new_rows, new_records = listed(form, "newer")
    form.rows, form.what = len(new_controls) + len(new_rows), ROWS
    if len(old_controls) != len(new_controls) or len(old_rows) != len(new_rows):
        form.remark = (f"read otherwise as a whole: {len(old_controls)} controls and {len(old_rows)} properties under the older table,"
                       f" {len(new_controls)} and {len(new_rows)} under the newer")
        return
    if len(old_records) != len(old_rows) or len(new_records) != len(new_rows):
        sys.exit(f"oskuramos: the listing of {form.name} and its comma-separated text haven't as many rows")
    names = names_in(new_records)
    names[None] = "the report itself" if form.data[8:9] == b"\x97" else "the form itself"
    for old, new in zip(old_controls, new_controls):
        if old[2:] != new[2:]:
            older, newer = control_parts(old), control_parts(new)
            parts = [part for part in newer if older[part] != newer[part]]
            older, newer = ("; ".join(said_of[part] for part in parts) for said_of in (older, newer))
            form.differences.append(anyway(names, new, ", ".join(parts), "", "control", newer, older, newer))
    for old, new, old_record, new_record, control in zip(old_rows, new_rows, old_records, new_records, owners(new_controls, len(new_rows))):
        if old[2:] != new[2:] or old_record[2:] != new_record[2:]:
            name = next((word for word in (new[3], old[3]) if word != "-"), new[2])
            form.differences.append(anyway(names, control, name, new[2], new[4], value_in(new_record), shown_row(old, old_record), shown_row(new, new_record)))


def anyway(names, control, property, id, kind, value, older, newer):
    """A row that differs, of the control of a C line, or of the object itself."""
    number = None if control is None else control[1]
    return Difference(
        control=None if control is None else int(number), type=None if control is None else int(control[2], 16), name=names.get(number, f"control {number}"),
        property=property, code="", id=id, kind=kind, value=value, bytes="", start="", length="", older=older, newer=newer)


# ---- words

def many(count, one, more):
    return f"{count:,} {one if count == 1 else more}"


def verdict(forms, unread):
    differing = sum(1 for form in forms if form.differences or form.remark)
    what = forms[0].what if forms else PROPERTIES
    counts = f"in {sum(len(form.differences) for form in forms):,} of {many(sum(form.rows for form in forms), *what)}"
    if not forms:
        out = "No form was read"
    elif not differing:
        out = "The form doesn't come out otherwise" if len(forms) == 1 else f"None of {len(forms):,} forms comes out otherwise"
    elif len(forms) == 1:
        out = f"The form comes out otherwise, {counts}"
    else:
        out = f"{differing:,} of {len(forms):,} forms {'comes' if differing == 1 else 'come'} out otherwise, {counts}"
    more = f"; {many(len(unread), 'file', 'files')} couldn't be read or {'was' if len(unread) == 1 else 'were'} refused" if unread else ""
    return out + more + "."


def table_lines(older, newer, successor):
    """What the newer table has learnt, and whether demand 3 applies; `successor` is what the proved program said of the tables."""
    new = learnt(older, newer)
    yield f"The newer table has learnt {many(len(new), 'code', 'codes')}{':' if new else '.'}"
    for scope, code, row in new:
        yield f"  {scope}: {code} {row_words(row)}"
    if successor[0].startswith("answer 0 "):
        yield "It has every row of the older one, so demand 3 applies: only properties with a code that it has learnt can come out otherwise."
        return
    yield "It is no successor of the older one, so demand 3 doesn't speak of these tables:"
    rows = lost(older, newer)
    if successor[1].startswith("layout "):
        yield f"  the heads differ: older {successor[1]}; newer {successor[2]}"
    else:
        first = first_lost(successor[1:])
        rows = [first] + [row for row in rows if row != first]
    for scope, code, row, other in rows:
        yield f"  {scope}: {code} {row_words(row)}; in the newer table it {row_words(other)}"


def where(d):
    return d.name if d.control is None else f"control {d.control} {quoted(d.name)[1:-1]} ({type_name(d.type)})"


def form_lines(form):
    if form.remark:
        yield f"{file_name(form.name)}: {form.remark}"
        return
    yield f"{file_name(form.name)}: {len(form.differences):,} of {many(form.rows, *form.what)} {'differs' if len(form.differences) == 1 else 'differ'}"
    for d in form.differences:
        yield f"  {where(d)}: {d.property}"
        yield f"    older: {d.older}"
        yield f"    newer: {d.newer}"


def words(older, newer, successor, forms, unread):
    for word, table in (("older", older), ("newer", newer)):
        yield f"{word}: {file_name(table.name)}, {many(len(table.rows), 'row', 'rows')}, SHA-256 {table.sha}"
    yield from table_lines(older, newer, successor)
    if not forms and not unread:
        return
    for form in forms:
        if form.differences or form.remark:
            yield ""
            yield from form_lines(form)
    yield ""
    for name, _ in unread:
        yield f"{file_name(name)}: couldn't be read or was refused"
    yield verdict(forms, unread)


# ---- comma-separated text, of RFC 4180. Python's own reader refuses a text with NUL before 3.11.

def fields_of(text):
    """The records of a text, each with its fields. Between two quotes that stand together nothing is outside of quotes: they are one quote."""
    out, record, field = [], [], []
    parts = text.split('"')
    for n, part in enumerate(parts):
        if n % 2:
            field.append(part)
        elif part == "" and 0 < n < len(parts) - 1:
            field.append('"')
        else:
            for k, line in enumerate(part.split("\r\n")):
                if k:
                    out.append(record + ["".join(field)])
                    record, field = [], []
                first, *more = line.split(",")
                field.append(first)
                for word in more:
                    record.append("".join(field))
                    field = [word]
    return out


def record_of(fields):
    """A record with its CR LF."""
    return ",".join('"' + f.replace('"', '""') + '"' if any(c in f for c in ',"\r\n') else f for f in map(str, fields)) + "\r\n"


FIELDS = ["file", "control", "control name", "type", "type name", "property", "code", "id", "kind", "value", "bytes", "start", "length", "older shows", "newer shows"]


def records(forms):
    out = [record_of(FIELDS)]
    for form in forms:
        if form.remark:
            out.append(record_of([form.name] + [""] * 4 + ["the whole form"] + [""] * 8 + [form.remark]))
        for d in form.differences:
            own = d.control is None
            type_words = ["", ""] if own else [f"{d.type:04X}", type_name(d.type)]
            out.append(record_of([form.name, "" if own else d.control, d.name] + type_words
                                 + [d.property, d.code, d.id, d.kind, d.value, d.bytes, d.start, d.length, d.older, d.newer]))
    return "".join(out)


def unread_files(blobs, numbers):
    """The files that weren't read: their names, and what was said of them."""
    out = []
    for number in map(str, range(1, blobs + 1)):
        if number not in numbers:
            out.append((said(f"name.{number}"), said(f"why.{number}").strip()))
    return out


def print_all(printed):
    """A reader that has seen enough, such as head(1), is no error."""
    try:
        sys.stdout.buffer.write(printed)
        sys.stdout.buffer.flush()
    except BrokenPipeError:
        os.dup2(os.open(os.devnull, os.O_WRONLY), sys.stdout.fileno())


def main():
    form_of, by_two, page, older, older_file, newer, newer_file, blobs = sys.argv[3:]
    older = Table(older, older_file, said("older.text"))
    newer = Table(newer, newer_file, said("newer.text"))
    successor = said("successor").split("\n")
    numbers = said("forms").split()
    forms = [Form(number) for number in numbers]
    for form in forms:
        (by_listings if by_two else by_program)(form)
    unread = unread_files(int(blobs), set(numbers))
    printed = ""
    if form_of == "csv":
        printed = records(forms)
    elif form_of == "text":
        printed = "".join(line + "\n" for line in words(older, newer, successor, forms, unread))
    print_all(printed.encode("utf-8", "surrogateescape"))
    if page:
        made = diffpage.page(older, newer, verdict(forms, unread), table_lines(older, newer, successor), not by_two, forms, unread, lambda form: listed(form, "newer"), where)
        pathlib.Path(page).write_text(made, encoding="utf-8")
    sys.exit(SOME_DIFFER if any(form.differences or form.remark for form in forms) else 0)


if __name__ == "__main__":
    main()
