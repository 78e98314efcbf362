#!/usr/bin/env python3
"""Makes the example streams of this folder. README.md says what each holds.

For each Blob NAME.blob it also writes NAME.input: the code table's length, data/access2000.codes, the Blob,
as formlist reads them. With a folder as its argument it writes there.
"""
import pathlib
import struct
import sys

HERE = pathlib.Path(__file__).resolve().parent


def u16(n):
    return struct.pack("<H", n)


def u32(n):
    return struct.pack("<I", n)


def text(s):
    return s.encode("utf-16-le")


# ---- Access 2000: an id, a value whose size the id tells, a list of entries

def flag(id):
    return bytes([id])


def byte(id, value):
    return bytes([id, value])


def short(id, value):
    return bytes([id]) + struct.pack("<h", value)


def long(id, value):
    return bytes([id]) + struct.pack("<i", value)


LONG = False  # whether a short length and a list of one entry are spelled with 0xFF too


def sized(id, value):
    length = bytes([len(value)]) if len(value) < 255 and not LONG else b"\xff" + u16(len(value))
    return bytes([id]) + length + value


def entries(items):
    head = b"\xfe" if len(items) == 1 and not LONG else b"\xff" + u16(len(items))
    return head + b"".join(items)


def spelled_long(make):
    global LONG
    LONG = True
    stream = make()
    LONG = False
    return stream


def entry(type_code, properties, inside=None):
    return u16(type_code) + b"".join(properties) + (b"\xfd" if inside is None else entries(inside))


def stream_2000(object_type, properties, top):
    return b"\x13" + bytes(7) + u16(object_type) + b"".join(properties) + entries(top)


FORM, REPORT = 0x96, 0x97
LABEL, OPTION_BUTTON, OPTION_GROUP, TEXT_BOX, COMBO_BOX, TAB_CONTROL, PAGE = 0x64, 0x69, 0x6B, 0x6D, 0x6F, 0x7B, 0x7C
DETAIL, HEADER, FOOTER, PAGE_HEADER, GROUP_HEADER = 0x98, 0x99, 0x9A, 0x9B, 0x9D
GUID = bytes.fromhex("f0e1d2c3b4a5968778695a4b3c2d1e0f")


def label_2000(name, caption, left, top):
    return entry(LABEL, [short(0x60, left), short(0x61, top), sized(0xDC, text(name)), sized(0xDD, text(caption))])


def text_box_2000(name, source, left, top):
    place = [short(0x60, left), short(0x61, top), short(0x62, 1800), short(0x63, 240)]
    return entry(TEXT_BOX, place + [sized(0xDC, text(name)), sized(0xDD, text(source))])


def combo_box_2000(name, source, rows):
    numbers = [short(0x60, 2), short(0x64, 900), long(0x9C, 1)]
    return entry(COMBO_BOX, numbers + [sized(0xDC, text(name)), sized(0xDD, text(source)), sized(0xDF, text(rows))])


def form_2000():
    own = [
        byte(0x30, 1), short(0x63, 7200), long(0x9D, -1), flag(0x2F),
        sized(0xCE, struct.pack("<d", 36526.5)), sized(0xD0, GUID),
        sized(0xD5, b"\x01\x02\x03"),  # jetdb ties no property to 0xD5 of a form
        sized(0xDC, text("Relays")), sized(0xDD, text("Relay room")),
    ]
    controls = [
        label_2000("lblVolt", "Voltage", 60, 120),
        text_box_2000("txtVolt", "Voltage", 900, 120),
        label_2000("lblSign", "Sign \U0001F600", 60, 480),
        text_box_2000("txtSign", "Sign", 900, 480),
        combo_box_2000("cboFeeder", "FeederId", "SELECT Id, Name FROM Feeders"),
        entry(TEXT_BOX, [short(0x60, -15), sized(0xDC, b"\x3d\xd8")]),  # its name is no UTF-16, so it is numbered
    ]
    top = [
        entry(LABEL, [byte(0x38, 34)]),  # a default control: no section and no list, so it isn't reported
        entry(HEADER, [short(0x60, 600), sized(0xDF, text("FormHeader"))], []),
        entry(DETAIL, [short(0x60, 3000), long(0x9C, 0x00C0C0C0), sized(0xDF, text("Detail"))], controls),
        entry(FOOTER, [sized(0xDF, text("FormFooter"))]),
    ]
    return stream_2000(FORM, own, top)


def report_2000():
    own = [flag(0x14), short(0x63, 9000), sized(0xDC, text("Faults")), sized(0xDD, text("Faults by feeder"))]
    top = [
        entry(HEADER, [short(0x60, 500), sized(0xDF, text("ReportHeader"))], [label_2000("lblTitle", "Faults", 0, 0)]),
        entry(PAGE_HEADER, [sized(0xDF, text("PageHeader"))]),
        entry(GROUP_HEADER, [sized(0xDF, text("GroupHeader0"))], [text_box_2000("txtFeeder", "Feeder", 0, 0)]),
        entry(DETAIL, [sized(0xDF, text("Detail"))], [
            text_box_2000("txtAt", "FaultAt", 0, 0),
            text_box_2000("txtText", "=Left([Remark],40)", 2000, 0),
        ]),
        entry(FOOTER, [sized(0xDF, text("ReportFooter"))]),
    ]
    return stream_2000(REPORT, own, top)


def named_2000(type_code, name, inside=None):
    return entry(type_code, [sized(0xDC, text(name))], inside)


def panel_2000(bound=True):
    bus_b = text_box_2000("txtVoltB", "VoltB", 900, 120) if bound else named_2000(TEXT_BOX, "txtVoltB")
    feeders = named_2000(OPTION_GROUP, "grpFeeder", [named_2000(OPTION_BUTTON, "optNorth"), named_2000(OPTION_BUTTON, "optSouth")])
    buses = named_2000(TAB_CONTROL, "tabBus", [
        named_2000(PAGE, "pagBusA", [label_2000("lblVoltA", "Bus A", 60, 120), text_box_2000("txtVoltA", "VoltA", 900, 120)]),
        named_2000(PAGE, "pagBusB", [bus_b]),
    ])
    top = [
        entry(LABEL, []),  # not reported
        entry(HEADER, [sized(0xDF, text("FormHeader"))], [label_2000("lblTitle", "Rectifiers", 60, 60)]),
        entry(DETAIL, [sized(0xDF, text("Detail"))], [feeders, buses, text_box_2000("txtNote", "Note", 900, 2400)]),
    ]
    return stream_2000(FORM, [sized(0xDC, text("Rectifiers"))], top)


# ---- later: properties with a type and a trailer; the last trailer of a group tells how many nodes follow

def group(properties, children):
    last = {0: 253, 1: 254}.get(len(children), 255)
    out = b""
    for n, (id, kind, value) in enumerate(properties):
        trailer = last if n + 1 == len(properties) else n + 1
        out += u16(id) + u32(kind) + u32(0) + u32(len(value)) + value + u32(trailer)
    if last == 255:
        out += u16(len(children))
    return out + b"".join(children)


def node(type_code, properties, children=()):
    return u16(type_code) + u32(0) + group(properties, children)


def name(s):
    return (0x0014, 0x0A, text(s))


def source(s):
    return (0x001B, 0x0A, text(s))


def later_nodes():
    page = node(PAGE, [name("pagState"), (0x0011, 0x0A, text("State"))], [
        node(TEXT_BOX, [(0x0036, 0x02, struct.pack("<h", 300)), name("txtState"), source("State")]),
    ])
    detail = node(DETAIL, [(0x002C, 0x02, struct.pack("<h", 3000)), name("Detail")], [
        node(LABEL, [name("lblVolt"), (0x0011, 0x0A, text("Voltage")), (0x0094, 0x01, b"\x00")]),
        node(TEXT_BOX, [(0x0094, 0x01, b""), name("txtVolt"), source("Voltage"), (0x0008, 0x04, struct.pack("<i", -2147483633))]),
        node(COMBO_BOX, [name("cboFeeder"), source("FeederId"), (0x005B, 0x0A, text("SELECT Id, Name FROM Feeders"))]),
        node(TAB_CONTROL, [name("tabMore")], [page]),
        node(TEXT_BOX, [(0x0014, 0x0A, b"odd"), source("Loose")]),  # three bytes are no UTF-16
    ])
    return [node(TEXT_BOX, [(0x0023, 0x01, b"\x09")]), detail]


def later(behind=b""):
    own = [
        (0x009C, 0x0A, text("Relays")), (0x0096, 0x02, struct.pack("<h", 7200)), (0x016C, 0x08, struct.pack("<d", 36526.5)),
        (0x01D0, 0x06, struct.pack("<f", 1.5)), (0x0178, 0x09, GUID), (0x00BD, 0x0B, bytes(range(8))), (0x0013, 0x01, b""),
    ]
    return b"\x01" + bytes(13) + group(own, later_nodes()) + behind


# ---- TypeInfo: a header, then entries with two names each

def item(type_code, index, prefix, real=b"", tail=b""):
    return u16(type_code) + u16(0) + u32(index) + prefix + b"\0" + real + b"\0" + tail


def type_info_of(items):
    return bytes.fromhex("f7eacdac") + u32(1) + u32(0) + u32(len(items)) + bytes(16) + b"".join(items)


def type_info():
    return type_info_of([
        item(0x1898, 0, b"Detail"),
        item(0x126D, 1, b"txtVolt"),
        item(0x0C64, 2, b"Sign__text_", b"Sign (text)"),
        item(0x1B77, 3, b"spnStep", tail=bytes(36)),  # an ActiveX control: 36 bytes more
        item(0x1EFF, 4, b"internal"),                 # not reported
        item(0x136F, 5, b"K\xfcche"),
    ])


def later_type_info():
    """The controls of later-scan, in another order. Two names have other capitals, pagState is missing, and the last name lost its NUL."""
    return type_info_of([
        item(0x136F, 4, b"CBOFEEDER"),
        item(0x0C64, 2, b"lblVolt"),
        item(0x126D, 3, b"txtVolt"),
        item(0x1898, 0, b"Detail"),
        item(0x007B, 5, b"tabMore"),
        item(0x126D, 6, b"Odd"),
        item(0x126D, 7, b"txtState"),
    ])[:-2]


# ---- code tables of three offices: north and south have rows in common, and what east has for a label's 61 south has otherwise

NUMBER, TEXT = 0, 1
FORM_SCOPE, ENTRY_SCOPE = 0, 2


def codes(scopes, layout=0x13, header=(0x0099, 0x009A)):
    head = bytes([layout, len(header)]) + u16(len(scopes)) + b"".join(map(u16, header))
    contents = b"".join(bytes([kind]) + u16(code) + u16(len(rows)) for kind, code, rows in scopes)
    return head + contents + b"".join(bytes([id]) + u16(target) + bytes([kind]) for _, _, rows in scopes for id, target, kind in rows)


OFFICES = {
    "north": codes([
        (FORM_SCOPE, 0, [(0xDC, 0x009C, TEXT), (0xDD, 0x0011, TEXT)]),
        (ENTRY_SCOPE, LABEL, [(0x60, 0x0036, NUMBER), (0xDC, 0x0014, TEXT), (0xDD, 0x0011, TEXT)]),
    ]),
    "south": codes([
        (ENTRY_SCOPE, LABEL, [(0x60, 0x0036, NUMBER), (0x61, 0x008D, NUMBER), (0xDC, 0x0014, TEXT)]),
        (ENTRY_SCOPE, TEXT_BOX, [(0xDC, 0x0014, TEXT), (0xDD, 0x001B, TEXT)]),
    ]),
    "east": codes([(ENTRY_SCOPE, LABEL, [(0x60, 0x0036, NUMBER), (0x61, 0x002C, NUMBER)])]),
}


# ---- the auditor's case: a text box whose ControlSource code the older code table lacks

COMMAND_BUTTON, IMAGE = 0x68, 0x67


def placed(type_code, left, top, width, height, *texts):
    return entry(type_code, [short(0x60, left), short(0x61, top), short(0x62, width), short(0x63, height)] + [sized(id, text(s)) for id, s in texts])


def caption_2000(name, caption, left, top, width=2400):
    return placed(LABEL, left, top, width, 300, (0xDC, name), (0xDD, caption))


def button_2000(name, caption, left, top):
    return placed(COMMAND_BUTTON, left, top, 1800, 420, (0xDC, name), (0xDD, caption))


def section_2000(type_code, name, height, inside):
    return entry(type_code, [short(0x60, height), sized(0xDF, text(name))], inside)


def screen_2000(title, source, controls):
    top = [
        section_2000(HEADER, "FormHeader", 600, [caption_2000("lblTitle", title, 180, 150, 6000)]),
        section_2000(DETAIL, "Detail", 3000, controls),
        section_2000(FOOTER, "FormFooter", 720, [button_2000("cmdAck", "Acknowledge", 180, 150), button_2000("cmdTest", "Lamp test", 2160, 150)]),
    ]
    return stream_2000(FORM, [short(0x63, 7800), sized(0xDC, text(source)), sized(0xDD, text(title))], top)


def rectifiers_2000():
    return screen_2000("Rectifier hall, bus B", "Rectifiers", [
        placed(IMAGE, 180, 180, 2400, 2400, (0xDC, "imgMimic")),
        caption_2000("lblVolts", "Voltage of bus B", 2880, 240),
        placed(TEXT_BOX, 5400, 240, 1800, 300, (0xDC, "txtVolts"), (0xDD, "BusB_Volts")),
        caption_2000("lblCharge", "Battery charging", 2880, 720),
        caption_2000("lblFault", "Rectifier fault", 2880, 1200),
        button_2000("cmdTrend", "Trend", 2880, 1800),
    ])


def feeders_2000():
    return screen_2000("Feeders", "Feeders", [
        caption_2000("lblNorth", "Feeder north", 180, 240),
        caption_2000("lblSouth", "Feeder south", 180, 720),
        button_2000("cmdNorth", "Open north", 2880, 180),
        button_2000("cmdSouth", "Open south", 2880, 660),
    ])


def rows_of(table):
    """The scopes of a code table: kind, code, rows."""
    headers, count = table[1], struct.unpack_from("<H", table, 2)[0]
    at = 4 + 2 * headers
    body, scopes = at + 5 * count, []
    for n in range(count):
        kind, code, rows = struct.unpack_from("<BHH", table, at + 5 * n)
        scopes.append((kind, code, [struct.unpack_from("<BHB", table, body + 4 * k) for k in range(rows)]))
        body += 4 * rows
    return scopes


def auditor(table):
    """The files of examples/auditor: the newer table is data/access2000.codes, the older one lacks DD of a text box."""
    older = [(kind, code, [row for row in rows if (code, row[0]) != (TEXT_BOX, 0xDD)]) for kind, code, rows in rows_of(table)]
    return {
        "older.codes": codes(older), "newer.codes": table,
        "rectifiers.blob": rectifiers_2000(), "feeders.blob": feeders_2000(), "signals.blob": later(),
    }


def main():
    folder = pathlib.Path(sys.argv[1]) if len(sys.argv) > 1 else HERE
    table = (HERE.parent / "data" / "access2000.codes").read_bytes()
    blobs = {"form-2000": form_2000(), "panel-2000": panel_2000(), "report-2000": report_2000(), "later-tree": later(), "later-scan": later(b"\0")}
    for title, blob in blobs.items():
        (folder / f"{title}.blob").write_bytes(blob)
        (folder / f"{title}.input").write_bytes(u32(len(table)) + table + blob)
    (folder / "panel-2000.long").write_bytes(spelled_long(panel_2000))  # ./oskuramos rewrite makes panel-2000.blob of it
    (folder / "panel-2000.unbound").write_bytes(panel_2000(bound=False))  # ./oskuramos check says no
    (folder / "form.typeinfo").write_bytes(type_info())
    (folder / "later-scan.typeinfo").write_bytes(later_type_info())
    (folder / "cut.typeinfo").write_bytes(type_info()[:-4])  # a copy that lost its tail, within the last name
    (folder / "auditor").mkdir(exist_ok=True)
    for title, data in auditor(table).items():
        (folder / "auditor" / title).write_bytes(data)
    for office, table in OFFICES.items():
        (folder / f"{office}.codes").write_bytes(table)


if __name__ == "__main__":
    main()
