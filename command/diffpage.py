"""The page of ./oskuramos diff --html: one file with no script and nothing from elsewhere. Plain code over the lists of diff.py.

A panel is drawn from the newer table's listing: the nesting of its controls, and their Left, Top, Width and Height, in twips, which count from the
section that a control stands in. Sections stand one below the other, and so do the pages of a tab control after the first.
"""
import bisect
import hashlib
import html

TWIPS = 15  # of a twip 1,440 make an inch, and of a pixel 96
FIT = 620  # so wide is a picture at most, in pixels; a wider one has larger marks
GAP, TITLE = 14, 20
BESIDE = 6  # so many marks are told beside the picture, more below it
NOTE = ("<p class='note'>Text in italics is what a control is bound to. Dashed: the listing doesn't have the whole place and size of this control;"
        " one without Left or Top stands at the right.</p>")
PROVED = "Which properties differ is told by a proved program: for these tables the list is complete and right, down to each word."
COMPARED = "The newer table is no successor of the older one, so the listings of the two, each proved, were compared row by row by plain code."
SHORT_LIST = 12  # so many rows of a table stand on the first page
SIZES = {"Label": (1440, 240), "CheckBox": (260, 240), "OptionButton": (260, 240), "CommandButton": (1440, 360), "ToggleButton": (1440, 360),
         "ListBox": (1701, 1417), "Line": (1440, 0), "Image": (1440, 1440), "SubForm": (3402, 1701), "SubReport": (3402, 1701)}
USUAL_SIZE = (1701, 255)
HOLDERS = ("OptionGroup", "TabControl", "Page", "Rectangle")


def safe(text):
    """Text for the page: what isn't a printing sign is a mark, and < > & and quotes are escaped."""
    return html.escape("".join(c if c.isprintable() else "\N{REPLACEMENT CHARACTER}" for c in text))


# ---- the boxes of a form

class Box:
    """A control: its row, type and level from the listing, its place and texts from its properties."""

    def __init__(self, words, values):
        self.row, self.type, self.level = int(words[1]), words[3], int(words[7])
        self.parent = None if words[8] == "-" else int(words[8])
        self.values = values
        self.name = values.get("Name", ("", ""))[1]
        self.left, self.top = self.number("Left"), self.number("Top")
        self.width, self.height = self.number("Width"), self.number("Height")
        self.stored = None not in (self.left, self.top, self.width, self.height)
        self.inside = []

    def number(self, name):
        kind, shown = self.values.get(name, ("", ""))
        return int(shown) if kind in ("short", "long") else None

    def text(self):
        for name in ("ControlSource", "Caption") if self.type in ("TextBox", "ComboBox", "ListBox") else ("Caption", "ControlSource"):
            if name in self.values:
                return self.values[name][1]
        return self.name


def boxes_of(controls, records):
    """The controls of a listing with the first value of each of their properties, and the object's own values."""
    values = {}
    for control, _, name, kind, shown in records:
        values.setdefault(control, {}).setdefault(name, (kind, shown))
    boxes = [Box(words, values.get(words[1], {})) for words in controls]
    for box in boxes:
        if box.parent is not None:
            boxes[box.parent].inside.append(box)
    return boxes, values.get("", {})


def give_sizes(box):
    """What the Blob doesn't say, once those inside have it: a holder is as large as what it holds, another control has a usual size."""
    placed = [c for c in box.inside if c.left is not None and c.top is not None]
    usual = SIZES.get(box.type, USUAL_SIZE)
    if box.type in HOLDERS and placed:
        if box.left is None or box.top is None:
            box.left, box.top = min(c.left for c in placed) - 120, min(c.top for c in placed) - 240
        usual = (max(c.left + c.width for c in placed) + 120 - box.left, max(c.top + c.height for c in placed) + 120 - box.top)
    box.width = max(0, usual[0] if box.width is None else box.width)
    box.height = max(0, usual[1] if box.height is None else box.height)


class Block:
    """A section, or a page of a tab control after the first, with all that is drawn in it."""

    def __init__(self, box, title):
        self.box, self.title, self.boxes = box, title, []


def blocks_of(boxes):
    """Each section's block, and after it those of the pages that would lie over another page. A control comes after the one that holds it."""
    blocks, block_of, paged = [], [], set()
    for box in boxes:
        if box.parent is None:
            block = Block(box, box.name or box.type)
        elif box.type == "Page" and box.parent in paged:
            block = Block(box, f"{box.name or 'page'} of {boxes[box.parent].name or 'the tab control'}")
        else:
            block = block_of[box.parent]
            block.boxes.append(box)
        if block.box is box:
            blocks.append(block)
        elif box.type == "Page":
            paged.add(box.parent)
        block_of.append(block)
    return blocks


class Beside:
    """How far right the boxes go that stand beside the others: from starts[n] down to the next start as far as reach[n]."""

    def __init__(self, edge):
        self.starts, self.reach = [float("-inf")], [edge]

    def put(self, top, end, width):
        """Sets a box right of all that stands from top to end, and gives its Left."""
        first, after = bisect.bisect_right(self.starts, top) - 1, bisect.bisect_left(self.starts, end)
        left = max(self.reach[first:after]) + 180
        starts, reach = [top], [left + width]
        if self.starts[first] < top:
            starts, reach = [self.starts[first]] + starts, [self.reach[first]] + reach
        if after == len(self.starts) or self.starts[after] > end:
            starts, reach = starts + [end], reach + [self.reach[after - 1]]
        self.starts[first:after], self.reach[first:after] = starts, reach
        return left


def set_rest(block):
    """Controls whose Left or Top isn't known stand at the right, beside the others, at their Top where that is known; none over another."""
    beside = Beside(max([b.left + b.width for b in block.boxes if b.left is not None and b.top is not None], default=0))
    low = 0
    for box in block.boxes:
        if box.left is not None and box.top is not None:
            continue
        box.top = low if box.top is None else box.top
        box.left = beside.put(box.top, box.top + max(1, box.height), box.width)
        low = max(low, box.top + box.height + 120)


# ---- the drawing, in pixels

def shape(box, x, y, w, h):
    if box.type == "Line":
        return f'<line class="line" x1="{x}" y1="{y}" x2="{x + w}" y2="{y + h}"/>'
    kind = {"Label": "label", "CommandButton": "button", "ToggleButton": "button", "TextBox": "field", "ComboBox": "field", "ListBox": "field"}.get(box.type, "holder")
    round_by = min(h, 8) / 2 if kind == "button" else h / 2 if box.type == "OptionButton" else 0
    return f'<rect class="{kind}{"" if box.stored else " guessed"}" x="{x}" y="{y}" width="{w}" height="{h}" rx="{round_by}"/>'


def written(box, x, y, w, h):
    """A box's text, cut off where the box ends."""
    text = box.text()
    if not text or h < 8 or box.type in ("Line", "Page", "TabControl", "CheckBox", "OptionButton"):
        return ""
    size = min(12, max(7, h * 0.7))
    middle = box.type in ("CommandButton", "ToggleButton")
    at = (w / 2, "middle") if middle else (3, "start")
    base = size if box.type in HOLDERS else h / 2 + size * 0.36
    source = ' class="source"' if box.type in ("TextBox", "ComboBox", "ListBox") else ""
    return f'<svg x="{x}" y="{y}" width="{w}" height="{h}"><text{source} x="{at[0]:g}" y="{base:g}" font-size="{size:g}" text-anchor="{at[1]}">{safe(text)}</text></svg>'


def mark(number, x, y, w, h, large, kind="frame"):
    """A frame around a control that differs, and its number, which goes over all frames."""
    r = 9 * large
    half = r * max(1, 0.4 + 0.35 * len(str(number)))
    return (f'<rect class="{kind}" x="{x - 2}" y="{y - 2}" width="{w + 4}" height="{h + 4}" stroke-width="{2.5 * large:g}"/>',
            f'<rect class="badge" x="{x + w + 2 - half:g}" y="{y - 2 - r:g}" width="{2 * half:g}" height="{2 * r:g}" rx="{r:g}"/>'
            f'<text class="number" x="{x + w + 2}" y="{y - 2 + r * 0.4:g}" font-size="{r * 1.15:g}">{number}</text>')


def placed(box, offset):
    return box.left // TWIPS + offset[0], box.top // TWIPS + offset[1], max(box.width // TWIPS, 1), max(box.height // TWIPS, 1)


def draw_block(block, y, width, edge, least, numbers, large):
    """A block from y on, with the Left `least` at the edge: its title, its ground, its boxes. Gives the drawing, the marks that go over everything, and where it ends."""
    section = block.box.number("Height") if block.box.type != "Page" else None
    low = min([0] + [b.top for b in block.boxes])
    deep = max([(section or 0)] + [b.top + b.height for b in block.boxes], default=0)
    height = max((deep - low) // TWIPS + 6, 12)
    ground = y + TITLE
    out = [f'<text class="title" x="{edge}" y="{y + 14}">{safe(block.title)}</text>',
           f'<rect class="ground" x="{edge}" y="{ground}" width="{width}" height="{height}"/>']
    marks = []
    for box in block.boxes:
        place = placed(box, (edge - least // TWIPS, ground - low // TWIPS))
        number = numbers.get(box.row)
        said = safe(f"{box.name or 'control ' + str(box.row)} ({box.type})")
        out.append(f'<g class="control{" differs" if number else ""}" data-control="{box.row}"><title>{said}</title>{shape(box, *place)}{written(box, *place)}</g>')
        if number:
            marks.append(mark(number, *place, large))
    if numbers.get(block.box.row):
        marks.append(mark(numbers[block.box.row], edge, ground, width, height, large, "outline"))
    return out, marks, ground + height + GAP


def picture(controls, records, numbers):
    """A form as a drawing, and whether it is wide. `numbers` has the mark of each control that differs by its row; None is the form itself."""
    boxes, own = boxes_of(controls, records)
    for box in reversed(boxes):
        if box.parent is not None:
            give_sizes(box)
    blocks = blocks_of(boxes)
    for block in blocks:
        set_rest(block)
    kind, shown = own.get("Width", ("", ""))
    reach = max([int(shown) if kind in ("short", "long") else 0] + [b.left + b.width for block in blocks for b in block.boxes])
    least = min([0] + [b.left for block in blocks for b in block.boxes])
    width = max((reach - least) // TWIPS + 8, 160)
    large = max(1, (width + 40) / FIT)
    edge = round(12 * large)
    y, drawn, marks = edge + 4, [], []
    for block in blocks:
        more, over, y = draw_block(block, y, width, edge, least, numbers, large)
        drawn += more
        marks += over
    if numbers.get(None):
        marks.append(mark(numbers[None], 4, edge, width + 2 * edge - 8, y - edge, large, "outline"))
    whole = width + 2 * edge + round(12 * large)
    end = y + 4 + round(9 * (large - 1))
    head = f'<svg class="panel" viewBox="0 0 {whole} {end}" style="max-width:{whole}px" role="img" aria-label="the panel, with the controls that differ marked">'
    frames, badges = [frame for frame, _ in marks], [badge for _, badge in marks]
    return head + "".join(drawn + frames + badges) + "</svg>", whole > FIT


# ---- the page

STYLE = """
@page { size: A4; margin: 15mm 14mm; }
* { box-sizing: border-box; }
body { font: 15px/1.45 system-ui, "DejaVu Sans", Arial, sans-serif; color: #1a1a1a; background: #fff; max-width: 1080px; margin: 2rem auto; padding: 0 1rem; }
h1 { font-size: 1.55rem; margin: 0 0 .3rem; } h2 { font-size: 1.15rem; margin: 1.6rem 0 .5rem; overflow-wrap: anywhere; }
.verdict { font-size: 1.2rem; font-weight: 600; padding: .7rem 1rem; border-left: 6px solid #b3261e; background: #fdeceb; margin: 1rem 0; }
.verdict.same { border-color: #1b6e3c; background: #e9f5ee; }
table { border-collapse: collapse; width: 100%; } th, td { text-align: left; padding: .3rem .6rem; border-bottom: 1px solid #ccc; vertical-align: top; overflow-wrap: anywhere; }
th { white-space: nowrap; } tr:first-child > th { border-bottom: 2px solid #555; } td.count, th.count { text-align: right; white-space: nowrap; } tr.differs td { background: #fdeceb; font-weight: 600; } tr.unread td { background: #fff4d6; }
code { font: .85em/1.4 ui-monospace, "DejaVu Sans Mono", monospace; overflow-wrap: anywhere; }
.form { break-before: page; } .beside { display: grid; grid-template-columns: minmax(0, 3fr) minmax(0, 2fr); gap: 1.2rem; align-items: start; } .below ol.marks { columns: 2; column-gap: 1.5rem; margin-top: 1rem; }
svg.panel { width: 100%; height: auto; max-height: 235mm; border: 1px solid #bbb; background: #f4f4f1; break-inside: avoid; }
svg text { font-family: system-ui, "DejaVu Sans", Arial, sans-serif; } svg .title { font-size: 11px; fill: #444; }
svg .ground { fill: #e6e6df; stroke: #a9a99f; } svg .label { fill: none; stroke: none; } svg .field { fill: #fff; stroke: #8a8a8a; } svg .button { fill: #d3d3cc; stroke: #777; }
svg .holder { fill: none; stroke: #9a9a92; } svg .line { stroke: #666; } svg .guessed { stroke: #9a9a92; stroke-dasharray: 3 2; } svg .source { fill: #555; font-style: italic; }
svg .frame, svg .outline, svg .badge, svg .number { pointer-events: none; } svg .frame { fill: #ffd54f; fill-opacity: .28; stroke: #b3261e; } svg .outline { fill: none; stroke: #b3261e; } svg .badge { fill: #b3261e; stroke: #fff; stroke-width: 1.5; }
svg .number { fill: #fff; font-weight: 700; text-anchor: middle; }
ol.marks { list-style: none; margin: 0; padding: 0; } ol.marks > li { position: relative; padding-left: 2.4rem; margin-bottom: .9rem; break-inside: avoid; overflow-wrap: anywhere; }
ol.marks .no { position: absolute; left: 0; top: .05rem; min-width: 1.5rem; padding: 0 .25rem; height: 1.5rem; line-height: 1.5rem; border-radius: .75rem; background: #b3261e; color: #fff; font-weight: 700; text-align: center; }
dl { margin: .15rem 0 .4rem; } dt { font-weight: 600; } dd { display: grid; grid-template-columns: 3.6rem minmax(0, 1fr); margin: 0; } dd span { color: #555; }
ul.rows { columns: 2; font-size: .85rem; } .note { color: #444; font-size: .88rem; } .sign { display: flex; gap: 2rem; margin: 2.5rem 0 1rem; break-inside: avoid; } .sign div { flex: 1; border-top: 1px solid #333; padding-top: .2rem; font-size: .85rem; }
@media print { body { font-size: 10pt; margin: 0; padding: 0; max-width: none; } code { font-size: .72em; } h1 { font-size: 1.35rem; } .verdict { font-size: 1.1rem; } .marks, .note { font-size: 9pt; } .sign { margin: 1.8rem 0 .6rem; } * { -webkit-print-color-adjust: exact; print-color-adjust: exact; } }
@media (max-width: 700px) { .beside { grid-template-columns: 1fr; } .below ol.marks { columns: 1; } }
"""


def table_rows(tables):
    for word, table in tables:
        yield f"<tr><th>{word}</th><td>{safe(table.name)}</td><td class='count'>{len(table.rows):,}</td><td><code>{table.sha}</code></td></tr>"


def table_words(lines):
    """What is said of the tables: sentences, each with its rows below it. A long list of rows goes to the end of the page."""
    groups, rest = [], []
    for line in lines:
        if line.startswith(" "):
            groups[-1][1].append(f"<li>{safe(line.strip())}</li>")
        else:
            groups.append((safe(line), []))
    told = []
    for n, (sentence, rows) in enumerate(groups):
        told.append(f"<p>{sentence}" + (f" <a href='#rows-{n}'>see the last page</a>" if len(rows) > SHORT_LIST else "") + "</p>")
        if len(rows) > SHORT_LIST:
            rest.append(f"<section class='form' id='rows-{n}'><h2>{sentence}</h2><ul class='rows'>{''.join(rows)}</ul></section>")
        elif rows:
            told.append(f"<ul>{''.join(rows)}</ul>")
    return "".join(told), "".join(rest)


def form_rows(forms):
    for form in forms:
        differs = bool(form.differences or form.remark)
        name = f'<a href="#form-{form.number}">{safe(form.name)}</a>' if differs else safe(form.name)
        count = "as a whole" if form.remark else f"{len(form.differences):,}"
        sha = hashlib.sha256(form.data).hexdigest()
        yield f"<tr class='{'differs' if differs else 'same'}'><td>{name}</td><td class='count'>{count}</td><td class='count'>{form.rows:,}</td><td><code>{sha}</code></td></tr>"


def unread_rows(unread):
    for name, why in unread:
        yield f"<tr class='unread'><td>{safe(name)}</td><td colspan='3'>{safe(why)}</td></tr>"


def marked(form):
    """The controls that differ in the order of their rows, each with its differences; the object itself first."""
    groups = {}
    for d in form.differences:
        groups.setdefault(d.control, []).append(d)
    return list(groups.items())


def mark_items(groups, where):
    for number, (_, differences) in enumerate(groups, 1):
        out = [f"<li><span class='no'>{number}</span><strong>{safe(where(differences[0]))}</strong><dl>"]
        for d in differences:
            out.append(f"<dt>{safe(d.property)}</dt><dd><span>older</span><div>{safe(d.older)}</div></dd><dd><span>newer</span><div>{safe(d.newer)}</div></dd>")
        yield "".join(out) + "</dl></li>"


def form_part(form, listed, where):
    head = f"<section class='form' id='form-{form.number}'><h2>{safe(form.name)}</h2>"
    if form.remark:
        return f"{head}<p>{safe(form.remark)}</p></section>"
    groups = marked(form)
    controls, _, records = listed
    if records:
        drawn, wide = picture(controls, records, {control: n for n, (control, _) in enumerate(groups, 1)})
        drawn += NOTE
    else:
        drawn, wide = "<p class='note'>It is too large for a picture.</p>", False
    layout = "below" if wide or len(groups) > BESIDE else "beside"
    return f"{head}<div class='{layout}'><div>{drawn}</div><ol class='marks'>{''.join(mark_items(groups, where))}</ol></div></section>"


def page(older, newer, sentence, lines, proved, forms, unread, listed, where):
    """The whole page. `lines` is what is said of the tables, `proved` whether the list comes from the proved program; `listed` gives a form's listing under the newer table, `where` a difference's control in words."""
    differing = [form for form in forms if form.differences or form.remark]
    same = "" if differing or unread or not forms else " same"
    told, rest = table_words(lines)
    parts = "".join(form_part(form, listed(form), where) for form in differing)
    return f"""<!DOCTYPE html>
<html lang="en"><head><meta charset="utf-8"><meta name="viewport" content="width=device-width">
<meta http-equiv="Content-Security-Policy" content="default-src 'none'; style-src 'unsafe-inline'; img-src data:"><link rel="icon" href="data:,">
<title>Which panels come out otherwise</title><style>{STYLE}</style></head><body>
<h1>Which panels come out otherwise under the newer code table</h1>
<p class="verdict{same}">{safe(sentence)}</p>
<h2>The code tables</h2>
<table><tr><th></th><th>file</th><th class="count">rows</th><th>SHA-256</th></tr>{''.join(table_rows((("older", older), ("newer", newer))))}</table>
{told}
<h2>The forms</h2>
<table class="forms"><tr><th>file</th><th class="count">differ</th><th class="count">{"properties" if proved else "rows"}</th><th>SHA-256</th></tr>{''.join(form_rows(forms))}{''.join(unread_rows(unread))}</table>
<div class="sign"><div>Name</div><div>Date</div><div>Signature</div></div>
<p class="note">{PROVED if proved else COMPARED} This page, its sentences and its pictures are made by plain code, which is not proved.</p>
{parts}{rest}
</body></html>
"""
