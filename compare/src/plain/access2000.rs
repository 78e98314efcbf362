//! The Access 2000 layout.

use super::codes::Codes;
use super::value::{self, is_utf16};
use super::{u16_at, Control, Name, Property, Reading, Shape, Value};

/// A property as stored.
struct Stored {
    at: usize,
    id: u8,
    start: usize,
    length: usize,
}

/// An entry as stored, with its level; the entries of a stream stand in preorder.
struct Entry {
    level: usize,
    type_code: u16,
    run: Vec<Stored>,
    has_list: bool,
}

const LEVELS: usize = 256;

pub fn reading(codes: &Codes, s: &[u8]) -> Option<Reading> {
    let (own, entries) = stream(s)?;
    let report = s[8] == 0x97;
    let mut controls = Vec::new();
    let mut shown = false;
    for entry in &entries {
        if entry.level == 0 {
            shown = is_section(entry.type_code) || entry.has_list;
        }
        if shown {
            controls.push(control(codes, s, report, entry));
        }
    }
    let own = own.iter().map(|p| property(codes, s, (report as u8, 0), p)).collect();
    Some(Reading { shape: Shape::Access2000, own, controls })
}

fn is_section(type_code: u16) -> bool {
    (0x98..=0x9E).contains(&type_code)
}

// ---- the bytes

/// The object's run and all entries, if the bytes from 10 on are just that.
fn stream(s: &[u8]) -> Option<(Vec<Stored>, Vec<Entry>)> {
    let (own, pos) = run(s, 10)?;
    let (count, mut pos) = list_head(s, pos)?;
    let mut left = vec![count];
    let mut entries = Vec::new();
    while let Some(count) = left.pop() {
        if count == 0 {
            continue;
        }
        left.push(count - 1);
        let level = left.len() - 1;
        if level == LEVELS {
            return None;
        }
        let type_code = u16_at(s, pos)?;
        let (run, end) = run(s, pos + 2)?;
        let has_list = *s.get(end)? != 0xFD;
        pos = end + 1;
        if has_list {
            let (inner, behind) = list_head(s, end)?;
            left.push(inner);
            pos = behind;
        }
        entries.push(Entry { level, type_code, run, has_list });
    }
    (pos == s.len()).then_some((own, entries))
}

fn list_head(s: &[u8], pos: usize) -> Option<(u16, usize)> {
    match *s.get(pos)? {
        0xFF => Some((u16_at(s, pos + 1)?, pos + 3)),
        0xFE => Some((1, pos + 1)),
        _ => None,
    }
}

fn run(s: &[u8], mut pos: usize) -> Option<(Vec<Stored>, usize)> {
    let mut found = Vec::new();
    while pos < s.len() && s[pos] < 0xFD {
        let stored = property_at(s, pos)?;
        pos = stored.start + stored.length;
        found.push(stored);
    }
    Some((found, pos))
}

fn property_at(s: &[u8], at: usize) -> Option<Stored> {
    let id = s[at];
    let (start, length) = match id {
        0x00..=0x2F => (at + 1, 0),
        0x30..=0x5F => (at + 1, 1),
        0x60..=0x7F => (at + 1, 2),
        0x80..=0xBC => (at + 1, 4),
        _ => match *s.get(at + 1)? {
            0xFF => (at + 4, u16_at(s, at + 2)? as usize),
            n => (at + 2, n as usize),
        },
    };
    (start + length <= s.len()).then_some(Stored { at, id, start, length })
}

// ---- what is shown

fn control(codes: &Codes, s: &[u8], report: bool, entry: &Entry) -> Control {
    let prefix = if report { 0x1900 } else { 0x1800 };
    let is_header = codes.header.contains(&entry.type_code);
    Control {
        level: entry.level,
        type_code: entry.type_code | if is_header { prefix } else { 0 },
        name: name(s, entry),
        properties: entry.run.iter().map(|p| property(codes, s, (2, entry.type_code), p)).collect(),
    }
}

fn name(s: &[u8], entry: &Entry) -> Name {
    let wanted = if is_section(entry.type_code) { 0xDF } else { 0xDC };
    match entry.run.iter().find(|p| p.id == wanted) {
        Some(p) if is_utf16(&s[p.start..p.start + p.length]) => Name::Text { start: p.start, length: p.length },
        _ => Name::Numbered,
    }
}

fn property(codes: &Codes, s: &[u8], scope: (u8, u16), p: &Stored) -> Property {
    let row = codes.row(scope.0, scope.1, p.id);
    let bytes = &s[p.start..p.start + p.length];
    let tied = row.and_then(|r| value_of_kind(r.kind, p.id, bytes));
    Property {
        at: p.at,
        id: row.map_or(0x8000 | p.id as u16, |r| r.target),
        value: tied.unwrap_or_else(|| stored_value(p.id, bytes)),
        start: p.start,
        length: p.length,
    }
}

/// "On ids above 0xBC, kind Text with UTF-16 bytes, Guid with 16 bytes and Double with 8 give that value."
fn value_of_kind(kind: u8, id: u8, bytes: &[u8]) -> Option<Value> {
    match (kind, bytes.len()) {
        _ if id <= 0xBC => None,
        (1, _) if is_utf16(bytes) => Some(value::TEXT),
        (2, 16) => Some(value::GUID),
        (3, 8) => Some(value::double(value::unsigned(bytes))),
        _ => None,
    }
}

/// "All else is stored: flag NotDefault; ids 0x30 to 0x7F Short; other numbers Long; bytes Binary."
fn stored_value(id: u8, bytes: &[u8]) -> Value {
    match id {
        0x00..=0x2F => value::NOT_DEFAULT,
        0x30..=0x7F => value::short(value::integer(bytes).unwrap()),
        0x80..=0xBC => value::long(value::integer(bytes).unwrap()),
        _ => value::BINARY,
    }
}
