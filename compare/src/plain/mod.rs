//! Document 01 read a second time, plainly, with places: it shares no code with jetdb and none with the Rattle crates.
//! Trees are judged with a stack of counts, not by recursion, so that a slip in the levels is not shared either.

pub mod access2000;
pub mod blob_text;
pub mod codes;
pub mod csv;
pub mod differences;
pub mod join;
pub mod later;
pub mod pairing;
pub mod panel;
pub mod readers;
pub mod rewrite;
pub mod room;
pub mod totals;
pub mod typeinfo;
pub mod value;

use codes::Codes;

/// Document 01's answer number with its three counts.
#[derive(Debug, Clone, Copy, PartialEq, Eq)]
pub struct Answer {
    pub number: u32,
    pub counts: [u32; 3],
}

impl Answer {
    pub fn refusal(number: u32) -> Answer {
        Answer { number, counts: [0; 3] }
    }
}

/// A value's mark and its two words.
#[derive(Debug, Clone, Copy, PartialEq, Eq)]
pub struct Value {
    pub mark: u32,
    pub low: u32,
    pub high: u32,
}

#[derive(Debug, Clone)]
pub struct Property {
    /// Where the property itself starts, with its id.
    pub at: usize,
    pub id: u16,
    pub value: Value,
    pub start: usize,
    pub length: usize,
}

#[derive(Debug, Clone, Copy, PartialEq, Eq)]
pub enum Name {
    Text { start: usize, length: usize },
    Numbered,
    Loose { start: usize, length: usize },
}

#[derive(Debug, Clone)]
pub struct Control {
    /// How many entries it stands in, the reported top entry among them; that one has level 0.
    pub level: usize,
    pub type_code: u16,
    pub name: Name,
    pub properties: Vec<Property>,
}

/// How a stream was read.
#[derive(Debug, Clone, Copy, PartialEq, Eq, PartialOrd, Ord)]
pub enum Shape {
    Access2000,
    Short,
    Tree,
    Scan,
}

#[derive(Debug, Clone)]
pub struct Reading {
    pub shape: Shape,
    pub own: Vec<Property>,
    pub controls: Vec<Control>,
}

/// Type code, name mark, name start, name length, first property row, property count, level, parent.
pub type ControlRow = [u32; CONTROL_WORDS];
/// Id, value mark, low, high, start, length.
pub type PropertyRow = [u32; PROPERTY_WORDS];

pub const CONTROL_WORDS: usize = 8;
pub const PROPERTY_WORDS: usize = 6;
/// The parent's word of a control that has none.
pub const NO_PARENT: u32 = 0xFFFF_FFFF;

/// Rows as they are lent.
#[derive(Debug, Clone, PartialEq, Eq)]
pub struct Rows {
    pub answer: Answer,
    pub controls: Vec<ControlRow>,
    pub properties: Vec<PropertyRow>,
}

impl Rows {
    pub fn refusal(answer: Answer) -> Rows {
        Rows { answer, controls: Vec::new(), properties: Vec::new() }
    }
}

pub const LONGEST: usize = 16_777_216;

/// The reading of a stream of allowed length under a well-formed table; `None` is answer 4.
pub fn reading(codes: &Codes, stream: &[u8]) -> Option<Reading> {
    if stream.first() == Some(&codes.layout) {
        access2000::reading(codes, stream)
    } else {
        Some(later::reading(stream))
    }
}

/// What the Blob reader answers with so many words lent for each kind of row.
pub fn read_blob(table: &[u8], stream: &[u8], control_words: usize, property_words: usize) -> Rows {
    if stream.len() > LONGEST {
        return Rows::refusal(Answer::refusal(5));
    }
    let Some(codes) = Codes::parse(table) else {
        return Rows::refusal(Answer::refusal(8));
    };
    let Some(found) = reading(&codes, stream) else {
        return Rows::refusal(Answer::refusal(4));
    };
    fit(rows(&found), [control_words, property_words])
}

/// What is answered where so many words are lent for each kind of row.
fn fit(rows: Rows, words: [usize; 2]) -> Rows {
    let number = if rows.controls.len() > words[0] / CONTROL_WORDS {
        6
    } else if rows.properties.len() > words[1] / PROPERTY_WORDS {
        7
    } else {
        return rows;
    };
    Rows::refusal(Answer { number, ..rows.answer })
}

/// All rows of a reading, with answer 0.
pub fn rows(found: &Reading) -> Rows {
    let mut properties: Vec<PropertyRow> = found.own.iter().map(property_row).collect();
    let mut controls = Vec::new();
    // the last row at each level that is open
    let mut above = Vec::new();
    for (n, control) in found.controls.iter().enumerate() {
        above.truncate(control.level);
        let parent = above.last().copied().unwrap_or(NO_PARENT);
        above.push(n as u32);
        controls.push(control_row(n as u32, properties.len() as u32, control, parent));
        properties.extend(control.properties.iter().map(property_row));
    }
    let counts = [controls.len() as u32, properties.len() as u32, found.own.len() as u32];
    Rows { answer: Answer { number: 0, counts }, controls, properties }
}

fn property_row(p: &Property) -> PropertyRow {
    [p.id as u32, p.value.mark, p.value.low, p.value.high, p.start as u32, p.length as u32]
}

fn control_row(n: u32, first: u32, control: &Control, parent: u32) -> ControlRow {
    let (mark, start, length) = match control.name {
        Name::Text { start, length } => (0, start as u32, length as u32),
        Name::Numbered => (1, n, label(n).len() as u32),
        Name::Loose { start, length } => (2, start as u32, length as u32),
    };
    let (count, level) = (control.properties.len() as u32, control.level as u32);
    [control.type_code as u32, mark, start, length, first, count, level, parent]
}

pub fn label(n: u32) -> String {
    format!("Control_{n}")
}

/// The u16 at `pos`, if it is all there.
pub fn u16_at(s: &[u8], pos: usize) -> Option<u16> {
    Some(*s.get(pos)? as u16 + ((*s.get(pos + 1)? as u16) << 8))
}

/// The u32 at `pos`, if it is all there.
pub fn u32_at(s: &[u8], pos: usize) -> Option<u32> {
    Some(u16_at(s, pos)? as u32 + ((u16_at(s, pos + 2)? as u32) << 16))
}
