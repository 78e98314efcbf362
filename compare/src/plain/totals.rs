//! Wish 4 of document 02: one summary for a whole depot. Totals are kept by name here, in maps; the places of a record's numbers come last.

use super::{read_blob, Answer, CONTROL_WORDS, PROPERTY_WORDS};
use std::collections::BTreeMap;

/// The ceiling of a total.
pub const CEILING: u64 = 4_294_967_295;
/// How many numbers a record has.
pub const WORDS: usize = 48;

/// What a total is of.
#[derive(Debug, Clone, Copy, PartialEq, Eq, PartialOrd, Ord)]
pub enum What {
    Answer(u32),
    /// A type name, or none.
    Type(Option<&'static str>),
    Unmapped,
    Mapped,
    Mark(u32),
}

/// The numbers of a record in their order, `names` being the table's, each once.
pub fn order(names: &[&'static str]) -> Vec<What> {
    let answers = [0, 4, 5, 6, 7, 8].map(What::Answer);
    let types = names.iter().map(|&name| What::Type(Some(name))).chain([What::Type(None)]);
    answers.into_iter().chain(types).chain([What::Unmapped, What::Mapped]).chain((0..9).map(What::Mark)).collect()
}

/// A stream with its code table and room in rows.
#[derive(Debug, Clone)]
pub struct Stream {
    pub table: Vec<u8>,
    pub bytes: Vec<u8>,
    pub room: [u32; 2],
}

/// The reading's answer, and what one reading adds.
pub fn adds(stream: &Stream, name: fn(u16) -> Option<&'static str>) -> (Answer, BTreeMap<What, u64>) {
    let rows = read_blob(&stream.table, &stream.bytes, stream.room[0] as usize * CONTROL_WORDS, stream.room[1] as usize * PROPERTY_WORDS);
    let mut added = BTreeMap::new();
    let mut one = |what| *added.entry(what).or_insert(0) += 1;
    one(What::Answer(rows.answer.number));
    let in_2000 = stream.bytes.first().is_some_and(|first| stream.table.first() == Some(first));
    for row in &rows.controls {
        one(What::Type(u16::try_from(row[0]).ok().and_then(name)));
    }
    for row in &rows.properties {
        one(if in_2000 && row[0] >= 0x8000 { What::Unmapped } else { What::Mapped });
        one(What::Mark(row[1]));
    }
    (rows.answer, added)
}

/// What the call answers, and the record after it: 12 where any total would pass the ceiling, and then the record is as it was.
pub fn count(record: &BTreeMap<What, u64>, stream: &Stream, name: fn(u16) -> Option<&'static str>) -> (Answer, BTreeMap<What, u64>) {
    let (answer, added) = adds(stream, name);
    let mut next = record.clone();
    for (what, n) in added {
        *next.entry(what).or_insert(0) += n;
    }
    if next.values().any(|&n| n > CEILING) {
        return (Answer::refusal(12), record.clone());
    }
    (answer, next)
}
