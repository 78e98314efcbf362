//! What a newer code table changes, by two plain readings: a row for each property whose row under the older table differs from its row under the newer.

use super::codes::Codes;
use super::{reading, rows, u16_at, Answer, Control, Property, Shape, LONGEST};

pub const DIFFERENCE_WORDS: usize = 10;
/// The control row of the object's own properties.
pub const NO_CONTROL: u32 = 0xFFFF_FFFF;

pub type DifferenceRow = [u32; DIFFERENCE_WORDS];

/// "the newer isn't a successor of the older (layout byte, header codes, or a row of the older that the newer hasn't)"
fn succeeds(older: &Codes, newer: &Codes) -> bool {
    let all = older.scopes.iter().flat_map(|s| s.rows.iter().map(move |row| (s.kind, s.code, row)));
    older.layout == newer.layout
        && older.header == newer.header
        && all.into_iter().all(|(kind, code, row)| newer.row(kind, code, row.id) == Some(row))
}

/// The answer where so many words are lent, and the rows that are written.
pub fn differences(older: &[u8], newer: &[u8], stream: &[u8], words: usize) -> (Answer, Vec<DifferenceRow>) {
    let refused = |number| (Answer::refusal(number), Vec::new());
    if stream.len() > LONGEST {
        return refused(5);
    }
    let (Some(older), Some(newer)) = (Codes::parse(older), Codes::parse(newer)) else {
        return refused(8);
    };
    if !succeeds(&older, &newer) {
        return refused(19);
    }
    let (Some(was), Some(is)) = (reading(&older, stream), reading(&newer, stream)) else {
        return refused(4);
    };
    let (old_rows, new_rows) = (rows(&was).properties, rows(&is).properties);
    let mut found = Vec::new();
    let scope = (u32::from(stream.get(8) == Some(&0x97)), 0);
    let mut first = 0;
    let mut list = |control: u32, scope: (u32, u32), properties: &[Property]| {
        for (n, p) in properties.iter().enumerate() {
            let (old, new) = (old_rows[first + n], new_rows[first + n]);
            if was.shape == Shape::Access2000 && old != new {
                found.push([(first + n) as u32, control, stream[p.at].into(), scope.0, scope.1, old[0], new[0], new[1], old[4], old[5]]);
            }
        }
        first += properties.len();
    };
    list(NO_CONTROL, scope, &was.own);
    for (n, control) in was.controls.iter().enumerate() {
        list(n as u32, (2, stored_type(stream, control)), &control.properties);
    }
    let count = |number| Answer { number, counts: [found.len() as u32, old_rows.len() as u32, 0] };
    if found.len() > words / DIFFERENCE_WORDS {
        return (count(6), Vec::new());
    }
    (count(0), found)
}

/// The type of an entry as stored, which stands before its first property.
fn stored_type(stream: &[u8], control: &Control) -> u32 {
    control.properties.first().and_then(|p| u16_at(stream, p.at.checked_sub(2)?)).unwrap_or(0).into()
}
