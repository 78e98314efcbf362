//! Wish 8 of document 02: a reader for each layout. `kept_2000` and `kept_later` look at an answer by itself, from the reader that chooses.

use super::codes::Codes;
use super::{access2000, fit, later, read_blob, rows, Answer, Rows, LONGEST};

/// What the reader of Access 2000 answers with so many words lent: 5, 8, 15, 4, 6, 7.
pub fn read_2000(table: &[u8], stream: &[u8], words: [usize; 2]) -> Rows {
    let refusal = |number| Rows::refusal(Answer::refusal(number));
    if stream.len() > LONGEST {
        return refusal(5);
    }
    let Some(codes) = Codes::parse(table) else { return refusal(8) };
    if stream.first() != Some(&codes.layout) {
        return refusal(15);
    }
    access2000::reading(&codes, stream).map_or(refusal(4), |found| fit(rows(&found), words))
}

/// What the reader of the later layout answers, which is told the layout byte as a number: 5, 15, 6, 7.
pub fn read_later(layout: u32, stream: &[u8], words: [usize; 2]) -> Rows {
    if stream.len() > LONGEST {
        return Rows::refusal(Answer::refusal(5));
    }
    if stream.iter().take(1).any(|&first| u32::from(first) == layout) {
        return Rows::refusal(Answer::refusal(15));
    }
    fit(rows(&later::reading(stream)), words)
}

/// 15 where the table is taken, the stream isn't too long and its first byte is another than the table's; else what is given without a register.
pub fn kept_2000(table: &[u8], stream: &[u8], words: [usize; 2], found: &Rows) -> Result<(), String> {
    let chosen = read_blob(table, stream, words[0], words[1]);
    let unnoticed = matches!(chosen.answer.number, 5 | 8) || !stream.is_empty() && stream[0] == table[0];
    same(found, &if unnoticed { chosen } else { Rows::refusal(Answer::refusal(15)) })
}

/// The layout byte alone is a table without a scope. A number above 255 is no byte, and a table with another byte than the first one stands for it.
pub fn kept_later(layout: u32, stream: &[u8], words: [usize; 2], found: &Rows) -> Result<(), String> {
    let first = stream.first().copied().unwrap_or(0);
    let byte = u8::try_from(layout).unwrap_or(first.wrapping_add(1));
    let chosen = read_blob(&[byte, 0, 0, 0], stream, words[0], words[1]);
    let noticed = chosen.answer.number != 5 && !stream.is_empty() && first == byte;
    same(found, &if noticed { Rows::refusal(Answer::refusal(15)) } else { chosen })
}

fn same(found: &Rows, due: &Rows) -> Result<(), String> {
    if found == due {
        return Ok(());
    }
    Err(format!("a reader of one layout: {:?}, by the one that chooses: {:?}", found.answer, due.answer))
}
