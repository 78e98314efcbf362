//! Fresh comma-separated texts, of the grammar and damaged, read by the library and held against document 02 and RFC 4180 read plainly: the answer, the counts
//! and every word and byte of what is lent.

use crate::cases::rng::Rng;
use crate::large::CAnswer;
use crate::plain::{csv, Answer};
use std::collections::BTreeMap;
use std::io::{self, Write};

pub type ReadCsv = unsafe extern "C" fn(*const u8, usize, *mut u32, usize, *mut u8, usize) -> CAnswer;

/// So many words or bytes before what is lent, and after it.
const GUARD: usize = 16;

/// Reads `count` random texts; prints how many gave each answer, or the first that differs. Each text that is read goes to `taken` with its fields.
pub fn compare(library: ReadCsv, count: usize, seed: u64, taken: &mut dyn Write) -> io::Result<bool> {
    let mut rng = Rng::new(seed);
    let (mut answers, mut records) = (BTreeMap::new(), 0);
    for n in 0..count {
        let text = text(&mut rng);
        let (words, bytes) = room(&mut rng, &text);
        match called(library, &text, words, bytes) {
            Ok(number) => *answers.entry(number).or_insert(0) += 1,
            Err(why) => {
                println!("seed {seed}, text {n}: a difference\n{}\n{why}", text.escape_ascii());
                return Ok(false);
            }
        }
        if let Some(read) = csv::records(&text) {
            records += read.len();
            writeln!(
                taken,
                "{} {}",
                hex(&text),
                read.iter().map(|r| r.iter().map(|f| hex(f)).collect::<Vec<_>>().join(",")).collect::<Vec<_>>().join(";")
            )?;
        }
    }
    println!("{count} random texts of seed {seed}: no difference; by answer {answers:?}; {records} records read");
    Ok(true)
}

fn hex(bytes: &[u8]) -> String {
    bytes.iter().map(|byte| format!("{byte:02x}")).collect()
}

/// Words and bytes to lend: what is needed, a little less or more, or much.
fn room(rng: &mut Rng, text: &[u8]) -> (usize, usize) {
    let (fields, bytes) = match csv::records(text) {
        Some(records) => (5 * records.len(), records.iter().flatten().map(Vec::len).sum()),
        None => (rng.below(12), rng.below(12)),
    };
    let near = |rng: &mut Rng, exact: usize| match rng.below(8) {
        0 => exact.saturating_sub(1),
        1 => exact + 1,
        2 => rng.below(exact + 1),
        3 => exact + rng.below(40),
        _ => exact,
    };
    (near(rng, 2 * fields), near(rng, bytes))
}

/// The library's answer and all that is lent, between guards.
fn called(library: ReadCsv, text: &[u8], words: usize, bytes: usize) -> Result<u32, String> {
    let mut rows: Vec<u32> = (0..words + 2 * GUARD).map(|i| 0xA500_0000 + 7 * i as u32).collect();
    let mut out: Vec<u8> = (0..bytes + 2 * GUARD).map(|i| (i % 251) as u8 ^ 0xA5).collect();
    let (mut must_rows, mut must_out) = (rows.clone(), out.clone());
    let must = match csv::records(text) {
        None => Answer::refusal(14),
        Some(records) => {
            let fields: Vec<Vec<u8>> = records.concat();
            let all = fields.concat();
            if bytes < all.len() || words / 2 < fields.len() {
                Answer::refusal(13)
            } else {
                let mut start = 0;
                for (i, field) in fields.iter().enumerate() {
                    must_rows[GUARD + 2 * i..][..2].copy_from_slice(&[start, field.len() as u32]);
                    start += field.len() as u32;
                }
                must_out[GUARD..][..all.len()].copy_from_slice(&all);
                Answer { number: 0, counts: [all.len() as u32, fields.len() as u32, 0] }
            }
        }
    };
    let (lent_rows, lent_out) = (&mut rows[GUARD..GUARD + words], &mut out[GUARD..GUARD + bytes]);
    // SAFETY: each slice is lent as its pointer and its length, and those that are written overlap nothing.
    let answer = unsafe { library(text.as_ptr(), text.len(), lent_rows.as_mut_ptr(), words, lent_out.as_mut_ptr(), bytes) }.answer();
    if answer != must || rows != must_rows || out != must_out {
        return Err(format!(
            "{words} words and {bytes} bytes lent: {answer:?}\n{rows:X?}\n{out:02X?}\nmust be {must:?}\n{must_rows:X?}\n{must_out:02X?}"
        ));
    }
    Ok(answer.number)
}

// ---- texts

/// Records with nasty fields; one text in two is damaged at some bytes.
fn text(rng: &mut Rng) -> Vec<u8> {
    let mut out = Vec::new();
    let records = 1 + rng.below(4);
    for n in 0..records {
        let fields = if rng.one_in(40) { rng.below(8) } else { 5 };
        for k in 0..fields {
            if k > 0 {
                out.push(b',');
            }
            put_field(rng, &mut out);
        }
        if n + 1 < records || rng.one_in(2) {
            out.extend(b"\r\n");
        }
    }
    if rng.one_in(2) {
        for _ in 0..1 + rng.below(3) {
            damage(rng, &mut out);
        }
    }
    out
}

fn put_field(rng: &mut Rng, out: &mut Vec<u8>) {
    let field: Vec<u8> = (0..rng.pick(&[0, 0, 1, 1, 2, 3, 7])).map(|_| nasty(rng)).collect();
    if field.iter().any(|byte| b",\"\r\n".contains(byte)) || rng.one_in(4) {
        out.push(b'"');
        for byte in field {
            out.extend(if byte == b'"' { &b"\"\""[..] } else { std::slice::from_ref(&byte) });
        }
        out.push(b'"');
    } else {
        out.extend(field);
    }
}

fn nasty(rng: &mut Rng) -> u8 {
    match rng.below(3) {
        0 => rng.pick(b",\"\r\n"),
        1 => rng.pick(&[b'a', b'0', b' ', b'\t', 0x00, 0x7F, 0x80, 0xC3, 0xF0, 0xFF]),
        _ => rng.byte(),
    }
}

/// A byte more, a byte less, another byte, or the text's tail cut off.
fn damage(rng: &mut Rng, text: &mut Vec<u8>) {
    let at = rng.below(text.len() + 1);
    match rng.below(8) {
        0 => text.truncate(at),
        1..=3 => text.insert(at, nasty(rng)),
        _ if at == text.len() => text.push(nasty(rng)),
        4 | 5 => text[at] = nasty(rng),
        _ => {
            text.remove(at);
        }
    }
}

#[cfg(test)]
mod tests {
    use super::*;

    /// What a library lends and gives back: rows, bytes and the answer.
    struct Lent<'a> {
        rows: &'a mut [u32],
        out: &'a mut [u8],
        answer: Answer,
    }

    /// A library that reads plainly, but for one slip.
    macro_rules! library {
        ($name:ident, $slip:expr) => {
            unsafe extern "C" fn $name(text: *const u8, size: usize, rows: *mut u32, words: usize, out: *mut u8, bytes: usize) -> CAnswer {
                let text = std::slice::from_raw_parts(text, size);
                let (rows, out) = (std::slice::from_raw_parts_mut(rows, words), std::slice::from_raw_parts_mut(out, bytes));
                let mut lent = Lent { rows, out, answer: Answer::refusal(14) };
                if let Some(fields) = csv::records(text).map(|records| records.concat()) {
                    let all = fields.concat();
                    lent.answer = Answer::refusal(13);
                    if all.len() <= bytes && fields.len() <= words / 2 {
                        lent.answer = Answer { number: 0, counts: [all.len() as u32, fields.len() as u32, 0] };
                        lent.out[..all.len()].copy_from_slice(&all);
                        let mut start = 0;
                        for (i, field) in fields.iter().enumerate() {
                            lent.rows[2 * i..][..2].copy_from_slice(&[start, field.len() as u32]);
                            start += field.len() as u32;
                        }
                    }
                }
                let slip: fn(&[u8], &mut Lent) = $slip;
                slip(text, &mut lent);
                CAnswer::of(lent.answer)
            }
        };
    }

    library!(right, |_, _| ());
    library!(takes_lf, |text, lent| if text.ends_with(b"\n") && !text.ends_with(b"\r\n") && lent.answer.number == 14 {
        lent.answer.number = 13
    });
    library!(first_13, |_, lent| if lent.answer.number == 14 && lent.rows.is_empty() {
        lent.answer.number = 13
    });
    library!(writes_on_13, |_, lent| if lent.answer.number == 13 && !lent.out.is_empty() {
        lent.out[0] ^= 1
    });
    library!(writes_beyond, |_, lent| if lent.answer.number == 0 && lent.answer.counts[1] * 2 < lent.rows.len() as u32 {
        *lent.rows.last_mut().unwrap() = 0
    });
    library!(loses_count, |_, lent| lent.answer.counts[1] = 0);

    #[test]
    fn slips_of_a_library_are_seen() {
        let agrees = |library: ReadCsv| compare(library, 20_000, 1, &mut io::sink()).unwrap();
        assert!(agrees(right));
        for (n, slip) in [takes_lf as ReadCsv, first_13, writes_on_13, writes_beyond, loses_count].into_iter().enumerate() {
            assert!(!agrees(slip), "slip {n}");
        }
    }
}
