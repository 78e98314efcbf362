//! Fresh Blobs written as comma-separated text by the library, held against document 02 read plainly: the answer, and every word and byte of what is lent. Their
//! texts hold quotes, commas, CR, LF, NUL and signs outside the basic plane.

use crate::cases::{random, rng::Rng};
use crate::large::{CAnswer, ReadBlob};
use crate::plain::blob_text::{self, Record};
use crate::plain::{self, codes::Codes, Answer};
use crate::{long, oracle};
use std::collections::BTreeMap;
use std::io::{self, Write};
use std::time::Instant;

pub type WriteCsv = unsafe extern "C" fn(*const u8, usize, *const u8, usize, *mut u32, usize, *mut u32, usize, *mut u8, usize) -> CAnswer;

/// So many words or bytes before what is lent, and after it.
const GUARD: usize = 16;

/// Writes `count` random Blobs; prints how many gave each answer, or the first that differs. Each text that is written goes to `taken` with its fields.
pub fn compare(library: WriteCsv, count: usize, seed: u64, taken: &mut dyn Write) -> io::Result<bool> {
    let mut rng = Rng::new(seed);
    let (mut answers, mut records, mut quoted) = (BTreeMap::new(), 0, 0);
    for n in 0..count {
        let (table, stream) = blob(&mut rng);
        let lent = room(&mut rng, &table, &stream);
        let (number, told) = match called(library, &table, &stream, lent) {
            Ok(written) => written,
            Err(why) => {
                println!("seed {seed}, Blob {n}: a difference\ntable {table:02X?}\nstream {stream:02X?}\n{why}");
                return Ok(false);
            }
        };
        *answers.entry(number).or_insert(0) += 1;
        if number == 0 {
            let text = blob_text::text(&told);
            records += told.len();
            quoted += usize::from(text.contains(&b'"'));
            let told: Vec<String> = told.iter().map(|r| r.iter().map(|f| hex(f)).collect::<Vec<_>>().join(",")).collect();
            writeln!(taken, "{} {}", hex(&text), told.join(";"))?;
        }
    }
    println!(
        "{count} random Blobs of seed {seed}: no difference; by answer {answers:?}; {records} records written, quotes in {quoted} texts"
    );
    Ok(true)
}

fn hex(bytes: &[u8]) -> String {
    bytes.iter().map(|byte| format!("{byte:02x}")).collect()
}

/// A code table, mostly jetdb's, and a Blob.
fn blob(rng: &mut Rng) -> (Vec<u8>, Vec<u8>) {
    let case = if rng.one_in(4) { random::other_table(rng) } else { random::blob(rng) };
    let table = case.table.map_or_else(|| oracle::codes().bytes(), |table| table.to_vec());
    let mut stream = case.bytes;
    let texts: Vec<(usize, usize)> = Codes::parse(&table)
        .and_then(|codes| plain::reading(&codes, &stream))
        .map(|found| {
            let all = found.own.iter().chain(found.controls.iter().flat_map(|c| &c.properties));
            all.filter(|p| p.value.mark == 6).map(|p| (p.start, p.length)).collect()
        })
        .unwrap_or_default();
    for (start, length) in texts {
        nasty(rng, &mut stream[start..start + length]);
    }
    (table, stream)
}

/// Puts signs that are told apart in a text, among them a pair.
fn nasty(rng: &mut Rng, text: &mut [u8]) {
    for unit in text.chunks_exact_mut(2) {
        if rng.one_in(3) {
            let any = rng.next() as u16;
            unit.copy_from_slice(
                &rng.pick(&[0x2C, 0x22, 0x22, 0x0D, 0x0A, 0x00, 0x7F, 0x80, 0x7FF, 0x800, 0xFFFF, 0xE000, any]).to_le_bytes(),
            );
        }
    }
    for pair in text.chunks_exact_mut(4) {
        if rng.one_in(6) {
            let (high, low) = (0xD800 | rng.next() as u16 & 0x3FF, 0xDC00 | rng.next() as u16 & 0x3FF);
            pair[..2].copy_from_slice(&high.to_le_bytes());
            pair[2..].copy_from_slice(&low.to_le_bytes());
        }
    }
}

/// Words for both kinds of row, and bytes.
type Lent = [usize; 3];

/// What is needed, a little less or more, or much.
fn room(rng: &mut Rng, table: &[u8], stream: &[u8]) -> Lent {
    let found = Codes::parse(table).and_then(|codes| plain::reading(&codes, stream));
    let exact = found.map_or([9, 9, 40], |found| {
        let [controls, properties, _] = plain::rows(&found).answer.counts.map(|count| count as usize);
        let text = blob_text::text(&blob_text::records(&found, stream));
        [plain::CONTROL_WORDS * controls, plain::PROPERTY_WORDS * properties, text.len()]
    });
    let mut near = |exact: usize, often: usize| match rng.below(often) {
        0 => exact.saturating_sub(1),
        1 => exact + 1,
        2 => rng.below(exact + 1),
        3 => exact + rng.below(40),
        _ => exact,
    };
    let (controls, properties, bytes) = (near(exact[0], 30), near(exact[1], 30), near(exact[2], 8));
    // as much as makes measuring needless, a byte less, or a little more
    let much = ample(stream, properties / plain::PROPERTY_WORDS);
    [controls, properties, [bytes, bytes, bytes, much, much - 1, much + 9][rng.below(6)]]
}

/// The library's answer and all that is lent, between guards; and the records.
fn called(library: WriteCsv, table: &[u8], stream: &[u8], [c, p, b]: Lent) -> Result<(u32, Vec<Record>), String> {
    let words = |n: usize| (0..n + 2 * GUARD).map(|i| 0xA500_0000 + 7 * i as u32).collect::<Vec<u32>>();
    let (mut controls, mut properties) = (words(c), words(p));
    let mut out: Vec<u8> = (0..b + 2 * GUARD).map(|i| (i % 251) as u8 ^ 0xA5).collect();
    let mut must = (Answer::refusal(0), controls.clone(), properties.clone(), out.clone());
    let rows = plain::read_blob(table, stream, c, p);
    must.0 = rows.answer;
    let mut records = Vec::new();
    if rows.answer.number == 0 {
        let found = Codes::parse(table).and_then(|codes| plain::reading(&codes, stream)).expect("a reading");
        records = blob_text::records(&found, stream);
        let text = blob_text::text(&records);
        if b < text.len() {
            must.0 = Answer::refusal(13);
        } else {
            must.0 = Answer { number: 0, counts: [text.len() as u32, 0, 0] };
            must.1[GUARD..][..plain::CONTROL_WORDS * rows.controls.len()].copy_from_slice(rows.controls.as_flattened());
            must.2[GUARD..][..plain::PROPERTY_WORDS * rows.properties.len()].copy_from_slice(rows.properties.as_flattened());
            must.3[GUARD..][..text.len()].copy_from_slice(&text);
        }
    }
    let (cs, ps, bytes) = (&mut controls[GUARD..GUARD + c], &mut properties[GUARD..GUARD + p], &mut out[GUARD..GUARD + b]);
    // SAFETY: each slice is lent as its pointer and its length, and those that are written overlap nothing.
    let answer = unsafe {
        library(
            table.as_ptr(),
            table.len(),
            stream.as_ptr(),
            stream.len(),
            cs.as_mut_ptr(),
            cs.len(),
            ps.as_mut_ptr(),
            ps.len(),
            bytes.as_mut_ptr(),
            bytes.len(),
        )
    }
    .answer();
    let found = (answer, controls, properties, out);
    if found != must {
        return Err(format!(
            "lent {c}, {p}, {b}: {:?}\n{}\nmust be {:?}\n{}",
            found.0,
            found.3.escape_ascii(),
            must.0,
            must.3.escape_ascii()
        ));
    }
    Ok((answer.number, records))
}

/// Readings of a stream and writings of its text, by turns: so many runs, of which the least counts.
const RUNS: usize = 101;

/// Times the writer beside the reading of the same stream, in room to the byte and in much, and prints how many readings one call takes.
pub fn bench(read: ReadBlob, library: WriteCsv) {
    let table = oracle::codes().bytes();
    let streams = [
        ("Access 2000 form, 60 controls", long::form2000(60, 0)),
        ("Access 2000 form, 10,000 controls", long::form2000(10_000, 0)),
        ("later tree, 10,000 nodes", long::tree(10_000, 0)),
    ];
    for (name, stream) in &streams {
        let found = Codes::parse(&table).and_then(|codes| plain::reading(&codes, stream)).expect("a reading");
        let rows = plain::rows(&found);
        let text = blob_text::text(&blob_text::records(&found, stream));
        let mut controls = vec![0; plain::CONTROL_WORDS * rows.controls.len()];
        let mut properties = vec![0; plain::PROPERTY_WORDS * rows.properties.len()];
        let mut out = vec![0; ample(stream, rows.properties.len())];
        let mut least = [f64::INFINITY; 3];
        for _ in 0..RUNS {
            for (way, least) in least.iter_mut().enumerate() {
                let room = if way == 1 { text.len() } else { out.len() };
                let (c, p) = ((controls.as_mut_ptr(), controls.len()), (properties.as_mut_ptr(), properties.len()));
                let start = Instant::now();
                // SAFETY: each slice is lent as its pointer and its length, and those that are written overlap nothing.
                let answer = unsafe {
                    if way == 0 {
                        read(table.as_ptr(), table.len(), stream.as_ptr(), stream.len(), c.0, c.1, p.0, p.1)
                    } else {
                        library(table.as_ptr(), table.len(), stream.as_ptr(), stream.len(), c.0, c.1, p.0, p.1, out.as_mut_ptr(), room)
                    }
                };
                *least = least.min(start.elapsed().as_secs_f64() * 1e6);
                let must = if way == 0 { rows.answer } else { Answer { number: 0, counts: [text.len() as u32, 0, 0] } };
                assert_eq!(answer.answer(), must);
            }
        }
        assert!(out[..text.len()] == text[..], "{name}: another text");
        let [reading, exact, much] = least;
        println!(
            "{name}: read {reading:.1} us; room to the byte {exact:.1} us, {:.2} readings; much room {much:.1} us, {:.2} readings",
            exact / reading,
            much / reading
        );
    }
}

/// Room in which no text of so many rows of such a stream is measured first.
fn ample(stream: &[u8], properties: usize) -> usize {
    34 + 94 * properties + 2 * stream.len()
}

#[cfg(test)]
mod tests {
    use super::*;

    /// What a library does that writes plainly, but for one slip.
    macro_rules! library {
        ($name:ident, $slip:expr) => {
            #[allow(clippy::too_many_arguments)]
            extern "C" fn $name(
                t: *const u8,
                tn: usize,
                s: *const u8,
                sn: usize,
                c: *mut u32,
                cn: usize,
                p: *mut u32,
                pn: usize,
                o: *mut u8,
                on: usize,
            ) -> CAnswer {
                // SAFETY: called with slices alone, above.
                let (t, s) = unsafe { (std::slice::from_raw_parts(t, tn), std::slice::from_raw_parts(s, sn)) };
                let (c, p) = unsafe { (std::slice::from_raw_parts_mut(c, cn), std::slice::from_raw_parts_mut(p, pn)) };
                let o = unsafe { std::slice::from_raw_parts_mut(o, on) };
                let rows = plain::read_blob(t, s, cn, pn);
                if rows.answer.number != 0 {
                    return CAnswer::of(rows.answer);
                }
                let found = plain::reading(&Codes::parse(t).unwrap(), s).unwrap();
                let slip: fn(Vec<u8>, &mut [u8]) -> Answer = $slip;
                let a = slip(blob_text::text(&blob_text::records(&found, s)), o);
                if a.number == 0 {
                    c[..plain::CONTROL_WORDS * rows.controls.len()].copy_from_slice(rows.controls.as_flattened());
                    p[..plain::PROPERTY_WORDS * rows.properties.len()].copy_from_slice(rows.properties.as_flattened());
                }
                CAnswer::of(a)
            }
        };
    }

    fn written(text: Vec<u8>, out: &mut [u8]) -> Answer {
        if out.len() < text.len() {
            return Answer::refusal(13);
        }
        out[..text.len()].copy_from_slice(&text);
        Answer { number: 0, counts: [text.len() as u32, 0, 0] }
    }

    library!(right, written);
    library!(single_quote, |text, out| written(text.split(|&b| b == b'"').collect::<Vec<_>>().join(&b'\''), out));
    library!(exact_is_too_little, |text, out| if out.len() == text.len() { Answer::refusal(13) } else { written(text, out) });

    #[test]
    fn slips_of_a_writer_are_seen() {
        assert!(compare(right, 2_000, 3, &mut io::sink()).unwrap());
        assert!(!compare(single_quote, 2_000, 3, &mut io::sink()).unwrap());
        assert!(!compare(exact_is_too_little, 2_000, 3, &mut io::sink()).unwrap());
    }
}
