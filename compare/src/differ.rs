//! Fresh triples of an older table, a newer one and a stream, whose differences the library lists: the answer, its counts and every word that is lent, held
//! against what two plain readings give.

use crate::cases::random::{codes, damage, stream2000, tree, TELLING};
use crate::cases::rng::Rng;
use crate::large::CAnswer;
use crate::oracle;
use crate::plain::codes::Codes;
use crate::plain::differences::{differences, DIFFERENCE_WORDS};
use std::collections::BTreeMap;

pub type Differences = unsafe extern "C" fn(*const u8, usize, *const u8, usize, *const u8, usize, *mut u32, usize) -> CAnswer;

/// So many words before what is lent, and after it.
const GUARD: usize = 8;

/// Lists the differences of `count` triples; prints how many gave each answer and how many rows were listed, or the first triple that differs.
pub fn compare(library: Differences, count: usize, seed: u64) -> bool {
    let mut rng = Rng::new(seed);
    let (mut answers, mut listed) = (BTreeMap::new(), 0);
    for n in 0..count {
        let [older, newer, stream] = triple(&mut rng);
        let needed = differences(&older, &newer, &stream, usize::MAX).1.len() * DIFFERENCE_WORDS;
        let words = if rng.one_in(6) { rng.below(needed + 12) } else { needed + rng.below(2 * DIFFERENCE_WORDS) };
        match difference(library, [&older, &newer, &stream], words) {
            Ok((number, rows)) => {
                *answers.entry(number).or_insert(0) += 1;
                listed += rows;
            }
            Err(why) => {
                println!("seed {seed}, triple {n}: a difference\n{older:02X?}\n{newer:02X?}\n{stream:02X?}\n{why}");
                return false;
            }
        }
    }
    println!("{count} triples of seed {seed}: no difference; {listed} rows listed; by answer {answers:?}");
    true
}

/// The answer's number and how many rows were listed, or in which way the library differs.
fn difference(library: Differences, [older, newer, stream]: [&[u8]; 3], words: usize) -> Result<(u32, usize), String> {
    let (answer, rows) = differences(older, newer, stream, words);
    let before: Vec<u32> = (0..words + 2 * GUARD).map(|i| 0xABAB_0000 + i as u32).collect();
    let mut after = before.clone();
    let lent = &mut after[GUARD..GUARD + words];
    let (o, n, s) = ((older.as_ptr(), older.len()), (newer.as_ptr(), newer.len()), (stream.as_ptr(), stream.len()));
    // SAFETY: each slice is lent as its pointer and its length, and the words overlap nothing.
    let found = unsafe { library(o.0, o.1, n.0, n.1, s.0, s.1, lent.as_mut_ptr(), lent.len()) }.answer();
    let mut must = before;
    must[GUARD..][..rows.len() * DIFFERENCE_WORDS].copy_from_slice(rows.as_flattened());
    if found != answer || after != must {
        return Err(format!("{words} words lent: {found:?}, must be {answer:?}; the words are the same: {}\n{rows:?}", after == must));
    }
    Ok((answer.number, rows.len()))
}

/// Mostly a table, the same without some rows, and a stream that speaks for its layout.
fn triple(rng: &mut Rng) -> [Vec<u8>; 3] {
    let newer = if rng.one_in(2) { oracle::codes() } else { codes(rng) };
    let mut older = newer.clone();
    let often = rng.pick(&[2, 4, 20, 100]);
    for scope in &mut older.scopes {
        scope.rows.retain(|_| !rng.one_in(often));
    }
    if rng.one_in(3) {
        older.scopes.retain(|_| !rng.one_in(4));
    }
    if rng.one_in(12) {
        spoil(rng, &mut older);
    }
    let mut stream = if rng.one_in(8) { tree(rng) } else { stream2000(rng) };
    if let (Some(first), false) = (stream.first_mut(), rng.one_in(12)) {
        *first = newer.layout;
    }
    if rng.one_in(8) {
        damage(rng, &mut stream, &TELLING);
    }
    let mut tables = [older.bytes(), newer.bytes()];
    if rng.one_in(24) {
        let which = rng.below(2);
        damage(rng, &mut tables[which], &TELLING);
    }
    if rng.one_in(24) {
        tables.reverse();
    }
    let [older, newer] = tables;
    [older, newer, stream]
}

/// A row that is another in the newer table, another head, or a row that it lacks.
fn spoil(rng: &mut Rng, table: &mut Codes) {
    match rng.below(4) {
        0 => table.layout ^= 1,
        1 => table.header = table.header.iter().copied().skip(1).collect(),
        _ => {
            let rows: usize = table.scopes.iter().map(|s| s.rows.len()).sum();
            let pick = rng.below(rows.max(1));
            if let Some(row) = table.scopes.iter_mut().flat_map(|s| &mut s.rows).nth(pick) {
                match rng.below(3) {
                    0 => row.target ^= 1,
                    1 => row.kind = (row.kind + 1) % 5,
                    _ => row.target ^= 0x100,
                }
            }
        }
    }
}

#[cfg(test)]
mod tests {
    use super::*;
    use crate::plain::differences::DifferenceRow;
    use crate::plain::Answer;
    use std::slice::{from_raw_parts, from_raw_parts_mut};

    /// What a library does that lists plainly, but for one slip.
    macro_rules! library {
        ($name:ident, $slip:expr) => {
            unsafe extern "C" fn $name(
                o: *const u8,
                on: usize,
                n: *const u8,
                nn: usize,
                s: *const u8,
                sn: usize,
                w: *mut u32,
                wn: usize,
            ) -> CAnswer {
                let (mut answer, mut rows) = differences(from_raw_parts(o, on), from_raw_parts(n, nn), from_raw_parts(s, sn), wn);
                let slip: fn(&mut Answer, &mut Vec<DifferenceRow>) = $slip;
                slip(&mut answer, &mut rows);
                from_raw_parts_mut(w, wn)[..rows.len() * DIFFERENCE_WORDS].copy_from_slice(rows.as_flattened());
                CAnswer::of(answer)
            }
        };
    }

    library!(right, |_, _| {});
    library!(anyway, |answer, _| if answer.number == 19 {
        *answer = Answer { number: 0, counts: [0; 3] }
    });
    library!(controls_from_one, |_, rows| rows.iter_mut().filter(|row| row[1] < 0xFFFF).for_each(|row| row[1] += 1));
    library!(shown_type, |_, rows| rows.iter_mut().filter(|row| row[4] == 0x99).for_each(|row| row[4] |= 0x1800));

    #[test]
    fn slips_of_a_library_are_seen() {
        assert!(compare(right, 3_000, 3));
        assert!(!compare(anyway, 3_000, 3));
        assert!(!compare(controls_from_one, 3_000, 3));
        assert!(!compare(shown_type, 3_000, 3));
    }
}
