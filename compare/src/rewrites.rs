//! Fresh Access 2000 streams rewritten by the library, held against document 02 read plainly; then read again, by the plain reader and by jetdb: the same but
//! for starts.

use crate::cases::rng::Rng;
use crate::large::CAnswer;
use crate::plain::rewrite::rewrite;
use crate::plain::{access2000, codes::Codes, Answer, Name, Property};
use crate::{form2000, oracle};
use std::collections::BTreeMap;

pub type Rewrite = unsafe extern "C" fn(*const u8, usize, *mut u8, usize) -> CAnswer;

/// So many bytes before what is lent, and after it.
const GUARD: usize = 16;

/// Rewrites `count` random streams, one in ten of them damaged or with little room; prints how many gave each answer, or the first that differs.
/// Without a library the plain rewriter alone is held against both readers.
pub fn compare(library: Option<Rewrite>, count: usize, seed: u64) -> bool {
    let codes = oracle::codes();
    let mut rng = Rng::new(seed);
    let (mut answers, mut shorter) = (BTreeMap::new(), 0);
    for n in 0..count {
        let mut s = stream(&mut rng);
        let mut room = s.len();
        if rng.one_in(20) {
            s.truncate(rng.below(s.len()));
        }
        if rng.one_in(20) {
            room = rng.below(s.len() + 1);
        }
        match difference(library, &codes, &s, room) {
            Ok((number, less)) => {
                *answers.entry(number).or_insert(0) += 1;
                shorter += usize::from(less);
            }
            Err(why) => {
                println!("seed {seed}, stream {n}: a difference\n{s:02X?}\n{why}");
                return false;
            }
        }
    }
    println!("{count} random streams of seed {seed}: no difference; by answer {answers:?}; {shorter} became shorter");
    true
}

fn difference(library: Option<Rewrite>, codes: &Codes, s: &[u8], room: usize) -> Result<(u32, bool), String> {
    let must = rewrite(s, room);
    if let Some(library) = library {
        called(library, s, room, &must)?;
    }
    let r = match must {
        Ok(r) => r,
        Err(number) => return Ok((number, false)),
    };
    let (before, after) = (access2000::reading(codes, s), access2000::reading(codes, &r));
    let (Some(before), Some(after)) = (before, after) else { return Err("not accepted".to_string()) };
    let bytes = |s: &[u8], p: &Property| (p.id, p.value, p.length, s[p.start..][..p.length].to_vec());
    let all = |s: &[u8], ps: &[Property]| ps.iter().map(|p| bytes(s, p)).collect::<Vec<_>>();
    let name = |s: &[u8], name: Name| match name {
        Name::Text { start, length } => (0, s[start..][..length].to_vec()),
        Name::Numbered => (1, Vec::new()),
        Name::Loose { start, length } => (2, s[start..][..length].to_vec()),
    };
    let same = all(s, &before.own) == all(&r, &after.own)
        && before.controls.len() == after.controls.len()
        && before.controls.iter().zip(&after.controls).all(|(a, b)| {
            (a.level, a.type_code, name(s, a.name)) == (b.level, b.type_code, name(&r, b.name))
                && all(s, &a.properties) == all(&r, &b.properties)
        });
    let by_jetdb = |s: &[u8]| format!("{:?}", form2000::read(s));
    let promised = [
        ("other rows", same),
        ("other rows by jetdb", by_jetdb(s) == by_jetdb(&r)),
        ("longer", r.len() <= s.len()),
        ("another when rewritten again", rewrite(&r, r.len()).as_ref() == Ok(&r)),
        ("other leading bytes", r[..10] == s[..10]),
    ];
    match promised.iter().find(|(_, so)| !so) {
        Some((why, _)) => Err(format!("{why}: {r:02X?}")),
        None => Ok((0, r.len() < s.len())),
    }
}

/// The library's answer and every byte of what is lent, between guards.
fn called(library: Rewrite, s: &[u8], room: usize, must: &Result<Vec<u8>, u32>) -> Result<(), String> {
    let before: Vec<u8> = (0..room + 2 * GUARD).map(|i| (i % 251) as u8 ^ 0xA5).collect();
    let mut after = before.clone();
    let lent = &mut after[GUARD..GUARD + room];
    // SAFETY: each slice is lent as its pointer and its length, and the one that is written overlaps nothing.
    let answer = unsafe { library(s.as_ptr(), s.len(), lent.as_mut_ptr(), lent.len()) }.answer();
    let mut expected = before;
    let number = match must {
        Ok(r) => {
            expected[GUARD..][..r.len()].copy_from_slice(r);
            Answer { number: 0, counts: [r.len() as u32, 0, 0] }
        }
        Err(number) => Answer::refusal(*number),
    };
    if answer != number || after != expected {
        return Err(format!("{room} bytes lent: {answer:?} and {after:02X?}, must be {number:?} and {expected:02X?}"));
    }
    Ok(())
}

// ---- streams in any spelling

fn stream(rng: &mut Rng) -> Vec<u8> {
    let mut out = rng.bytes(10);
    out[0] = form2000::VERSION;
    out[8] = rng.pick(&[0x97, 0x96, 0x00]);
    put_run(rng, &mut out);
    let mut left = 12;
    put_list(rng, &mut out, &mut left);
    out
}

fn put_run(rng: &mut Rng, out: &mut Vec<u8>) {
    for _ in 0..rng.below(4) {
        let id = if rng.one_in(2) { rng.pick(&[0xDC, 0xDF, 0xBD, 0xFC]) } else { rng.below(0xFD) as u8 };
        out.push(id);
        let size = match id {
            0..=0x2F => 0,
            0x30..=0x5F => 1,
            0x60..=0x7F => 2,
            0x80..=0xBC => 4,
            _ => rng.pick(&[0, 1, 2, 3, 4, 8, 16, 252, 253, 254, 255, 256, 300]),
        };
        if id > 0xBC {
            if size > 254 || rng.one_in(2) {
                out.push(0xFF);
                out.extend((size as u16).to_le_bytes());
            } else {
                out.push(size as u8);
            }
        }
        let text = rng.one_in(2);
        out.extend((0..size).map(|i| if text && i % 2 == 1 { 0 } else { rng.byte() }).collect::<Vec<_>>());
    }
}

fn put_list(rng: &mut Rng, out: &mut Vec<u8>, left: &mut usize) {
    let count = rng.pick(&[0, 1, 1, 1, 2, 3]).min(*left);
    *left -= count;
    if count == 1 && rng.one_in(2) {
        out.push(0xFE);
    } else {
        out.push(0xFF);
        out.extend((count as u16).to_le_bytes());
    }
    for _ in 0..count {
        let type_code = rng.pick(&[0x98, 0x99, 0x9E, 0x64, 0x6D, 0xFFFD, 5]);
        out.extend((type_code as u16).to_le_bytes());
        put_run(rng, out);
        if rng.one_in(2) {
            out.push(0xFD);
        } else {
            put_list(rng, out, left);
        }
    }
}

#[cfg(test)]
mod tests {
    use super::*;

    /// What a library does that rewrites plainly, but for one slip.
    macro_rules! library {
        ($name:ident, $slip:expr) => {
            extern "C" fn $name(s: *const u8, n: usize, out: *mut u8, room: usize) -> CAnswer {
                // SAFETY: called with slices alone, above.
                let (s, out) = unsafe { (std::slice::from_raw_parts(s, n), std::slice::from_raw_parts_mut(out, room)) };
                let slip: fn(&mut [u8], Result<Vec<u8>, u32>) -> Answer = $slip;
                CAnswer::of(slip(out, rewrite(s, room)))
            }
        };
    }

    fn written(out: &mut [u8], found: Result<Vec<u8>, u32>) -> Answer {
        match found {
            Ok(r) => {
                out[..r.len()].copy_from_slice(&r);
                Answer { number: 0, counts: [r.len() as u32, 0, 0] }
            }
            Err(number) => Answer::refusal(number),
        }
    }

    library!(right, written);
    library!(other_number, |out, found| written(out, found.map_err(|number| if number == 9 { 4 } else { number })));
    library!(a_byte_after, |out, found| {
        let a = written(out, found);
        out[a.counts[0] as usize..].iter_mut().take(1).for_each(|byte| *byte ^= 1);
        a
    });

    #[test]
    fn slips_of_a_library_are_seen() {
        assert!(compare(None, 2_000, 3));
        assert!(compare(Some(right), 2_000, 3));
        assert!(!compare(Some(other_number), 2_000, 3));
        assert!(!compare(Some(a_byte_after), 2_000, 3));
    }
}
