//! Pairs of code tables joined by the library itself, and held against document 02: the answer, its counts and every byte of what is lent.

use crate::cases::rng::Rng;
use crate::cases::{join, Case};
use crate::large::CAnswer;
use crate::plain::join::{join as joined, kept};
use crate::plain::Answer;
use crate::small::smallest;
use std::collections::BTreeMap;

pub type Join = unsafe extern "C" fn(*const u8, usize, *const u8, usize, *mut u8, usize) -> CAnswer;

/// So many bytes in front of what is lent, and behind it.
const GUARD: usize = 16;
/// How many rows a scope of a crowded table gets about: few, or at times nearly all.
const FEW: usize = 4;
const MANY: usize = 400;

/// Joins every telling pair and `count` random ones, one in a hundred of them large; prints how many gave each answer, or the first that differs.
pub fn compare(library: Join, count: usize, seed: u64) -> bool {
    let mut answers = BTreeMap::new();
    let mut found = None;
    let mut take = |case: Case| match found {
        None => match difference(library, &case) {
            Ok(number) => *answers.entry(number).or_insert(0) += 1,
            Err(why) => found = Some(shown(library, &case, why)),
        },
        Some(_) => {}
    };
    join::telling(&mut take);
    let mut rng = Rng::new(seed);
    for _ in 0..count {
        let most = if rng.one_in(100) { MANY } else { FEW };
        take(join::pair(&mut rng, most));
    }
    match &found {
        None => println!("{count} random pairs of seed {seed} and the telling ones: no difference; by answer {answers:?}"),
        Some(why) => println!("seed {seed}: a difference\n{why}"),
    }
    found.is_none()
}

fn shown(library: Join, case: &Case, why: String) -> String {
    let differs = |case: &Case| difference(library, case).err().map(|why| (case.clone(), why));
    smallest(case, why, &mut |cases| cases.iter().find_map(differs))
}

/// The answer's number, or in which way the library differs.
fn difference(library: Join, case: &Case) -> Result<u32, String> {
    let ((one, other), room) = (case.pair(), case.numbers[0] as usize);
    let (answer, written) = joined(one, other, room);
    kept(one, other, room, answer, &written)?;
    let before: Vec<u8> = (0..room + 2 * GUARD).map(|i| (i % 251) as u8 ^ 0xA5).collect();
    let mut after = before.clone();
    let found = called(library, one, other, &mut after[GUARD..GUARD + room]);
    if found != answer {
        return Err(format!("{room} bytes lent: {found:?}, must be {answer:?}"));
    }
    let must = |i: usize| i.checked_sub(GUARD).and_then(|i| written.get(i)).unwrap_or(&before[i]);
    match (0..after.len()).find(|&i| after[i] != *must(i)) {
        Some(i) => Err(format!("byte {} of {room} lent: {:02X}, must be {:02X}", i as isize - GUARD as isize, after[i], must(i))),
        None => Ok(answer.number),
    }
}

fn called(library: Join, one: &[u8], other: &[u8], out: &mut [u8]) -> Answer {
    // SAFETY: each slice is lent as its pointer and its length, and the one that is written overlaps nothing.
    unsafe { library(one.as_ptr(), one.len(), other.as_ptr(), other.len(), out.as_mut_ptr(), out.len()) }.answer()
}

#[cfg(test)]
mod tests {
    use super::*;

    /// What a library does that joins plainly, but for one slip.
    macro_rules! library {
        ($name:ident, $slip:expr) => {
            extern "C" fn $name(one: *const u8, n: usize, other: *const u8, m: usize, out: *mut u8, room: usize) -> CAnswer {
                // SAFETY: called with slices alone, above.
                let (one, other, out) = unsafe {
                    (std::slice::from_raw_parts(one, n), std::slice::from_raw_parts(other, m), std::slice::from_raw_parts_mut(out, room))
                };
                let (answer, written) = joined(one, other, room);
                out[..written.len()].copy_from_slice(&written);
                let slip: fn(Answer, &mut [u8]) -> Answer = $slip;
                CAnswer::of(slip(answer, out))
            }
        };
    }

    library!(right, |answer, _| answer);
    library!(other_number, |answer, _| if answer.number == 18 { Answer::refusal(9) } else { answer });
    library!(a_byte_behind, |answer, out| {
        let end = answer.counts[0] as usize;
        out[end..].iter_mut().take(1).for_each(|byte| *byte = 0);
        answer
    });

    #[test]
    fn slips_of_a_library_are_seen() {
        assert!(compare(right, 2_000, 3));
        assert!(!compare(other_number, 2_000, 3));
        assert!(!compare(a_byte_behind, 2_000, 3));
    }
}
