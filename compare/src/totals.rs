//! Lists of fresh streams counted by the library into one record after the other, held against document 02 read plainly: each answer and each number of the
//! record, between guards. A list that begins with zeros is counted backwards too.

use crate::cases::random;
use crate::cases::rng::Rng;
use crate::large::CAnswer;
use crate::plain::codes::Codes;
use crate::plain::totals::{count, order, Stream, What, CEILING, WORDS};
use crate::plain::{reading, rows, Answer};
use crate::{form, oracle};
use std::collections::BTreeMap;

pub type Count = unsafe extern "C" fn(*mut u32, *const u8, usize, *const u8, usize, u32, u32) -> CAnswer;

/// So many words before the record, and after it.
const GUARD: usize = 8;
/// A list has at most so many streams.
const LONGEST_LIST: usize = 12;

/// Counts `n` streams; prints how many gave each answer, or the first that differs.
pub fn compare(library: Count, n: usize, seed: u64) -> bool {
    let order = order(&names());
    let table = oracle::codes().bytes();
    let mut rng = Rng::new(seed);
    let (mut answers, mut lists, mut done, mut backwards) = (BTreeMap::new(), 0, 0, 0);
    while done < n {
        let list: Vec<Stream> = (0..1 + rng.below(LONGEST_LIST)).map(|_| stream(&mut rng, &table)).collect();
        let start = if rng.one_in(3) { near(&mut rng, &order) } else { BTreeMap::new() };
        match listed(library, &order, &start, &list, &mut answers) {
            Err(why) => {
                println!("seed {seed}, list {lists}: a difference\n{why}");
                return false;
            }
            Ok((last, refused)) if start.is_empty() && !refused => {
                let turned: Vec<Stream> = list.iter().rev().cloned().collect();
                if listed(library, &order, &start, &turned, &mut BTreeMap::new()) != Ok((last, false)) {
                    println!("seed {seed}, list {lists}: another record in the other order");
                    return false;
                }
                backwards += 1;
            }
            Ok(_) => {}
        }
        done += list.len();
        lists += 1;
    }
    println!("{done} random streams of seed {seed} in {lists} lists: no difference; by answer {answers:?}; {backwards} lists counted backwards too");
    true
}

/// jetdb's names of control types, each once, by the first code that has it.
fn names() -> Vec<&'static str> {
    let mut names = Vec::new();
    for name in (0..=u16::MAX).filter_map(form::control_type_name) {
        if !names.contains(&name) {
            names.push(name);
        }
    }
    names
}

/// The record after a list, and whether one of it was refused by 12.
fn listed(
    library: Count,
    order: &[What],
    start: &BTreeMap<What, u64>,
    list: &[Stream],
    answers: &mut BTreeMap<u32, usize>,
) -> Result<(Vec<u32>, bool), String> {
    assert_eq!(order.len(), WORDS);
    let guard = |i: usize| 0xA5A5_0000 + i as u32;
    let mut lent: Vec<u32> = (0..WORDS + 2 * GUARD).map(guard).collect();
    let mut record = start.clone();
    lent[GUARD..][..WORDS].copy_from_slice(&words(order, &record));
    let mut refused = false;
    for (n, stream) in list.iter().enumerate() {
        let (must, next) = count(&record, stream, form::control_type_name);
        let (t, s, out) = (&stream.table, &stream.bytes, &mut lent[GUARD..][..WORDS]);
        // SAFETY: each slice is lent as its pointer and its length, and the record has as many words as the header says.
        let found = unsafe { library(out.as_mut_ptr(), t.as_ptr(), t.len(), s.as_ptr(), s.len(), stream.room[0], stream.room[1]) }.answer();
        let kept = (0..GUARD).chain(GUARD + WORDS..lent.len()).all(|i| lent[i] == guard(i));
        let due = words(order, &next);
        if found != must || lent[GUARD..][..WORDS] != due || !kept {
            return Err(format!("stream {n}, {found:?}, must be {must:?}\n{stream:02X?}\n{:?}\nmust be\n{due:?}", &lent[GUARD..][..WORDS]));
        }
        refused |= must == Answer::refusal(12);
        *answers.entry(must.number).or_insert(0) += 1;
        record = next;
    }
    Ok((lent[GUARD..][..WORDS].to_vec(), refused))
}

fn words(order: &[What], record: &BTreeMap<What, u64>) -> Vec<u32> {
    order.iter().map(|what| record.get(what).copied().unwrap_or(0) as u32).collect()
}

/// A record in which some totals are near the ceiling.
fn near(rng: &mut Rng, order: &[What]) -> BTreeMap<What, u64> {
    let mut record = BTreeMap::new();
    for &what in order {
        let n = if rng.one_in(8) { CEILING - rng.below(30) as u64 } else { rng.below(1000) as u64 };
        record.insert(what, n);
    }
    record
}

/// A Blob under jetdb's table or another one, in room for all of it or around what is needed.
fn stream(rng: &mut Rng, table: &[u8]) -> Stream {
    let case = if rng.one_in(4) { random::other_table(rng) } else { random::blob(rng) };
    let table = case.table.as_deref().unwrap_or(table).to_vec();
    let mut room = [u32::MAX; 2];
    if rng.one_in(3) {
        let found = Codes::parse(&table).and_then(|codes| reading(&codes, &case.bytes));
        let counts = found.map_or([1, 1, 0], |found| rows(&found).answer.counts);
        room = [0, 1].map(|i| (counts[i] + rng.below(3) as u32).saturating_sub(1));
    }
    Stream { table, bytes: case.bytes, room }
}
