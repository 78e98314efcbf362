//! A case made small: the shortest found that still differs.

use crate::batch::shown;
use crate::cases::{join, Case, Kind};

/// Up to so many bytes every cut is tried, beyond it only halves, quarters and so on.
const EVERY_CUT: usize = 256;
/// Up to so many bytes every cut is tried with every byte in front of it lowered, as a count is.
const EVERY_COUNT: usize = 48;
/// How many bytes are judged at a time, and in all.
const AT_A_TIME: usize = 1 << 20;
const IN_ALL: usize = 6 << 20;

/// The first of some cases that differs, and how.
pub type Differs<'a> = &'a mut dyn FnMut(&[Case]) -> Option<(Case, String)>;

/// Makes a case shorter as long as some shorter one still differs; the last one and how it differs.
pub fn smallest(case: &Case, why: String, differs: Differs) -> String {
    let mut found = (case.clone(), why);
    let mut left = IN_ALL;
    while let Some(next) = first_shorter(&found.0, &mut left, differs) {
        found = next;
    }
    format!("{}\n{}", found.1, shown(&found.0))
}

fn first_shorter(case: &Case, left: &mut usize, differs: Differs) -> Option<(Case, String)> {
    let mut all = shorter_cases(case).peekable();
    while all.peek().is_some() {
        let mut some = Vec::new();
        let mut size = 0;
        while size < AT_A_TIME {
            let Some(next) = all.next() else { break };
            size += 100 + next.bytes.len();
            some.push(next);
        }
        *left = left.checked_sub(size)?;
        if let Some(found) = differs(&some) {
            return Some(found);
        }
    }
    None
}

/// A case with shorter bytes; of a pair first scopes and rows are left out, then bytes of one table at a time.
fn shorter_cases(case: &Case) -> Box<dyn Iterator<Item = Case> + '_> {
    if case.kind != Kind::Join {
        return Box::new(shorter(&case.bytes).map(|bytes| Case { bytes, ..case.clone() }));
    }
    let ((one, other), room) = (case.pair(), case.numbers[0] as usize);
    let first = shorter(one).map(move |one| Case::join(case.family, &one, other, room));
    Box::new(join::less(case).into_iter().chain(first).chain(shorter(other).map(move |other| Case::join(case.family, one, &other, room))))
}

/// Shorter bytes to try; of few bytes the shortest first, and those with a lowered count behind all others.
fn shorter(bytes: &[u8]) -> Box<dyn Iterator<Item = Vec<u8>> + '_> {
    let n = bytes.len();
    if n <= EVERY_CUT {
        let alone = (0..n).flat_map(move |length| cuts(bytes, n - length, 1).chain(ends(bytes, length)));
        let counts = (0..n).filter(move |_| n <= EVERY_COUNT).flat_map(move |length| counted_cuts(bytes, n - length));
        return Box::new(alone.chain(counts));
    }
    let sizes = std::iter::successors(Some(n / 2), |size| Some(size / 2)).take_while(|size| *size > 0);
    Box::new(sizes.flat_map(move |size| cuts(bytes, size, size)))
}

/// So many bytes cut out, from every `step`th place on.
fn cuts(bytes: &[u8], size: usize, step: usize) -> impl Iterator<Item = Vec<u8>> + '_ {
    (0..=bytes.len() - size).step_by(step).map(move |from| [&bytes[..from], &bytes[from + size..]].concat())
}

/// The first `length` bytes with one of them made 0, as a count that was of more.
fn ends(bytes: &[u8], length: usize) -> impl Iterator<Item = Vec<u8>> + '_ {
    (0..length).filter(|i| bytes[*i] != 0).map(move |i| [&bytes[..i], &[0], &bytes[i + 1..length]].concat())
}

/// So many bytes cut out, and a byte in front of them lowered by one.
fn counted_cuts(bytes: &[u8], size: usize) -> impl Iterator<Item = Vec<u8>> + '_ {
    let places = (1..=bytes.len() - size).flat_map(|from| (0..from).map(move |i| (from, i)));
    places
        .filter(|(_, i)| bytes[*i] > 0)
        .map(move |(from, i)| [&bytes[..i], &[bytes[i] - 1], &bytes[i + 1..from], &bytes[from + size..]].concat())
}
