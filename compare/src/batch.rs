//! Batch files: many cases for one run of another program. README.md has the format.

use crate::cases::rng::Rng;
use crate::cases::{fixed, join, leaves, random, readers, typeinfo, Case, Kind, KINDS};
use crate::expect::{Expected, Judge};
use crate::paired;
use crate::plain::u32_at;
use std::borrow::Cow;

/// About `count` cases, none longer than `longest` bytes: all telling ones, a part of the exhaustive ones, random ones.
pub fn select(seed: u64, count: usize, longest: usize) -> Vec<Case> {
    let mut rng = Rng::new(seed);
    let mut cases = Vec::new();
    always(&mut rng, &mut |case| cases.push(case));
    let rest = count.saturating_sub(cases.len());
    sample(&mut rng, rest / 3, &mut cases);
    while cases.len() < count {
        cases.push(chance(&mut rng));
    }
    cases.retain(|case| case.bytes.len() <= longest);
    // A table is sent once for all cases in a row that have it.
    cases.sort_by_key(|case| case.table.is_some());
    cases
}

fn always(rng: &mut Rng, out: &mut dyn FnMut(Case)) {
    fixed::telling(out);
    leaves::guids(rng, out);
    leaves::labels(out);
    leaves::names(rng, out);
    leaves::name_parts(out);
    join::telling(out);
    readers::telling(out);
    paired::telling(out);
    let mut own = Rng::new(11);
    (0..PAIRINGS).for_each(|_| out(paired::random(&mut own)));
}

/// So many random pairs of TypeInfo and a Blob, whatever the seed.
const PAIRINGS: usize = 200;

/// About `wanted` of the exhaustive cases, each with the same chance.
fn sample(rng: &mut Rng, wanted: usize, cases: &mut Vec<Case>) {
    let mut all = 0;
    exhaustive(4, &mut |_| all += 1);
    exhaustive(4, &mut |case| {
        if rng.below(all) < wanted {
            cases.push(case);
        }
    });
}

/// Draws cases from a seed: how many, and no longer than so many bytes.
pub type Draw = fn(u64, usize, usize, &mut dyn FnMut(Case) -> Result<(), String>) -> Result<(), String>;

/// `count` pairs of code tables.
pub fn joins(seed: u64, count: usize, longest: usize, out: &mut dyn FnMut(Case) -> Result<(), String>) -> Result<(), String> {
    let mut rng = Rng::new(seed);
    let mut fitting = std::iter::repeat_with(|| join::random(&mut rng)).filter(|case| case.bytes.len() <= longest);
    fitting.by_ref().take(count).try_for_each(out)
}

/// `count` Blobs for the reader of one layout.
pub fn readers(seed: u64, count: usize, longest: usize, out: &mut dyn FnMut(Case) -> Result<(), String>) -> Result<(), String> {
    let mut rng = Rng::new(seed);
    let mut fitting = std::iter::repeat_with(|| readers::random(&mut rng)).filter(|case| case.bytes.len() <= longest);
    fitting.by_ref().take(count).try_for_each(out)
}

/// `count` pairs of TypeInfo and a later Blob.
pub fn pairings(seed: u64, count: usize, longest: usize, out: &mut dyn FnMut(Case) -> Result<(), String>) -> Result<(), String> {
    let mut rng = Rng::new(seed);
    let mut fitting = std::iter::repeat_with(|| paired::random(&mut rng)).filter(|case| case.bytes.len() <= longest);
    fitting.by_ref().take(count).try_for_each(out)
}

/// `count` inputs of `formlist`.
pub fn listings(seed: u64, count: usize, longest: usize, out: &mut dyn FnMut(Case) -> Result<(), String>) -> Result<(), String> {
    let mut rng = Rng::new(seed);
    let mut fitting = std::iter::repeat_with(|| random::input(&mut rng)).filter(|case| case.bytes.len() <= longest);
    fitting.by_ref().take(count).try_for_each(out)
}

/// The names of the first `count` ids, in all four tables.
pub fn names(_: u64, count: usize, _: usize, out: &mut dyn FnMut(Case) -> Result<(), String>) -> Result<(), String> {
    (0..=u16::MAX).take(count).map(leaves::name).try_for_each(out)
}

/// `count` cases, none longer than `longest` bytes: a third of them exhaustive ones, the others random. `out` may end it.
pub fn drawn(seed: u64, count: usize, longest: usize, out: &mut dyn FnMut(Case) -> Result<(), String>) -> Result<(), String> {
    let mut rng = Rng::new(seed);
    let mut left = count;
    let mut verdict = Ok(());
    let mut take = |case: Case, most: usize, left: &mut usize| {
        if verdict.is_ok() && *left > most && case.bytes.len() <= longest {
            *left -= 1;
            verdict = out(case);
        }
        verdict.is_ok()
    };
    let mut all = 0;
    exhaustive(4, &mut |_| all += 1);
    exhaustive(4, &mut |case| {
        if rng.below(all) < count / 3 {
            take(case, count - count / 3, &mut left);
        }
    });
    while left > 0 && take(fresh(&mut rng), 0, &mut left) {}
    verdict
}

/// One random case, at times of a small function.
fn fresh(rng: &mut Rng) -> Case {
    if rng.one_in(20) {
        leaves::random(rng)
    } else if rng.one_in(20) {
        paired::random(rng)
    } else {
        chance(rng)
    }
}

/// Every exhaustive case.
pub fn exhaustive(longest: usize, out: &mut dyn FnMut(Case)) {
    fixed::exhaustive(longest, out);
    typeinfo::headers(out);
    typeinfo::tokens(longest + 1, out);
}

/// One random case of any kind.
pub fn chance(rng: &mut Rng) -> Case {
    match rng.below(20) {
        0 => random::input(rng),
        1..=3 => random::other_table(rng),
        4..=7 => typeinfo::random(rng),
        8 => join::random(rng),
        9 | 10 => readers::random(rng),
        _ => random::blob(rng),
    }
}

// ---- the file

fn frame(kind: Kind, numbers: [u32; 2], bytes: &[u8]) -> Vec<u8> {
    let head = [kind as u32, numbers[0], numbers[1], bytes.len() as u32];
    let mut out: Vec<u8> = head.iter().flat_map(|n| n.to_le_bytes()).collect();
    out.extend(bytes);
    out
}

/// The frames of the cases and what must be printed for each, or the first case on which jetdb differs.
pub fn written(judge: &Judge, cases: &[Case]) -> Result<(Vec<u8>, Vec<Expected>), String> {
    let mut frames = frame(Kind::Table, [0, 0], &judge.table);
    let mut all = Vec::new();
    let mut sent: &[u8] = &judge.table;
    for case in cases {
        let table = case.table.as_deref().unwrap_or(&judge.table);
        if matches!(case.kind, Kind::Blob | Kind::Read2000) && table != sent {
            frames.extend(frame(Kind::Table, [0, 0], table));
            sent = table;
        }
        frames.extend(frame(case.kind, case.numbers, &case.bytes));
        all.push(judge.expected(case).map_err(|why| format!("{why}\n{}", shown(case)))?);
    }
    Ok((frames, all))
}

/// The cases of a file, each with its table.
pub fn read(frames: &[u8]) -> Option<Vec<Case>> {
    let mut cases = Vec::new();
    let mut table: Option<std::rc::Rc<[u8]>> = None;
    let mut pos = 0;
    while pos < frames.len() {
        let number = |i: usize| u32_at(frames, pos + 4 * i);
        let kind = *KINDS.get(number(0)? as usize)?;
        let numbers = [number(1)?, number(2)?];
        let end = pos + 16 + number(3)? as usize;
        let bytes = frames.get(pos + 16..end)?.to_vec();
        pos = end;
        if kind == Kind::Table {
            table = Some(bytes.into());
        } else {
            cases.push(Case { family: "batch", kind, table: table.clone(), numbers, bytes });
        }
    }
    Some(cases)
}

/// Holds what a program printed against what must be printed: how many cases agree, or the first that doesn't.
pub fn judge(judge: &Judge, frames: &[u8], printed: &str) -> Result<usize, String> {
    let cases = read(frames).ok_or("the frames are broken")?;
    let mut rest = printed;
    for (n, case) in cases.iter().enumerate() {
        let text = judge.expected(case)?.text;
        rest = strip_text(rest, &text).ok_or_else(|| format!("case {n}\n{}\n{}", shown(case), both(&text, rest)))?;
    }
    if rest.is_empty() {
        Ok(cases.len())
    } else {
        Err(format!("more was printed: {}", first_lines(rest, 3)))
    }
}

/// What stands behind `expected` in `printed`, where it begins with it; a NaN is as good as any other.
pub fn strip_text<'a>(printed: &'a str, expected: &str) -> Option<&'a str> {
    if let Some(rest) = printed.strip_prefix(expected) {
        return Some(rest);
    }
    let mut rest = printed;
    for line in expected.split_inclusive('\n') {
        let end = rest.find('\n')? + 1;
        if without_nan(&rest[..end]) != without_nan(line) {
            return None;
        }
        rest = &rest[end..];
    }
    Some(rest)
}

/// A line with the bits of a NaN taken out: the words of a P row, or the digits of a listing.
fn without_nan(line: &str) -> Cow<'_, str> {
    let words: Vec<&str> = line.split_ascii_whitespace().collect();
    let number = |word: &str| word.parse::<u64>().unwrap_or(0);
    let (bits, others) = match words[..] {
        ["P", id, "4", low, high, start, length] => (number(high) << 32 | number(low), [id, start, length]),
        ["P", row, id, name, "double", digits] => (u64::from_str_radix(digits, 16).unwrap_or(0), [row, id, name]),
        _ => return line.into(),
    };
    if f64::from_bits(bits).is_nan() {
        format!("NaN {others:?}").into()
    } else {
        line.into()
    }
}

/// What must be printed, and as many lines of what was.
pub fn both(expected: &str, printed: &str) -> String {
    format!("must print\n{expected}but printed\n{}", first_lines(printed, expected.lines().count()))
}

pub fn first_lines(text: &str, n: usize) -> String {
    text.split_inclusive('\n').take(n).collect()
}

/// A case for the eye: its kind, its numbers and its bytes.
pub fn shown(case: &Case) -> String {
    let hex: String = case.bytes.iter().map(|b| format!(" {b:02X}")).collect();
    let table: String = case.table.iter().flat_map(|t| t.iter()).map(|b| format!(" {b:02X}")).collect();
    format!("{:?} {:?} {}\nbytes{hex}\nother table{table}", case.kind, case.numbers, case.family)
}
