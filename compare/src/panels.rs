//! Fresh streams of both layouts judged by the library's panel rules, held against document 02 read plainly: the answer, and every word of what is lent.

use crate::cases::build::{bytes2000, head2000, head_later, list2000, node_later, property_later, utf16};
use crate::cases::rng::Rng;
use crate::form;
use crate::large::ReadBlob;
use crate::plain::codes::{Codes, Row, Scope};
use crate::plain::panel::check;
use crate::plain::{self, Answer, CONTROL_WORDS, PROPERTY_WORDS};
use std::collections::BTreeMap;
use std::time::Instant;

/// So many words before what is lent, and after it.
const GUARD: usize = 8;

fn type_name(code: u32) -> Option<&'static str> {
    u16::try_from(code).ok().and_then(form::control_type_name)
}

/// Judges `count` random streams, some with little room or damaged; prints how often each rule was broken, or the first stream that differs.
pub fn compare(library: ReadBlob, count: usize, seed: u64) -> bool {
    let mut rng = Rng::new(seed);
    let mut told = BTreeMap::new();
    let together = [one_place(MOST_TOGETHER), one_number(MOST_TOGETHER)];
    for n in 0..count {
        let table = codes(&mut rng).bytes();
        let mut stream = match rng.below(400) {
            0 => crowd(&mut rng, &together),
            1..200 => form2000(&mut rng, &together),
            _ => later(&mut rng, &together),
        };
        if rng.one_in(40) {
            stream.truncate(rng.below(stream.len() + 1));
        }
        let whole = plain::read_blob(&table, &stream, 1 << 20, 1 << 20);
        let mut words = [whole.controls.len() * CONTROL_WORDS, whole.properties.len() * PROPERTY_WORDS];
        if rng.one_in(40) {
            let short = rng.below(2);
            words[short] = rng.below(words[short] + 1);
        }
        match difference(library, &table, &stream, words) {
            Ok(answer) => *told.entry(said(answer)).or_insert(0usize) += 1,
            Err(why) => {
                println!("seed {seed}, stream {n}: a difference\n{table:02X?}\n{stream:02X?}\n{why}");
                return false;
            }
        }
    }
    println!("{count} random streams of seed {seed}: no difference; {told:?}");
    true
}

fn said(answer: Answer) -> String {
    match (answer.number, answer.counts) {
        (0, [1, 0, 0]) => "yes".to_string(),
        (0, [_, _, rule]) => format!("rule {rule}"),
        (number, _) => format!("answer {number}"),
    }
}

/// The library's answer and every word of both slices, between guards.
fn difference(library: ReadBlob, table: &[u8], stream: &[u8], words: [usize; 2]) -> Result<Answer, String> {
    let must = check(table, stream, words, type_name);
    let before = words.map(|n| (0..n + 2 * GUARD).map(|i| 0xABAB_0000 + i as u32).collect::<Vec<_>>());
    let mut after = before.clone();
    let answer = called(library, table, stream, &mut after, words);
    let mut expected = before;
    expected[0][GUARD..][..must.controls.len() * CONTROL_WORDS].copy_from_slice(must.controls.as_flattened());
    expected[1][GUARD..][..must.properties.len() * PROPERTY_WORDS].copy_from_slice(must.properties.as_flattened());
    if answer != must.answer || after != expected {
        return Err(format!("{words:?} words lent: {answer:?}, must be {:?}; the words are the same: {}", must.answer, after == expected));
    }
    Ok(answer)
}

fn called(library: ReadBlob, table: &[u8], stream: &[u8], slices: &mut [Vec<u32>; 2], words: [usize; 2]) -> Answer {
    let [controls, properties] = slices;
    let (c, p) = (&mut controls[GUARD..GUARD + words[0]], &mut properties[GUARD..GUARD + words[1]]);
    // SAFETY: each slice is lent as its pointer and its length, and none overlaps another.
    unsafe { library(table.as_ptr(), table.len(), stream.as_ptr(), stream.len(), c.as_mut_ptr(), c.len(), p.as_mut_ptr(), p.len()) }
        .answer()
}

// ---- streams that mostly keep the rules

/// How often a control breaks one.
const SLIP: usize = 60;

/// Types that controls have; the last has no name.
const TYPES: [u16; 7] = [0x64, 0x6D, 0x6F, 0x6B, 0x7B, 0x7C, 0x71];

/// One byte or more as an id of Access 2000, with what it is tied to: names, sources, places of every size.
const TIES: [(u8, u16, u8); 11] = [
    (0x10, 0x36, 0), // a flag
    (0x40, 0x2C, 0), // one byte
    (0x60, 0x36, 0),
    (0x61, 0x8D, 0),
    (0x62, 0x96, 0),
    (0x63, 0x2C, 0),
    (0x85, 0x96, 0), // four bytes
    (0xDC, 0x14, 1),
    (0xE0, 0x1B, 1),
    (0xE1, 0x1B, 1),
    (0xE2, 0x1B, 4), // bytes
];

fn codes(rng: &mut Rng) -> Codes {
    let lacks = if rng.one_in(8) { rng.pick(&TIES).0 } else { 0 };
    let rows: Vec<Row> = TIES.iter().filter(|tie| tie.0 != lacks).map(|&(id, target, kind)| Row { id, target, kind }).collect();
    let scope = |code: u16| Scope { kind: 2, code, rows: rows.clone() };
    Codes { layout: 0x13, header: vec![0x99, 0x9A], scopes: [0x64, 0x6B, 0x6D, 0x6F, 0x7B, 0x7C, 0x98, 0x99].map(scope).to_vec() }
}

/// The number by which rule 3 of the library marks a name, so that names can be made which get in each other's way. No answer rests on it.
fn number(name: &str) -> u64 {
    utf16(name).iter().rev().fold(0, |n, &b| (n * 16_777_619 + u64::from(b)) % (1 << 32))
}

/// So many names whose marks stand in one place.
fn one_place(count: usize) -> Vec<String> {
    let place = |name: &String| number(name).pow(2) / (1 << 25) % 16_384;
    (0..).map(|n| format!("c{n}")).filter(|name| place(name) == 7).take(count).collect()
}

/// Two texts of six letters that leave the number of any name as it is, where one stands for the other.
fn twins() -> [String; 2] {
    let mut rng = Rng::new(1);
    let mut seen = BTreeMap::new();
    loop {
        let text: String = (0..6).map(|_| char::from(b'@' + rng.below(63) as u8)).collect();
        match seen.insert(number(&text), text.clone()) {
            Some(other) if other != text => return [other, text],
            _ => {}
        }
    }
}

/// So many names of one length that have one number: the digits of 0, 1, .. to the base 2, with twins as digits.
fn one_number(count: usize) -> Vec<String> {
    let twins = twins();
    let digits = count.next_power_of_two().trailing_zeros();
    (0..count).map(|n| (0..digits).map(|k| twins[n >> k & 1].as_str()).collect()).collect()
}

/// So many names of each such kind are used.
const MOST_TOGETHER: usize = 200;

/// What is left to make of a form: how many controls, whether in a chain, and with names that get in each other's way or any.
struct Making<'a> {
    left: usize,
    deep: bool,
    made: usize,
    together: Option<&'a [String]>,
}

impl<'a> Making<'a> {
    fn new(rng: &mut Rng, together: &'a [Vec<String>]) -> Making<'a> {
        let named = rng.below(8);
        Making { left: 14, deep: rng.one_in(6), made: 0, together: together.get(named).map(Vec::as_slice) }
    }

    /// A name that no control before has.
    fn name(&mut self) -> Vec<u8> {
        self.left = self.left.saturating_sub(1);
        self.made += 1;
        utf16(&self.together.map_or_else(|| format!("c{}", self.made), |names| names[self.made].clone()))
    }

    /// How many controls stand in the one that was made: chains go to level 8 and deeper once in a while.
    fn below(&self, rng: &mut Rng, level: usize) -> usize {
        match level {
            _ if self.deep && level < 9 && self.left > 0 => 1,
            0 => rng.below(self.left.min(5) + 1),
            _ if rng.one_in(4) => rng.below(self.left.min(3) + 1).max(usize::from(self.left > 0 && rng.one_in(2))),
            _ => 0,
        }
    }
}

/// A control: its type, its name, and properties by the id that they are shown with and one of several spellings.
struct Wanted {
    type_code: u16,
    name: Vec<u8>,
    sources: usize,
    empty: bool,
    bytes: bool,
    places: Vec<(u16, i16)>,
    odd: Option<u8>,
}

fn wanted(rng: &mut Rng, making: &mut Making, section: bool) -> Wanted {
    let slip = |rng: &mut Rng| rng.one_in(SLIP);
    let type_code = match (section, slip(rng)) {
        (true, _) => 0x98,
        (false, true) => 0x71,
        (false, false) => rng.pick(&TYPES[..6]),
    };
    let first = making.together.map_or_else(|| "c1".to_string(), |names| names[1].clone());
    let new = making.name();
    let name = match rng.below(SLIP) {
        0 => utf16(&first),
        1 => vec![0x00, 0xD8],
        2 => Vec::new(),
        _ => new,
    };
    let boxed = type_code == 0x6D || type_code == 0x6F;
    let sources = if slip(rng) { rng.below(3) } else { usize::from(boxed) };
    let mut places = Vec::new();
    for id in [0x36, 0x8D, 0x96, 0x2C] {
        let (low, may) = (rng.below(0x8000) as i16, id == 0x36 || id == 0x8D);
        if rng.one_in(2) {
            places.push((id, if may && rng.one_in(2) || slip(rng) { -1 - low } else { low }));
        }
    }
    let odd = if slip(rng) { Some(rng.pick(&[0x10, 0x40, 0x85])) } else { None };
    Wanted { type_code, name, sources, empty: slip(rng), bytes: slip(rng), places, odd }
}

fn form2000(rng: &mut Rng, together: &[Vec<String>]) -> Vec<u8> {
    let mut out = head2000(rng.pick(&[0x96, 0x97]));
    let tops = 1 + rng.below(3);
    out.extend(list2000(tops as u16, rng.one_in(2)));
    let mut making = Making::new(rng, together);
    for _ in 0..tops {
        put2000(rng, &mut out, 0, &mut making);
    }
    out
}

fn put2000(rng: &mut Rng, out: &mut Vec<u8>, level: usize, making: &mut Making) {
    let c = wanted(rng, making, level == 0);
    out.extend(c.type_code.to_le_bytes());
    out.extend(bytes2000(if level == 0 { 0xDF } else { 0xDC }, &c.name));
    for n in 0..c.sources {
        let id = if c.bytes { 0xE2 } else { 0xE0 + n as u8 % 2 };
        out.extend(bytes2000(id, if c.empty { &[] } else { b"B\0" }));
    }
    for &(id, low) in &c.places {
        out.push(match id {
            0x36 => 0x60,
            0x8D => 0x61,
            0x96 => 0x62,
            _ => 0x63,
        });
        out.extend(low.to_le_bytes());
    }
    match c.odd {
        Some(0x10) => out.push(0x10),
        Some(0x40) => out.extend([0x40, rng.byte()]),
        Some(id) => out.extend([id, 1, 0, 0, 0]),
        None => {}
    }
    let children = making.below(rng, level);
    if children == 0 {
        out.push(0xFD);
        return;
    }
    out.extend(list2000(children as u16, rng.one_in(2)));
    for _ in 0..children {
        put2000(rng, out, level + 1, making);
    }
}

/// A later tree: each property has a trailer, and the last of a group says what comes after it.
fn later(rng: &mut Rng, together: &[Vec<String>]) -> Vec<u8> {
    let mut out = head_later();
    let tops = 1 + rng.below(3);
    out.extend(property_later(0x05, 0x01, &[], 255));
    out.extend((tops as u16).to_le_bytes());
    let mut making = Making::new(rng, together);
    for _ in 0..tops {
        put_later(rng, &mut out, 0, &mut making);
    }
    out
}

fn put_later(rng: &mut Rng, out: &mut Vec<u8>, level: usize, making: &mut Making) {
    let c = wanted(rng, making, level == 0);
    let mut properties = vec![(0x14, 0x0A, c.name)];
    for _ in 0..c.sources {
        properties.push((0x1B, if c.bytes { 0x09 } else { 0x0A }, if c.empty { Vec::new() } else { b"B\0".to_vec() }));
    }
    for &(id, low) in &c.places {
        properties.push((id, 0x02, i32::from(low).to_le_bytes().to_vec()));
    }
    match c.odd {
        Some(0x10) => properties.push((0x36, 0x01, Vec::new())),
        Some(0x40) => properties.push((0x2C, 0x02, vec![rng.byte()])),
        Some(_) => properties.push((0x96, 0x04, vec![1, 0, 0, 0])),
        None => {}
    }
    let children = making.below(rng, level);
    let last = properties.len() - 1;
    out.extend(node_later(c.type_code));
    for (n, (id, kind, value)) in properties.into_iter().enumerate() {
        let trailer = match (n == last, children) {
            (false, _) => 0,
            (true, 0) => 253,
            (true, _) => 255,
        };
        out.extend(property_later(id, kind, &value, trailer));
    }
    if children > 0 {
        out.extend((children as u16).to_le_bytes());
        for _ in 0..children {
            put_later(rng, out, level + 1, making);
        }
    }
}

// ---- forms of many controls

/// Names as Access gives them; names of one length that differ in their last letters alone, or in their first, of 17 letters or as long as Access allows; names of one number.
const NAMINGS: [(&str, fn(usize) -> Vec<String>); 5] = [
    ("as Access names them", |n| (0..n).map(access_name).collect()),
    ("of one length and beginning", |n| (0..n).map(|n| format!("txtFeeder{n:04}")).collect()),
    ("of one length and end", |n| (0..n).map(|n| format!("{n:04}FeederVoltage")).collect()),
    ("of 64 letters and one end", |n| (0..n).map(|n| format!("{n:04}{}", "FeederVoltage12".repeat(4))).collect()),
    ("of one length and number", one_number),
];

fn access_name(n: usize) -> String {
    format!("{}{n}", ["Label", "Text", "Command", "Combo", "Check", "Option", "Frame", "Box"][n % 8])
}

/// A large form that keeps all rules, but for a name that comes again, near or far, in two of three.
fn crowd(rng: &mut Rng, together: &[Vec<String>]) -> Vec<u8> {
    let count = 2 + rng.below(754);
    let (_, naming) = rng.pick(&NAMINGS[..4]);
    let mut names = match together.get(rng.below(8)) {
        Some(names) => names[..count.min(MOST_TOGETHER)].to_vec(),
        None => naming(count),
    };
    if !rng.one_in(3) {
        let again = 1 + rng.below(names.len() - 1);
        names[again] = names[rng.below(again)].clone();
    }
    large(&names)
}

/// A form of controls with these names that keeps all rules where no name comes again: labels and text boxes in turn, each with its name, its place and six properties more.
fn large(names: &[String]) -> Vec<u8> {
    let mut out = head2000(0x96);
    out.extend(
        [list2000(1, false), 0x98u16.to_le_bytes().to_vec(), bytes2000(0xDF, &utf16("Detail")), list2000(names.len() as u16, true)]
            .concat(),
    );
    for (n, name) in names.iter().enumerate() {
        let boxed = n % 2 == 1;
        out.extend((if boxed { 0x6Du16 } else { 0x64 }).to_le_bytes());
        out.extend(bytes2000(0xDC, &utf16(name)));
        if boxed {
            out.extend(bytes2000(0xE0, &utf16("Voltage")));
        }
        (0x60..0x64).for_each(|id| out.extend([id, n as u8, 1]));
        (0x30..0x36).for_each(|id| out.extend([id, 1]));
        out.push(0xFD);
    }
    out
}

// ---- speed

fn least(runs: usize, mut run: impl FnMut() -> f64) -> f64 {
    (0..runs).map(|_| run()).fold(f64::INFINITY, f64::min)
}

/// Times the rules beside the reading of the same form, and prints how many readings one call takes.
pub fn bench(read: ReadBlob, library: ReadBlob) {
    let table = codes(&mut Rng::new(3)).bytes();
    for (naming, controls) in NAMINGS.iter().flat_map(|naming| [10, 100, 200, 400, 754, 3000].map(|n| (naming, n))) {
        let stream = large(&naming.1(controls));
        let whole = plain::read_blob(&table, &stream, 1 << 24, 1 << 24);
        let words = [whole.controls.len() * CONTROL_WORDS, whole.properties.len() * PROPERTY_WORDS];
        let mut slices = words.map(|n| vec![0; n + 2 * GUARD]);
        let mut time = |f: ReadBlob, counts: [u32; 3]| {
            least(if controls < 1000 { 101 } else { 11 }, || {
                let start = Instant::now();
                let answer = called(f, &table, &stream, &mut slices, words);
                let taken = start.elapsed().as_secs_f64() * 1e6;
                assert_eq!(answer, Answer { number: 0, counts });
                taken
            })
        };
        let (reading, checking) = (time(read, whole.answer.counts), time(library, [1, 0, 0]));
        println!(
            "{controls:4} controls {}: read {reading:9.1} us, checked {checking:9.1} us, {:5.2} readings",
            naming.0,
            checking / reading
        );
    }
}

#[cfg(test)]
mod tests {
    use super::*;
    use crate::large::CAnswer;
    use crate::plain::Rows;
    use std::slice::{from_raw_parts, from_raw_parts_mut};

    /// What a library does that judges plainly, but for one slip.
    macro_rules! library {
        ($name:ident, $slip:expr) => {
            unsafe extern "C" fn $name(
                t: *const u8,
                tn: usize,
                s: *const u8,
                sn: usize,
                c: *mut u32,
                cn: usize,
                p: *mut u32,
                pn: usize,
            ) -> CAnswer {
                let mut rows = check(from_raw_parts(t, tn), from_raw_parts(s, sn), [cn, pn], type_name);
                let slip: fn(&mut Rows) = $slip;
                slip(&mut rows);
                from_raw_parts_mut(c, cn)[..rows.controls.len() * CONTROL_WORDS].copy_from_slice(rows.controls.as_flattened());
                from_raw_parts_mut(p, pn)[..rows.properties.len() * PROPERTY_WORDS].copy_from_slice(rows.properties.as_flattened());
                CAnswer::of(rows.answer)
            }
        };
    }

    library!(right, |_| {});
    library!(always_yes, |rows| if rows.answer.number == 0 {
        rows.answer.counts = [1, 0, 0]
    });
    library!(deeper, |rows| if rows.answer.counts[2] == 6 {
        rows.answer.counts = [1, 0, 0]
    });
    library!(forgetful, |rows| if rows.answer.counts[2] == 3 && rows.answer.counts[1] > 200 {
        rows.answer.counts = [1, 0, 0]
    });
    library!(no_rows, |rows| if rows.answer.counts[0] == 0 && rows.answer.number == 0 {
        rows.controls.clear()
    });

    #[test]
    fn slips_of_a_library_are_seen() {
        assert!(compare(right, 2_000, 3));
        assert!(!compare(always_yes, 2_000, 3));
        assert!(!compare(deeper, 2_000, 3));
        assert!(!compare(forgetful, 2_000, 3));
        assert!(!compare(no_rows, 2_000, 3));
    }
}
