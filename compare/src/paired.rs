//! Controls paired with TypeInfo by the library itself: held against document 02, and against jetdb's `merge_controls` where all names are ASCII.

use crate::cases::build::{head_later, node_later, property_later, type_info_entry, type_info_head, utf16};
use crate::cases::rng::Rng;
use crate::cases::{Case, Kind, Sink};
use crate::form::{blob_of, merged_types, type_info_of};
use crate::large::CAnswer;
use crate::listing::{answer_line, row_line, CONTROL_WORDS as CONTROL_ROOM, PROPERTY_WORDS, TYPE_INFO_WORDS};
use crate::plain::pairing::{pair, Rows};
use crate::plain::{self, later, typeinfo, Answer, CONTROL_WORDS};
use std::time::Instant;

pub type Pair = unsafe extern "C" fn(*const u8, usize, *mut u32, usize, u32, *const u8, usize, *const u32, usize, u32) -> CAnswer;

/// No first byte is this layout byte.
const NO_LAYOUT: u32 = 256;

/// As many controls as Access allows on a form.
const MOST: usize = 754;

// ---- one call

fn called(library: Pair, rows: &Rows, controls: &mut [u32]) -> Answer {
    let (s, t, i) = (&rows.stream, &rows.info_stream, &rows.infos);
    let (c, n, m) = ((controls.as_mut_ptr(), controls.len()), rows.control_count, rows.info_count);
    // SAFETY: each slice is lent as its pointer and its length, and the one that is written overlaps nothing.
    unsafe { library(s.as_ptr(), s.len(), c.0, c.1, n, t.as_ptr(), t.len(), i.as_ptr(), i.len(), m) }.answer()
}

/// The answer's number, or in which way the library differs from document 02.
fn difference(library: Pair, rows: &Rows) -> Result<u32, String> {
    let (answer, must) = pair(rows);
    let mut controls = rows.controls.clone();
    let found = called(library, rows, &mut controls);
    if found != answer {
        return Err(format!("{found:?}, must be {answer:?}"));
    }
    match (0..must.len()).find(|&i| controls[i] != must[i]) {
        Some(i) => Err(format!("word {i}: {:08X}, must be {:08X}", controls[i], must[i])),
        None => Ok(answer.number),
    }
}

// ---- streams

/// The rows of a later Blob and of TypeInfo, as they are read.
fn read(stream: Vec<u8>, info_stream: Vec<u8>) -> Rows {
    let found = plain::rows(&later::reading(&stream));
    let infos = typeinfo::entries(&info_stream).unwrap_or_default();
    let (control_count, info_count) = (found.controls.len() as u32, infos.len() as u32);
    let infos = infos.iter().flat_map(typeinfo::Entry::row).collect();
    Rows { stream, controls: found.controls.concat(), control_count, info_stream, infos, info_count }
}

/// The library and jetdb give each control the same type.
fn as_jetdb(library: Pair, rows: &Rows) -> Result<(), String> {
    let mut controls = rows.controls.clone();
    called(library, rows, &mut controls);
    same_types(rows, &controls)
}

/// jetdb gives these rows of controls the types that they have.
fn same_types(rows: &Rows, controls: &[u32]) -> Result<(), String> {
    let (_, groups) = blob_of(&rows.stream).map_err(|_| "jetdb reads no Blob")?;
    let infos = type_info_of(&rows.info_stream).map_err(|_| "jetdb reads no TypeInfo")?;
    let types = controls.chunks(CONTROL_WORDS).map(|row| row[0]).collect::<Vec<_>>();
    let must = merged_types(groups, &infos).into_iter().map(u32::from).collect::<Vec<_>>();
    if types == must {
        Ok(())
    } else {
        Err(format!("types {types:04X?}, jetdb has {must:04X?}"))
    }
}

/// A stream that is scanned: its object's group is unread.
fn scanned(names: &[Vec<u8>]) -> Vec<u8> {
    let unread = [&[1, 0, 1, 0, 0, 0, 0, 0, 0, 0][..], &u32::MAX.to_le_bytes()].concat();
    let controls = names.iter().map(|name| property_later(0x14, 0x0A, name, 0)).collect::<Vec<_>>().concat();
    [head_later(), unread, controls].concat()
}

/// A tree: a section that holds a control for each name, numbered where there is none.
fn tree(names: &[Option<Vec<u8>>], rng: &mut Rng) -> Vec<u8> {
    let child = |name: &Option<Vec<u8>>, code: u16| match name {
        Some(name) => [node_later(code), property_later(0x14, 0x0A, name, 253)].concat(),
        None => [node_later(code), property_later(0x36, 2, &[1, 0], 253)].concat(),
    };
    let children = names.iter().map(|name| child(name, 0x64 + rng.below(16) as u16)).collect::<Vec<_>>().concat();
    let count = (names.len() as u16).to_le_bytes();
    let object = property_later(0x96, 2, &[1, 0], 254);
    [head_later(), object, node_later(0x98), property_later(0x2C, 2, &[1, 0], 255), count.to_vec(), children].concat()
}

fn type_info(names: &[(u16, Vec<u8>)]) -> Vec<u8> {
    let entry = |n: usize, (code, name): &(u16, Vec<u8>)| {
        let tail = if code & 0xFF == 0x77 { 36 } else { 0 };
        [type_info_entry(*code, n as u32), vec![0], name.clone(), vec![0], vec![0x77; tail]].concat()
    };
    let entries = names.iter().enumerate().map(|(n, name)| entry(n, name)).collect::<Vec<_>>().concat();
    [type_info_head(names.len() as u32), entries].concat()
}

/// Few letters, so that names meet; those around A, Z, a and z among them.
const LETTERS: &[u8] = b"aAbBzZ@[`{_0 ";

fn word(rng: &mut Rng) -> String {
    if rng.one_in(6) {
        let label = plain::label(rng.below(9) as u32);
        return label.chars().map(|c| if rng.one_in(2) { c.to_ascii_uppercase() } else { c.to_ascii_lowercase() }).collect();
    }
    (0..rng.below(4)).map(|_| char::from(rng.pick(LETTERS))).collect()
}

/// A control's name as it is stored: UTF-16, at times bytes of odd length, which is text that isn't UTF-16.
fn stored(rng: &mut Rng) -> Vec<u8> {
    let name = word(rng);
    if rng.one_in(8) && name.len() % 2 == 1 {
        name.into_bytes()
    } else {
        utf16(&name)
    }
}

fn ascii(rng: &mut Rng) -> Rows {
    let infos = (0..rng.below(9)).map(|_| (rng.pick(&[0x64, 0x126D, 0x1B77, 0x136F]), word(rng).into_bytes())).collect::<Vec<_>>();
    let count = rng.below(9);
    let stream = if rng.one_in(2) {
        scanned(&(0..count).map(|_| stored(rng)).collect::<Vec<_>>())
    } else {
        let names = (0..count).map(|_| (!rng.one_in(4)).then(|| stored(rng))).collect::<Vec<_>>();
        tree(&names, rng)
    };
    read(stream, type_info(&infos))
}

/// Rows of any words, most of them nearly right, over bytes of any kind.
fn any(rng: &mut Rng) -> Rows {
    let (n, m) = (rng.below(5), rng.below(5));
    let (size, info_size) = (rng.below(40), rng.below(40));
    let letters = |rng: &mut Rng, n: usize| {
        (0..n).map(|_| if rng.one_in(9) { rng.byte() } else { rng.pick(b"aAzZ\0\0\0\x7F\x80") }).collect::<Vec<_>>()
    };
    let place = |rng: &mut Rng, size: usize| match rng.below(20) {
        0 => u32::MAX - rng.below(3) as u32,
        1 => (size + rng.below(3)) as u32,
        _ => rng.below(size + 1) as u32,
    };
    let length = |rng: &mut Rng, start: u32, size: usize| match rng.below(20) {
        0 => u32::MAX - rng.below(3) as u32,
        1 => size.saturating_sub(start as usize) as u32 + 1,
        _ => rng.below(size.saturating_sub(start as usize).min(6) + 1) as u32,
    };
    let (stream, info_stream) = (letters(rng, size), letters(rng, info_size));
    let (mut controls, mut infos) = (Vec::new(), Vec::new());
    for _ in 0..n {
        let start = place(rng, size);
        let mark = if rng.one_in(12) { rng.below(5) as u32 } else { rng.pick(&[0, 0, 0, 1, 2]) };
        controls.extend([rng.next() as u32, mark, start, length(rng, start, size), 7, 8, 9, 10]);
    }
    for _ in 0..m {
        let start = place(rng, info_size);
        let cut = if rng.one_in(4) { rng.below(3) as u32 } else { 0 };
        infos.extend([rng.next() as u32, rng.next() as u32, start, length(rng, start, info_size), cut]);
    }
    controls.extend((0..rng.below(9)).map(|_| 0xABAB));
    infos.extend((0..rng.below(6)).map(|_| 0xCDCD));
    let counted =
        |rng: &mut Rng, n: usize| if rng.one_in(10) { rng.pick(&[n + 1, n + 2, u32::MAX as usize]) } else { rng.below(n + 1) } as u32;
    Rows { control_count: counted(rng, n), info_count: counted(rng, m), stream, controls, info_stream, infos }
}

// ---- cases of a batch

impl Case {
    /// TypeInfo and a later Blob whose controls are paired with it.
    fn pairing(family: &'static str, info_stream: &[u8], stream: &[u8]) -> Case {
        Case::other(family, Kind::Pairing, [info_stream.len() as u32, 0], [info_stream, stream].concat())
    }

    /// The two streams of such a case.
    pub fn info_and_stream(&self) -> (&[u8], &[u8]) {
        self.bytes.split_at(self.bytes.len().min(self.numbers[0] as usize))
    }
}

/// One random pair of streams, at times with a byte turned.
pub fn random(rng: &mut Rng) -> Case {
    let rows = ascii(rng);
    let mut case = Case::pairing("random pairing", &rows.info_stream, &rows.stream);
    if rng.one_in(4) {
        let at = rng.below(case.bytes.len());
        case.bytes[at] ^= 1 << rng.below(8);
    }
    case
}

/// Letters around A, Z, a and z in each case; names twice, empty, of odd length, beyond ASCII, cut; labels; entries that aren't reported; refusals.
pub fn telling(out: Sink) {
    let mut rng = Rng::new(2);
    let words = ["", "@", "A", "Z", "[", "`", "a", "z", "{", "aZ", "Az", "control_1", "CONTROL_2", "Control_10"];
    let beyond = ["\u{80}", "\u{E9}", "\u{C9}", "\u{212A}", "\u{130}", "\u{4141}", "k"];
    let names = |words: &[&str]| words.iter().map(|word| utf16(word)).collect::<Vec<_>>();
    let infos = |words: &[&str]| type_info(&words.iter().zip(0x100..).map(|(word, code)| (code, word.as_bytes().to_vec())).collect::<Vec<_>>());
    let bytes = |all: &[&[u8]]| type_info(&all.iter().zip(0x200..).map(|(name, code)| (code, name.to_vec())).collect::<Vec<_>>());
    let mut told = |info: &[u8], blob: &[u8]| out(Case::pairing("pairing", info, blob));
    for one in words {
        told(&infos(&[one]), &scanned(&names(&words)));
        told(&infos(&words), &scanned(&names(&[one, one])));
    }
    let numbered = [Some(utf16("A")), None, None, Some(b"odd".to_vec()), Some(utf16("control_1"))];
    told(&infos(&words), &tree(&numbered, &mut rng));
    told(&infos(&["ODD", "odd", "a", "A"]), &tree(&numbered, &mut rng));
    told(&bytes(&[b"\x80", b"\xE9", b"\xC9", b"K", b"I", b"AA", b"\xC3\xA9"]), &scanned(&names(&beyond)));
    told(&bytes(&[b"odd", b"od", b"o\0d"]), &scanned(&[b"odd".to_vec(), b"oDd".to_vec(), b"o\0d\0".to_vec()]));
    let whole = infos(&["A", "B"]);
    for lost in 0..=whole.len() {
        told(&whole[..whole.len() - lost], &scanned(&names(&["B", "A", "b"])));
    }
    told(&type_info(&[(0x1EFF, b"A".to_vec()), (0x1B77, b"b".to_vec()), (0x126D, b"a".to_vec())]), &scanned(&names(&["A", "B"])));
    let many = (0..257).map(|n| format!("n{n}")).collect::<Vec<_>>();
    let many = many.iter().map(String::as_str).collect::<Vec<_>>();
    told(&infos(&many), &scanned(&names(&["n256"])));
    told(&infos(&many[1..]), &scanned(&names(&many[157..])));
    told(&infos(&["n256"]), &scanned(&names(&many)));
}

/// All names are ASCII, and none was cut: then jetdb pairs as document 02 does.
fn is_plain(rows: &Rows) -> bool {
    let named = |stream: &[u8], row: &[u32]| stream[row[2] as usize..][..row[3] as usize].is_ascii();
    let control = |row: &[u32]| row[1] == 1 || named(&rows.stream, row);
    rows.controls.chunks(CONTROL_WORDS).all(control) && rows.infos.chunks(typeinfo::WORDS).all(|row| row[4] == 0 && named(&rows.info_stream, row))
}

/// What must be printed for two streams, and whether jetdb was asked; or in which way jetdb differs.
pub fn expected((info_stream, stream): (&[u8], &[u8])) -> Result<(String, bool), String> {
    let alone = |answer: Answer| Ok((answer_line("A", answer), false));
    let info = typeinfo::read_type_info(info_stream, TYPE_INFO_WORDS).0;
    if info.number != 0 {
        return alone(info);
    }
    let blob = plain::readers::read_later(NO_LAYOUT, stream, [CONTROL_ROOM, PROPERTY_WORDS]).answer;
    if blob.number != 0 {
        return alone(blob);
    }
    let rows = read(stream.to_vec(), info_stream.to_vec());
    let (answer, controls) = pair(&rows);
    let asked = is_plain(&rows);
    if asked {
        same_types(&rows, &controls)?;
    }
    let lines = controls.chunks(CONTROL_WORDS).map(|row| row_line('C', row)).collect::<String>();
    Ok((answer_line("A", answer) + &lines, asked))
}

// ---- all of it

/// Pairs `count` pairs of streams with ASCII names and as many slices of any words; prints how many gave each answer, or the first that differs.
pub fn compare(library: Pair, count: usize, seed: u64) -> bool {
    let mut rng = Rng::new(seed);
    let mut told = [0; 2];
    let mut types = 0;
    for n in 0..count {
        let (streams, words) = (ascii(&mut rng), any(&mut rng));
        let verdict = difference(library, &streams)
            .and_then(|number| as_jetdb(library, &streams).map(|()| number))
            .map_err(|why| (why, &streams))
            .and_then(|number| if number == 0 { Ok(()) } else { Err((format!("refused with {number}"), &streams)) })
            .and_then(|()| difference(library, &words).map_err(|why| (why, &words)));
        match verdict {
            Ok(number) => told[usize::from(number == 11)] += 1,
            Err((why, rows)) => {
                println!("seed {seed}, case {n}: a difference: {why}\n{rows:02X?}");
                return false;
            }
        }
        let (_, after) = pair(&streams);
        types += streams.controls.iter().zip(&after).filter(|(before, after)| before != after).count();
    }
    println!("{count} pairs of streams of seed {seed}: no difference from document 02 and from jetdb; {types} types set");
    println!("{count} slices of any words: no difference from document 02; {} answered 0, {} answered 11", told[0], told[1]);
    true
}

// ---- speed

/// Names as Access gives them, and names that differ in their last letters alone.
const NAMINGS: [(&str, fn(usize) -> String); 2] = [
    ("as Access names them", |n| format!("{}{n}", ["Label", "Text", "Command", "Combo", "Check", "Option", "Frame", "Box"][n % 8])),
    ("of one length and beginning", |n| format!("txtFeeder{n:03}")),
];

/// A scanned form of so many controls, and TypeInfo in another order.
fn large(controls: usize, name: fn(usize) -> String) -> Rows {
    let mut rng = Rng::new(1);
    let mut order = (0..controls).collect::<Vec<_>>();
    (1..controls).rev().for_each(|n| order.swap(n, rng.below(n + 1)));
    let infos = order.iter().map(|&n| (0x126D, name(n).to_uppercase().into_bytes())).collect::<Vec<_>>();
    read(scanned(&(0..controls).map(|n| utf16(&name(n))).collect::<Vec<_>>()), type_info(&infos))
}

/// The least of so many runs, in microseconds.
fn least(runs: usize, mut run: impl FnMut() -> f64) -> f64 {
    (0..runs).map(|_| run()).fold(f64::INFINITY, f64::min)
}

/// Times the library against `merge_controls` on forms of so many controls, and prints both.
pub fn bench(library: Pair) {
    for (naming, controls) in NAMINGS.iter().flat_map(|naming| [10, 100, 200, 400, MOST].map(|n| (naming, n))) {
        let rows = large(controls, naming.1);
        let infos = type_info_of(&rows.info_stream).expect("TypeInfo");
        let runs = if controls < 200 { 201 } else { 31 };
        let ours = least(runs, || {
            let mut controls = rows.controls.clone();
            let start = Instant::now();
            called(library, &rows, &mut controls);
            start.elapsed().as_secs_f64() * 1e6
        });
        let theirs = least(runs, || {
            let (_, groups) = blob_of(&rows.stream).expect("a Blob");
            let start = Instant::now();
            let merged = merged_types(groups, &infos);
            let taken = start.elapsed().as_secs_f64() * 1e6;
            assert_eq!(merged.len(), controls);
            taken
        });
        println!("{controls:4} controls {}: {ours:9.1} us, merge_controls {theirs:9.1} us, {:5.1} times", naming.0, theirs / ours);
    }
}

#[cfg(test)]
mod tests {
    use super::*;
    use std::slice::{from_raw_parts, from_raw_parts_mut};

    /// What a library does that pairs plainly, but for one slip.
    macro_rules! library {
        ($name:ident, $slip:expr) => {
            unsafe extern "C" fn $name(
                s: *const u8,
                sn: usize,
                c: *mut u32,
                cn: usize,
                n: u32,
                t: *const u8,
                tn: usize,
                i: *const u32,
                im: usize,
                m: u32,
            ) -> CAnswer {
                let (stream, info_stream) = (from_raw_parts(s, sn).to_vec(), from_raw_parts(t, tn).to_vec());
                let (controls, infos) = (from_raw_parts(c, cn).to_vec(), from_raw_parts(i, im).to_vec());
                let mut rows = Rows { stream, controls, control_count: n, info_stream, infos, info_count: m };
                let slip: fn(&mut Rows) = $slip;
                slip(&mut rows);
                let (answer, after) = pair(&rows);
                from_raw_parts_mut(c, cn).copy_from_slice(&after);
                CAnswer::of(answer)
            }
        };
    }

    library!(right, |_| {});
    library!(pairs_cut, |rows| rows.infos.chunks_mut(5).filter(|row| row.len() == 5).for_each(|row| row[4] = 0));
    library!(one_less, |rows| rows.info_count = rows.info_count.saturating_sub(1));

    #[test]
    fn slips_of_a_library_are_seen() {
        assert!(compare(right, 2_000, 3));
        assert!(!compare(pairs_cut, 2_000, 3));
        assert!(!compare(one_less, 2_000, 3));
    }

    /// Names beyond ASCII: jetdb folds all of Unicode after decoding, here they stay unpaired. One letter is the smallest.
    #[test]
    fn names_beyond_ascii_differ() {
        for (blob, info) in [("\u{E9}", &b"\xE9"[..]), ("\u{C9}", b"\xE9"), ("\u{212A}", b"k")] {
            let rows = read(scanned(&[utf16(blob)]), type_info(&[(0x126D, info.to_vec())]));
            let (answer, after) = pair(&rows);
            assert_eq!((answer.number, after[0]), (0, 0));
            let (_, groups) = blob_of(&rows.stream).unwrap();
            assert_eq!(merged_types(groups, &type_info_of(&rows.info_stream).unwrap()), [0x126D]);
        }
    }

    /// A name without its NUL: jetdb pairs it, here it is skipped.
    #[test]
    fn a_name_that_was_cut_differs() {
        let whole = type_info(&[(0x126D, b"A".to_vec())]);
        let rows = read(scanned(&[utf16("A")]), whole[..whole.len() - 1].to_vec());
        assert_eq!((pair(&rows).1[0], rows.infos[4]), (0, 1));
        let (_, groups) = blob_of(&rows.stream).unwrap();
        assert_eq!(merged_types(groups, &type_info_of(&rows.info_stream).unwrap()), [0x126D]);
    }
}
