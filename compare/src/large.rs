//! Streams around the longest that is taken, read by the library and held against jetdb and document 01, word by word.

use crate::expect::Judge;
use crate::judge;
use crate::long::*;
use crate::plain::{self, Answer, LONGEST};

/// What rows hold before a call, so that a word that is written, or isn't, shows.
const UNWRITTEN: u32 = 0xDEAD_BEEF;

/// The library's answer, as C returns it.
#[repr(C)]
pub struct CAnswer {
    number: u32,
    counts: [u32; 3],
}

impl CAnswer {
    pub fn answer(&self) -> Answer {
        Answer { number: self.number, counts: self.counts }
    }

    #[cfg(test)]
    pub fn of(answer: Answer) -> CAnswer {
        CAnswer { number: answer.number, counts: answer.counts }
    }
}

pub type ReadBlob = unsafe extern "C" fn(*const u8, usize, *const u8, usize, *mut u32, usize, *mut u32, usize) -> CAnswer;
pub type ReadTypeInfo = unsafe extern "C" fn(*const u8, usize, *mut u32, usize) -> CAnswer;

/// The library's two readers of streams.
pub struct Library {
    pub read_blob: ReadBlob,
    pub read_type_info: ReadTypeInfo,
}

impl Library {
    fn blob(&self, table: &[u8], stream: &[u8], controls: &mut [u32], properties: &mut [u32]) -> Answer {
        let (c, p) = ((controls.as_mut_ptr(), controls.len()), (properties.as_mut_ptr(), properties.len()));
        // SAFETY: each slice is lent as its pointer and its length, and none overlaps another.
        unsafe { (self.read_blob)(table.as_ptr(), table.len(), stream.as_ptr(), stream.len(), c.0, c.1, p.0, p.1) }.answer()
    }

    fn type_info(&self, stream: &[u8], rows: &mut [u32]) -> Answer {
        // SAFETY: as above.
        unsafe { (self.read_type_info)(stream.as_ptr(), stream.len(), rows.as_mut_ptr(), rows.len()) }.answer()
    }
}

// ---- the streams

/// A stream of so many bytes.
type Make = fn(usize) -> Vec<u8>;

fn changed(mut s: Vec<u8>, place: usize, byte: u8) -> Vec<u8> {
    s[place] = byte;
    s
}

fn cut(mut s: Vec<u8>) -> Vec<u8> {
    s.pop();
    s
}

fn longer(mut s: Vec<u8>) -> Vec<u8> {
    s.push(0);
    s
}

const BLOBS: [(&str, Make); 14] = [
    ("Access 2000 form", |n| filled(n, form2000)),
    ("Access 2000 report", |n| changed(filled(n, form2000), 8, 0x97)),
    ("Access 2000, flags", |n| flags2000(n - 13)),
    ("Access 2000, long values", |n| filled(n, values2000)),
    ("Access 2000, bad at the start", |n| changed(filled(n, form2000), 10, 0xFD)),
    ("Access 2000, cut by a byte", |n| cut(filled(n + 1, form2000))),
    ("Access 2000, a byte more", |n| longer(filled(n - 1, form2000))),
    ("later tree", |n| filled(n, tree)),
    ("later tree, a byte more, so scanned", |n| longer(filled(n - 1, tree))),
    ("later, one binary value", |n| value(0x0B, vec![0x5A; n - 32])),
    ("later, one text", |n| value(0x0A, vec![0x41; n - 32])),
    ("scan, a control every 130 bytes", |n| scan(n, 0)),
    ("scan, a control every 4,000 bytes", |n| scan(n, 4000)),
    ("later, zeros", |n| vec![0; n]),
];

const TYPE_INFOS: [(&str, Make); 4] = [
    ("TypeInfo", |n| filled(n, type_info)),
    ("TypeInfo, an endless last name", |n| cut(cut(filled(n + 2, type_info)))),
    ("TypeInfo, wrong first bytes", |n| changed(filled(n, type_info), 0, 0)),
    ("TypeInfo, count too high", |n| changed(filled(n, type_info), 15, 0xFF)),
];

// ---- the comparison

/// Compares all streams of three sizes; prints a line for each, and how it differs where it does.
pub fn compare(library: &Library) -> bool {
    let judge = Judge::new();
    let mut agreed = true;
    for size in [LONGEST - 1, LONGEST, LONGEST + 1] {
        for (name, make) in BLOBS {
            agreed &= told(size, name, blob_agrees(library, &judge, &make(size)));
        }
        for (name, make) in TYPE_INFOS {
            agreed &= told(size, name, type_info_agrees(library, &make(size)));
        }
    }
    agreed
}

fn told(size: usize, name: &str, verdict: Result<Answer, String>) -> bool {
    match &verdict {
        Ok(a) => println!("{size} bytes, {name}: answer {}, counts {:?}; agrees", a.number, a.counts),
        Err(why) => println!("{size} bytes, {name}: DIFFERS: {why}"),
    }
    verdict.is_ok()
}

/// The stream with just enough rows, a part of a row more, a row too few of each kind, and under a table that isn't well formed.
pub fn blob_agrees(library: &Library, judge: &Judge, stream: &[u8]) -> Result<Answer, String> {
    if stream.len() <= LONGEST {
        judge::blob(&judge.codes, stream)?;
    }
    let all = plain::read_blob(&judge.table, stream, usize::MAX, usize::MAX).answer;
    let [controls, properties] = [0, 1].map(|i| [plain::CONTROL_WORDS, plain::PROPERTY_WORDS][i] * all.counts[i] as usize);
    let rooms = [
        [controls, properties],
        [controls + 5, properties + 9],
        [controls.saturating_sub(1), properties],
        [controls, properties.saturating_sub(1)],
    ];
    for room in rooms {
        blob_in(library, &judge.table, stream, room)?;
    }
    blob_in(library, &judge.table[1..], stream, rooms[0])?;
    Ok(all)
}

/// The stream with so many words lent.
pub fn blob_in(library: &Library, table: &[u8], stream: &[u8], room: [usize; 2]) -> Result<(), String> {
    let expected = plain::read_blob(table, stream, room[0], room[1]);
    let [mut controls, mut properties] = room.map(|words| vec![UNWRITTEN; words]);
    let answer = library.blob(table, stream, &mut controls, &mut properties);
    same(answer, expected.answer, room)?;
    same_rows("control", &controls, expected.controls.as_flattened())?;
    same_rows("property", &properties, expected.properties.as_flattened())
}

pub fn type_info_agrees(library: &Library, stream: &[u8]) -> Result<Answer, String> {
    if stream.len() <= LONGEST {
        judge::type_info(stream)?.ok();
    }
    let all = plain::typeinfo::read_type_info(stream, usize::MAX).0;
    let words = plain::typeinfo::WORDS * all.counts[0] as usize;
    for room in [words, words + 3, words.saturating_sub(1)] {
        type_info_in(library, stream, room)?;
    }
    Ok(all)
}

pub fn type_info_in(library: &Library, stream: &[u8], room: usize) -> Result<(), String> {
    let (answer, rows) = plain::typeinfo::read_type_info(stream, room);
    let mut lent = vec![UNWRITTEN; room];
    same(library.type_info(stream, &mut lent), answer, [room, 0])?;
    same_rows("TypeInfo", &lent, rows.as_flattened())
}

fn same(found: Answer, expected: Answer, room: [usize; 2]) -> Result<(), String> {
    if found == expected {
        Ok(())
    } else {
        Err(format!("{room:?} words lent: {found:?}, must be {expected:?}"))
    }
}

/// The words that must be written, and none behind them.
fn same_rows(what: &str, lent: &[u32], expected: &[u32]) -> Result<(), String> {
    let must = |i: usize| expected.get(i).copied().unwrap_or(UNWRITTEN);
    match (0..lent.len()).find(|&i| lent[i] != must(i)) {
        Some(i) => Err(format!("{what} word {i}: {}, must be {}", lent[i], must(i))),
        None => Ok(()),
    }
}
