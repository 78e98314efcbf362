//! Random streams of all shapes, whole and damaged, under jetdb's table and under others.

use super::build::*;
use super::rng::Rng;
use super::{Case, Kind};
use crate::plain::codes::{Codes, Row, Scope};
use crate::{listing, oracle, plain};

pub const TELLING: [u8; 20] =
    [0x00, 0x01, 0x02, 0x0A, 0x13, 0x14, 0x30, 0x60, 0x64, 0x80, 0x97, 0x98, 0x9A, 0x9E, 0xDC, 0xDF, 0xFC, 0xFD, 0xFE, 0xFF];

/// One Blob case under jetdb's own table.
pub fn blob(rng: &mut Rng) -> Case {
    let (family, mut s) = match rng.below(5) {
        0 | 1 => ("random 2000", stream2000(rng)),
        2 | 3 => ("random tree", tree(rng)),
        _ => ("random scan", scan(rng)),
    };
    if rng.one_in(2) {
        for _ in 0..1 + rng.below(3) {
            damage(rng, &mut s, &TELLING);
        }
    }
    let mut case = Case::blob(family, s);
    if rng.one_in(8) {
        set_room(rng, &mut case);
    }
    case
}

/// Words lent around what is needed, but no more than `formlist` lends.
fn set_room(rng: &mut Rng, case: &mut Case) {
    let table = case.table.as_deref().map_or_else(|| Some(oracle::codes()), Codes::parse);
    let found = table.and_then(|codes| plain::reading(&codes, &case.bytes));
    let counts = found.map_or([1, 1, 0], |found| plain::rows(&found).answer.counts);
    for (i, words) in case.numbers.iter_mut().enumerate() {
        let width = [plain::CONTROL_WORDS, plain::PROPERTY_WORDS][i];
        let around = (width as u32 * counts[i] + rng.below(2 * width + 1) as u32).saturating_sub(width as u32 + 1);
        *words = around.min([listing::CONTROL_WORDS, listing::PROPERTY_WORDS][i] as u32);
    }
}

// ---- the Access 2000 layout

pub fn stream2000(rng: &mut Rng) -> Vec<u8> {
    let mut s = head2000(rng.pick(&[0x96, 0x96, 0x97, 0x97, 0x00]));
    run2000(rng, &mut s, 0);
    list(rng, &mut s, 0);
    s
}

fn list(rng: &mut Rng, s: &mut Vec<u8>, level: usize) {
    let count = if level == 0 { rng.below(5) } else { rng.below(4) };
    s.extend(list2000(count as u16, rng.one_in(3)));
    for _ in 0..count {
        entry(rng, s, level);
    }
}

fn entry(rng: &mut Rng, s: &mut Vec<u8>, level: usize) {
    let type_code = type_code(rng);
    s.extend(type_code.to_le_bytes());
    run2000(rng, s, type_code);
    if level < 6 && rng.one_in(2) {
        list(rng, s, level + 1);
    } else {
        s.push(0xFD);
    }
}

pub fn type_code(rng: &mut Rng) -> u16 {
    let any = rng.next() as u16;
    let section = 0x97 + rng.below(9) as u16;
    let control = 0x64 + rng.below(0x1A) as u16;
    rng.pick(&[section, section, control, control, control, 0x6D, 0x1899, 0xFDFD, 0xFE64, any])
}

fn run2000(rng: &mut Rng, s: &mut Vec<u8>, type_code: u16) {
    if rng.one_in(2) {
        let id = if (0x98..=0x9E).contains(&type_code) { 0xDF } else { 0xDC };
        let name = text(rng);
        s.extend(bytes2000(id, &name));
    }
    for _ in 0..rng.below(5) {
        property2000(rng, s);
    }
}

fn property2000(rng: &mut Rng, s: &mut Vec<u8>) {
    let any = rng.byte() % 0xFD;
    let id = rng.pick(&[any, any, 0x00, 0x2F, 0x30, 0x5F, 0x60, 0x7F, 0x80, 0xBC, 0xBD, 0xDC, 0xDF, 0xD0, 0xCE, 0xFC]);
    s.push(id);
    match id {
        0x00..=0x2F => {}
        0x30..=0x5F => s.extend(number(rng, 1)),
        0x60..=0x7F => s.extend(number(rng, 2)),
        0x80..=0xBC => s.extend(number(rng, 4)),
        _ => {
            let value = value(rng);
            s.extend(length2000(value.len(), rng.one_in(4)));
            s.extend(value);
        }
    }
}

fn number(rng: &mut Rng, size: usize) -> Vec<u8> {
    if rng.one_in(2) {
        rng.bytes(size)
    } else {
        vec![rng.pick(&TELLING); size]
    }
}

fn value(rng: &mut Rng) -> Vec<u8> {
    let length = rng.pick(&[0, 1, 2, 3, 7, 8, 8, 9, 15, 16, 16, 17, 30]);
    match rng.below(4) {
        0 => vec![rng.pick(&TELLING); length],
        1 => rng.bytes(length),
        2 if rng.one_in(20) => vec![rng.byte(); rng.pick(&[252, 253, 254, 255, 256, 300])],
        _ => text(rng),
    }
}

fn text(rng: &mut Rng) -> Vec<u8> {
    let any = rng.next() as u16;
    let units = [0x41, 0x62, 0x20, 0xE4, 0x3042, 0x41, 0x42, 0x43, 0x2C, any];
    let mut s: Vec<u8> = (0..rng.below(7)).flat_map(|_| rng.pick(&units).to_le_bytes()).collect();
    match rng.below(12) {
        0 => s.extend([0x3D, 0xD8, 0x00, 0xDE]),
        1 => s.extend([0x3D, 0xD8]),
        2 => s.extend([0x00, 0xDE]),
        3 => s.push(0x41),
        4 => s = utf16(&format!("Control_{}", rng.below(4))),
        _ => {}
    }
    s
}

// ---- the later layout

pub fn tree(rng: &mut Rng) -> Vec<u8> {
    let mut s = head_later();
    s[0] = rng.pick(&[0x00, 0x01, 0x12, 0x14, 0xFF]);
    let count = rng.below(4);
    group(rng, &mut s, 0, count, 0);
    s
}

/// A group that ends for `count` children, and they.
fn group(rng: &mut Rng, s: &mut Vec<u8>, type_code: u16, count: usize, level: usize) {
    let mut trailers: Vec<u32> = (0..rng.below(4)).map(|_| trailer(rng)).collect();
    let last = match count {
        0 if rng.one_in(4) => 255,
        0 => 253,
        1 if !rng.one_in(4) => 254,
        _ => 255,
    };
    trailers.push(last);
    let named = rng.below(2 * trailers.len());
    for (i, &trailer) in trailers.iter().enumerate() {
        let property = if i == named && type_code != 0 { property_later(0x14, 0x0A, &text(rng), trailer) } else { property(rng, trailer) };
        s.extend(property);
    }
    if last == 255 {
        s.extend((count as u16).to_le_bytes());
    }
    for _ in 0..count {
        node(rng, s, level);
    }
}

fn node(rng: &mut Rng, s: &mut Vec<u8>, level: usize) {
    let type_code = type_code(rng);
    s.extend(node_later(type_code));
    let count = if level < 5 && rng.one_in(2) { rng.below(4) } else { 0 };
    group(rng, s, type_code, count, level + 1);
}

/// A trailer that ends no group.
fn trailer(rng: &mut Rng) -> u32 {
    let any = rng.next() as u32 | 0x100;
    rng.pick(&[0, 1, 2, 100, 252, 256, 0x1FD, 0xFD00, 0x0100_00FE, any])
}

fn property(rng: &mut Rng, trailer: u32) -> Vec<u8> {
    let any = rng.next() as u16;
    let id = rng.pick(&[0x0014, 0x0011, 0x001B, 0x0036, 0x0094, 0x0178, 0x009C, 0x8014, any]);
    let kind = rng.pick(&[0, 1, 1, 2, 2, 3, 4, 5, 6, 6, 7, 8, 8, 9, 9, 0x0A, 0x0A, 0x0B, 0x0C, 0x0D, 0x10A, 0x0200_0001]);
    let length = match kind {
        1..=4 => rng.pick(&[0, 1, 2, 3, 4, 5, 8]),
        6 => rng.pick(&[4, 4, 4, 3, 5, 8]),
        8 => rng.pick(&[8, 8, 8, 7, 9, 4]),
        9 => rng.pick(&[16, 16, 15, 17]),
        _ => 0,
    };
    let bytes = match (kind, length) {
        (_, 0) if kind != 1 => value(rng),
        _ => number(rng, length),
    };
    property_later(id, kind, &bytes, trailer)
}

/// Names and properties with rubbish between them, so that no tree is read.
fn scan(rng: &mut Rng) -> Vec<u8> {
    let mut s = head_later();
    for _ in 0..rng.below(9) {
        let end = if rng.one_in(4) { rng.pick(&[253, 254, 255]) } else { trailer(rng) };
        match rng.below(6) {
            0 => s.extend(rng_bytes(rng)),
            1 => s.extend([0x14, 0x00, 0x0A, 0x00, 0x00, 0x00]),
            2 => s.extend(property(rng, end)),
            3 => s.extend([0x14, 0x00, 0x0A, 0x00, 0x14, 0x00, 0x0A]),
            4 => s.extend(property_later(0x14, 0x0A, &[0x14, 0, 0x0A, 0, 0, 0, 0x14, 0, 0x0A, 0, 0, 0], end)),
            _ => s.extend(property_later(0x14, 0x0A, &text(rng), end)),
        }
    }
    s
}

fn rng_bytes(rng: &mut Rng) -> Vec<u8> {
    let length = 1 + rng.below(6);
    (0..length).map(|_| rng.pick(&TELLING)).collect()
}

// ---- damage

/// One change: a bit, a byte, a cut, an insertion, a part doubled or taken out.
pub fn damage(rng: &mut Rng, s: &mut Vec<u8>, telling: &[u8]) {
    if s.is_empty() {
        return;
    }
    let from = rng.below(s.len());
    let to = (from + 1 + rng.below(20)).min(s.len());
    match rng.below(8) {
        0 => s[from] ^= 1 << rng.below(8),
        1 => s[from] = rng.pick(telling),
        2 => s.truncate(from),
        3 => s.insert(from, rng.pick(telling)),
        4 => s.extend_from_within(from..to),
        5 => {
            let part = s[from..to].to_vec();
            s.splice(from..from, part);
        }
        6 => {
            s.drain(from..to);
        }
        _ => s.push(rng.pick(telling)),
    }
}

// ---- other code tables

/// A case whose code table is not jetdb's.
pub fn other_table(rng: &mut Rng) -> Case {
    let mut table = codes(rng).bytes();
    if rng.one_in(3) {
        damage(rng, &mut table, &TELLING);
    }
    let mut case = blob(rng);
    if case.family == "random 2000" && !rng.one_in(8) {
        case.bytes.splice(..case.bytes.len().min(1), [table.first().copied().unwrap_or(0x13)]);
    }
    case.family = "other tables";
    case.table = Some(table.into());
    if rng.one_in(8) {
        set_room(rng, &mut case);
    }
    case
}

/// A well-formed table.
pub fn codes(rng: &mut Rng) -> Codes {
    let layout = rng.pick(&[0x13, 0x13, 0x2A, 0x00, 0xFF]);
    let most = rng.pick(&[0, 1, 2, 4]);
    let mut header: Vec<u16> = (0..most).map(|_| type_code(rng)).collect();
    header.sort();
    header.dedup();
    let mut scopes: Vec<(u8, u16)> = (0..rng.below(6)).map(|_| (2, type_code(rng))).collect();
    scopes.extend([(0, 0), (1, 0)].iter().filter(|_| rng.one_in(2)));
    scopes.sort();
    scopes.dedup();
    let scopes = scopes.into_iter().map(|(kind, code)| Scope { kind, code, rows: code_rows(rng) }).collect();
    Codes { layout, header, scopes }
}

fn code_rows(rng: &mut Rng) -> Vec<Row> {
    let mut ids: Vec<u8> = (0..rng.below(8)).map(|_| rng.byte() % 0xFD).collect();
    ids.extend([0x00, 0x30, 0x60, 0x80, 0xBC, 0xBD, 0xCE, 0xD0, 0xDC, 0xDF, 0xFC].iter().filter(|_| rng.one_in(3)));
    ids.sort();
    ids.dedup();
    let row = |id| Row { id, target: rng.next() as u16 & 0x7FFF, kind: rng.below(5) as u8 };
    ids.into_iter().map(row).collect()
}

// ---- whole inputs of formlist

/// An input of `formlist`: framed well, or with a wrong length, too short, too long.
pub fn input(rng: &mut Rng) -> Case {
    let case = if rng.one_in(3) { other_table(rng) } else { blob(rng) };
    let table = case.table.map_or_else(|| oracle::codes().bytes(), |t| t.to_vec());
    let length = match rng.below(12) {
        0 => rng.next() as u32,
        1 => (table.len() as u32 + 1).saturating_sub(rng.below(3) as u32),
        2 => (table.len() + case.bytes.len()) as u32 + rng.below(2) as u32,
        _ => table.len() as u32,
    };
    let mut bytes = [length.to_le_bytes().to_vec(), table, case.bytes].concat();
    match rng.below(40) {
        0 => bytes.truncate(rng.below(6)),
        1 => bytes.resize(listing::BUFFER - 1 + rng.below(3), 0),
        _ => {}
    }
    Case::other("listing", Kind::Listing, [0, 0], bytes)
}
