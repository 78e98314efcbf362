//! Cases of the small functions: GUID text, labels, name tables, the part that a name is.

use super::rng::Rng;
use super::{Case, Kind, Sink};

/// GUID values of each length to 20, with room around the 38 bytes.
pub fn guids(rng: &mut Rng, out: Sink) {
    for length in 0..=20 {
        for room in [0, 37, 38, 39, 64] {
            out(Case::other("guids", Kind::Guid, [room, 0], rng.bytes(length)));
        }
    }
    let ascending: Vec<u8> = (0..16).collect();
    out(Case::other("guids", Kind::Guid, [38, 0], ascending));
}

/// Labels around each change of their length, with room around it.
pub fn labels(out: Sink) {
    let tens = (0..10).map(|n| 10u32.pow(n));
    let numbers = tens.flat_map(|t| [t - 1, t, t + 1]).chain([u32::MAX - 1, u32::MAX, 123_456, 4_000_000_000]);
    for n in numbers {
        let length = 8 + n.to_string().len() as u32;
        for room in [0, 7, 8, length - 1, length, length + 1] {
            out(Case::other("labels", Kind::Label, [room, n], Vec::new()));
        }
    }
}

/// Every id that a table has, its neighbours, and some more.
pub fn names(rng: &mut Rng, out: Sink) {
    let mut ids: Vec<u16> = crate::form::name_tables().iter().flat_map(|t| t.iter().map(|r| r.0)).collect();
    ids = ids.iter().flat_map(|&id| [id.wrapping_sub(1), id, id + 1, id | 0x8000]).collect();
    ids.extend((0..200).map(|_| rng.next() as u16));
    ids.sort();
    ids.dedup();
    ids.into_iter().map(name).for_each(out);
}

/// What the four tables have for an id.
pub fn name(id: u16) -> Case {
    Case::other("names", Kind::Names, [id as u32, 0], Vec::new())
}

/// Each mark with parts inside, at the edge, outside, and with sums past 32 bits.
pub fn name_parts(out: Sink) {
    for mark in [0, 1, 2, 3, 0xFFFF_FFFF] {
        for (stream, label) in [(0, 0), (0, 4), (4, 0), (9, 9), (6, 12), (12, 6)] {
            for start in [0, 1, 5, 6, 9, 12, 0xFFFF_FFFF] {
                for length in [0, 1, 4, 6, 9, 12, 13, 0xFFFF_FFFF] {
                    out(name_part(mark, start, length, stream, label));
                }
            }
        }
    }
}

fn name_part(mark: u32, start: u32, length: u32, stream: u8, label: u8) -> Case {
    let mut bytes = [start.to_le_bytes(), length.to_le_bytes()].concat();
    bytes.extend((0..label).map(|b| 0xA0 + b));
    bytes.extend((0..stream).map(|b| 0x50 + b));
    Case::other("parts", Kind::NamePart, [mark, label as u32], bytes)
}

/// One random case of a small function.
pub fn random(rng: &mut Rng) -> Case {
    let number = (rng.next() as u32) >> rng.below(32);
    match rng.below(4) {
        0 => {
            let length = if rng.one_in(4) { rng.below(24) } else { 16 };
            Case::other("guids", Kind::Guid, [30 + rng.below(16) as u32, 0], rng.bytes(length))
        }
        1 => Case::other("labels", Kind::Label, [6 + rng.below(16) as u32, number], Vec::new()),
        2 => Case::other("names", Kind::Names, [number & 0xFFFF, 0], Vec::new()),
        _ => {
            let [start, length, stream, label] = [20, 20, 16, 16].map(|n| rng.below(n) as u32);
            name_part(rng.below(4) as u32, start, length, stream as u8, label as u8)
        }
    }
}
