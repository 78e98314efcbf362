//! Blobs for the reader of one layout: what speaks for it and what doesn't, with code tables and layout numbers around the first byte.

use super::build::{head2000, head_later, list2000, property_later};
use super::random::{blob, other_table};
use super::rng::Rng;
use super::{Case, Kind, Sink};
use crate::oracle;

impl Case {
    /// The same stream for the reader of Access 2000.
    fn read_2000(self, family: &'static str) -> Case {
        Case { family, kind: Kind::Read2000, ..self }
    }

    /// The same stream for the reader of the later layout, which is told this number.
    fn read_later(self, family: &'static str, layout: u32) -> Case {
        let bytes = [&layout.to_le_bytes(), &self.bytes[..]].concat();
        Case { family, kind: Kind::ReadLater, table: None, bytes, ..self }
    }

    /// The number and the stream of a case for the reader of the later layout.
    pub fn layout_and_stream(&self) -> (u32, &[u8]) {
        let (number, stream) = self.bytes.split_at(self.bytes.len().min(4));
        (number.iter().rev().fold(0, |n, &b| n << 8 | u32::from(b)), stream)
    }
}

/// Telling first bytes over a tree of each layout, and no byte at all; tables and numbers that are the first byte; rooms that are too small.
pub fn telling(out: Sink) {
    let own = oracle::codes().layout;
    let old = [head2000(0x96), list2000(0, false)].concat();
    let later = [head_later(), property_later(7, 1, &[1], 253)].concat();
    let streams = [old, later, vec![own], vec![0], vec![]];
    for stream in &streams {
        for first in [own, own ^ 1, 0, 1, 0x7F, 0xFF] {
            let mut stream = stream.clone();
            stream.splice(..stream.len().min(1), (!stream.is_empty()).then_some(first));
            let case = Case::blob("", stream);
            out(case.clone().read_2000("readers"));
            for layout in [u32::from(own), u32::from(first), 256 + u32::from(first), u32::MAX - 255 + u32::from(first)] {
                out(case.clone().read_later("readers", layout));
            }
            for table in [vec![first, 0, 0, 0], vec![first], vec![]] {
                out(Case { table: Some(table.into()), ..case.clone() }.read_2000("readers"));
            }
        }
        for numbers in [[0, 0], [7, 6], [8, 5], [8, 6]] {
            let case = Case { numbers, ..Case::blob("", stream.clone()) };
            out(case.clone().read_2000("readers"));
            [u32::from(own), 0].into_iter().for_each(|layout| out(case.clone().read_later("readers", layout)));
        }
    }
}

/// One random Blob for one of the two readers.
pub fn random(rng: &mut Rng) -> Case {
    let case = if rng.one_in(3) { other_table(rng) } else { blob(rng) };
    if rng.one_in(2) {
        return case.read_2000("random reader");
    }
    let own = case.table.as_deref().map_or(oracle::codes().layout, |table| table.first().copied().unwrap_or(0));
    let first = case.bytes.first().copied().unwrap_or(0);
    let any = rng.next() as u32;
    let layout = rng.pick(&[own.into(), own.into(), own.into(), first.into(), 256 + u32::from(first), any % 256, any]);
    case.read_later("random reader", layout)
}
