//! Cases: what is read, with what is lent for it. All are made from a seed, or from none.

pub mod build;
pub mod fixed;
pub mod join;
pub mod leaves;
pub mod random;
pub mod readers;
pub mod rng;
pub mod typeinfo;
pub mod worked;

use crate::listing::{CONTROL_WORDS, PROPERTY_WORDS, TYPE_INFO_WORDS};
use std::rc::Rc;

/// What a case is for; the numbers are those of the batch file.
#[derive(Debug, Clone, Copy, PartialEq, Eq, PartialOrd, Ord)]
pub enum Kind {
    Table = 0,
    Blob = 1,
    TypeInfo = 2,
    Listing = 3,
    Guid = 4,
    Label = 5,
    Names = 6,
    NamePart = 7,
    Join = 8,
    Read2000 = 9,
    ReadLater = 10,
    Pairing = 11,
}

pub const KINDS: [Kind; 12] = [
    Kind::Table,
    Kind::Blob,
    Kind::TypeInfo,
    Kind::Listing,
    Kind::Guid,
    Kind::Label,
    Kind::Names,
    Kind::NamePart,
    Kind::Join,
    Kind::Read2000,
    Kind::ReadLater,
    Kind::Pairing,
];

#[derive(Debug, Clone)]
pub struct Case {
    pub family: &'static str,
    pub kind: Kind,
    /// A code table that is not jetdb's own.
    pub table: Option<Rc<[u8]>>,
    /// What is lent, or other numbers; README.md says which for each kind.
    pub numbers: [u32; 2],
    pub bytes: Vec<u8>,
}

pub type Sink<'a> = &'a mut dyn FnMut(Case);

impl Case {
    pub fn blob(family: &'static str, bytes: Vec<u8>) -> Case {
        let numbers = [CONTROL_WORDS as u32, PROPERTY_WORDS as u32];
        Case { family, kind: Kind::Blob, table: None, numbers, bytes }
    }

    pub fn type_info(family: &'static str, bytes: Vec<u8>) -> Case {
        Case { family, kind: Kind::TypeInfo, table: None, numbers: [TYPE_INFO_WORDS as u32, 0], bytes }
    }

    /// A whole input of `formlist`: the table, framed, and the Blob.
    pub fn listing(family: &'static str, table: &[u8], blob: &[u8]) -> Case {
        let length = (table.len() as u32).to_le_bytes();
        Case::other(family, Kind::Listing, [0, 0], [&length, table, blob].concat())
    }

    pub fn other(family: &'static str, kind: Kind, numbers: [u32; 2], bytes: Vec<u8>) -> Case {
        Case { family, kind, table: None, numbers, bytes }
    }
}

/// Every string of at most `longest` tokens, each behind `head`.
pub fn strings(head: &[u8], tokens: &[&[u8]], longest: usize, out: &mut dyn FnMut(Vec<u8>)) {
    out(head.to_vec());
    if longest == 0 {
        return;
    }
    for token in tokens {
        strings(&[head, token].concat(), tokens, longest - 1, out);
    }
}
