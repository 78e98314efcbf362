//! What a newer code table changes.

use oskuramos::{differences, lent, Difference, Refused, Scope};

/// Document 01's worked example: its table, one without the row of 0x60, and its Blob.
const NEWER: &[u8] = &[0x2A, 0, 1, 0, 2, 0x64, 0, 2, 0, 0x60, 0x36, 0, 0, 0xDC, 0x14, 0, 1];
const OLDER: &[u8] = &[0x2A, 0, 1, 0, 2, 0x64, 0, 1, 0, 0xDC, 0x14, 0, 1];
const FORM: &[u8] = &[0x2A, 0, 1, 0, 0, 0, 0, 1, 0, 0x31, 0x94, 0, 0];
const EMPTY: &[u8] = &[0x2A, 0, 0, 0];
const BLOB: &[u8] = &[0x2A, 0, 0, 0, 0, 0, 0, 0, 0, 0, 0x31, 5, 0xFE, 0x98, 0, 0xFE, 0x64, 0, 0x60, 0xFF, 0xFF, 0xDC, 2, 0x41, 0, 0xFD];

#[test]
fn what_the_newer_table_has_learnt() {
    let left = Difference {
        property: 1,
        control: Some(1),
        code: 0x60,
        scope: Scope::Entry(0x64),
        older_id: 0x8060,
        newer_id: 0x36,
        newer_mark: 2,
        start: 19,
        length: 2,
    };
    let name = Difference { property: 2, code: 0xDC, older_id: 0x80DC, newer_id: 0x14, newer_mark: 6, start: 23, ..left };
    assert_eq!(differences(OLDER, NEWER, BLOB), Ok(vec![left]));
    assert_eq!(differences(EMPTY, NEWER, BLOB), Ok(vec![left, name]));
    assert_eq!(differences(NEWER, NEWER, BLOB), Ok(vec![]));
    let own = differences(EMPTY, FORM, BLOB).unwrap();
    assert_eq!((own.len(), own[0].control, own[0].scope, own[0].older_id, own[0].newer_id), (1, None, Scope::Form, 0x8031, 0x94));
}

#[test]
fn a_later_stream_has_none() {
    let mut later = BLOB.to_vec();
    later[0] = 0x2B;
    assert_eq!(differences(OLDER, NEWER, &later), Ok(vec![]));
}

#[test]
fn refusals_in_their_order() {
    let long = vec![0x2A; lent::LONGEST + 1];
    assert_eq!(differences(&[], NEWER, &long), Err(Refused::TooLong));
    assert_eq!(differences(&OLDER[1..], NEWER, BLOB), Err(Refused::BadTable));
    assert_eq!(differences(NEWER, &OLDER[1..], BLOB), Err(Refused::BadTable));
    assert_eq!(differences(NEWER, OLDER, &BLOB[..25]), Err(Refused::NoSuccessor));
    assert_eq!(differences(OLDER, NEWER, &BLOB[..25]), Err(Refused::NoReading));
    let mut rows = [[7; lent::DIFFERENCE_WORDS]; 2];
    assert_eq!(lent::differences(EMPTY, NEWER, BLOB, &mut rows[..1]), Err(Refused::MoreRows(2)));
    assert_eq!(rows, [[7; lent::DIFFERENCE_WORDS]; 2]);
    assert_eq!(lent::differences(OLDER, NEWER, BLOB, &mut rows), Ok((1, 3)));
    assert_eq!(rows, [[1, 1, 0x60, 2, 0x64, 0x8060, 0x36, 2, 19, 2], [7; lent::DIFFERENCE_WORDS]]);
}
