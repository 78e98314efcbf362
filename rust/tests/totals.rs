//! Totals, by document 01's worked example and by the examples' rows.

use oskuramos::{Blob, Counts, Refused, Totals, ACCESS_2000_CODES};

const TABLE: &[u8] = &[0x2A, 0, 1, 0, 2, 0x64, 0, 2, 0, 0x60, 0x36, 0, 0, 0xDC, 0x14, 0, 1];
const BLOB: &[u8] = &[0x2A, 0, 0, 0, 0, 0, 0, 0, 0, 0, 0x31, 5, 0xFE, 0x98, 0, 0xFE, 0x64, 0, 0x60, 0xFF, 0xFF, 0xDC, 2, 0x41, 0, 0xFD];

#[test]
fn the_worked_example() {
    let mut totals = Totals::default();
    assert_eq!(totals.add(TABLE, BLOB), Ok(Ok(Counts { controls: 2, properties: 3, own: 1 })));
    assert!(matches!(totals.add_within(TABLE, BLOB, 1, 3), Ok(Err(Refused::MoreControls(_)))));
    assert!(matches!(totals.add_within(TABLE, BLOB, 2, 2), Ok(Err(Refused::MoreProperties(_)))));
    assert_eq!(totals.add(TABLE, &[0x2A]), Ok(Err(Refused::NoReading)));
    assert_eq!(totals.add(&[], BLOB), Ok(Err(Refused::BadTable)));
    assert_eq!([0, 4, 5, 6, 7, 8, 12].map(|n| totals.streams(n)), [1, 1, 0, 1, 1, 1, 0]);
    let named: Vec<_> = totals.controls().filter(|(_, n)| *n > 0).map(|(name, n)| (name.to_string(), n)).collect();
    assert_eq!(named, [("Label".to_string(), 1), ("Detail".to_string(), 1)]);
    assert_eq!((totals.other_controls(), totals.unmapped(), totals.mapped()), (0, 1, 2));
    assert_eq!([2, 6, 7].map(|mark| totals.values(mark)), [2, 1, 0]);
    let shown = "answer 0 1\nanswer 4 1\nanswer 6 1\nanswer 7 1\nanswer 8 1\ncontrol Label 1\ncontrol Detail 1\nproperty unmapped 1\n\
                 property mapped 2\nvalue short 2\nvalue text 1\n";
    assert_eq!(totals.to_string(), shown);
}

/// The sums over the examples are those of their rows, in either order.
#[test]
fn sums_of_the_rows() {
    let files = ["form-2000", "later-tree", "later-scan", "report-2000"];
    let streams: Vec<_> =
        files.iter().filter_map(|f| std::fs::read(format!("{}/../examples/{f}.blob", env!("CARGO_MANIFEST_DIR"))).ok()).collect();
    assert!(streams.len() > 1);
    let (mut there, mut back, mut controls, mut properties) = (Totals::default(), Totals::default(), 0, 0);
    for stream in &streams {
        let blob = Blob::read(ACCESS_2000_CODES, stream).unwrap();
        let counts = there.add(ACCESS_2000_CODES, stream).unwrap().unwrap();
        assert_eq!(counts.controls, blob.controls.len());
        controls += counts.controls;
        properties += counts.properties;
    }
    for stream in streams.iter().rev() {
        back.add(ACCESS_2000_CODES, stream).unwrap().unwrap();
    }
    assert_eq!(there, back);
    assert_eq!(there.controls().map(|(_, n)| n as usize).sum::<usize>() + there.other_controls() as usize, controls);
    assert_eq!((there.unmapped() + there.mapped()) as usize, properties);
    assert_eq!((0..9).map(|mark| there.values(mark) as usize).sum::<usize>(), properties);
}
