//! Properties as comma-separated text.

use oskuramos::{lent, write_csv, Blob, Refused, ACCESS_2000_CODES};

/// Document 01's example K1: its table and stream, and its text.
const TABLE: [u8; 17] = [0x2A, 0, 1, 0, 2, 0x64, 0, 2, 0, 0x60, 0x36, 0, 0, 0xDC, 0x14, 0, 1];
const BLOB: [u8; 26] = [0x2A, 0, 0, 0, 0, 0, 0, 0, 0, 0, 0x31, 5, 0xFE, 0x98, 0, 0xFE, 0x64, 0, 0x60, 0xFF, 0xFF, 0xDC, 2, 0x41, 0, 0xFD];
const TEXT: &[u8] = b"control,type,property,word,value\r\n,,8031,short,5\r\n1,0064,Left,short,-1\r\n1,0064,Name,text,A\r\n";

/// K1 with other text in UTF-16.
fn with_text(text: &str) -> Vec<u8> {
    let bytes: Vec<u8> = text.encode_utf16().flat_map(u16::to_le_bytes).collect();
    [&BLOB[..22], &[bytes.len() as u8], &bytes, &[0xFD]].concat()
}

#[test]
fn the_worked_example() {
    assert_eq!(write_csv(&TABLE, &BLOB).unwrap(), TEXT);
}

#[test]
fn text_is_quoted_where_it_must_be() {
    let shown = [
        ("a b", "a b"),
        ("", ""),
        ("a,b", "\"a,b\""),
        ("\"", "\"\"\"\""),
        ("x\r\ny", "\"x\r\ny\""),
        ("\0", "\0"),
        ("\u{1F600}\u{E4}\u{20AC}", "\u{1F600}\u{E4}\u{20AC}"),
    ];
    for (text, field) in shown {
        let written = String::from_utf8(write_csv(&TABLE, &with_text(text)).unwrap()).unwrap();
        assert!(written.ends_with(&format!("\r\n1,0064,Name,text,{field}\r\n")), "{written:?}");
    }
}

#[test]
fn a_refusal_writes_nothing() {
    let (mut controls, mut properties, mut out) = ([[7; lent::CONTROL_WORDS]; 2], [[7; lent::PROPERTY_WORDS]; 3], [7; 92]);
    let before = (controls, properties, out);
    assert_eq!(lent::write_csv(&TABLE, &BLOB, &mut controls, &mut properties, &mut out[..91]), Err(Refused::NoRoomForSheet));
    assert!(matches!(lent::write_csv(&TABLE, &BLOB, &mut controls[..1], &mut properties, &mut out), Err(Refused::MoreControls(_))));
    assert!(matches!(lent::write_csv(&TABLE, &BLOB, &mut controls, &mut properties[..2], &mut out), Err(Refused::MoreProperties(_))));
    assert_eq!(lent::write_csv(&TABLE, &BLOB[..25], &mut controls, &mut properties, &mut out), Err(Refused::NoReading));
    assert_eq!(lent::write_csv(&TABLE[..16], &BLOB, &mut controls, &mut properties, &mut out), Err(Refused::BadTable));
    assert_eq!((controls, properties, out), before);
    assert_eq!(lent::write_csv(&TABLE, &BLOB, &mut controls, &mut properties, &mut out), Ok(92));
    assert_eq!(out, TEXT);
}

#[test]
fn a_record_for_each_property() {
    for example in ["form-2000.blob", "later-tree.blob"] {
        let stream = std::fs::read(format!("{}/../examples/{example}", env!("CARGO_MANIFEST_DIR"))).unwrap();
        let blob = Blob::read(ACCESS_2000_CODES, &stream).unwrap();
        let many = blob.own.len() + blob.controls.iter().map(|c| c.properties.len()).sum::<usize>();
        let text = write_csv(ACCESS_2000_CODES, &stream).unwrap();
        assert_eq!(text.windows(2).filter(|end| end == b"\r\n").count(), 1 + many, "{example}");
    }
}
