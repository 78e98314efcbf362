//! The numbers that this crate writes down are those of the header for C.

use oskuramos::*;
use std::collections::HashMap;

/// Each `OSKURAMOS_NAME = NUMBER` of the header, without the first word.
fn numbers(header: &str) -> HashMap<&str, u64> {
    let found = header.split("OSKURAMOS_").skip(1).filter_map(|rest| {
        let (name, rest) = rest.split_once(" = ")?;
        let digits = rest.split(|c: char| !c.is_ascii_alphanumeric()).next()?;
        let number = digits.strip_prefix("0x").map_or(digits.parse(), |hex| u64::from_str_radix(hex, 16));
        Some((name, number.ok()?))
    });
    found.collect()
}

#[test]
fn numbers_are_the_headers() {
    let header = std::fs::read_to_string(concat!(env!("CARGO_MANIFEST_DIR"), "/../include/oskuramos.h")).unwrap();
    let numbers = numbers(&header);
    let mine = [
        ("STACK", lent::STACK),
        ("CONTROL_WORDS", lent::CONTROL_WORDS),
        ("PROPERTY_WORDS", lent::PROPERTY_WORDS),
        ("TYPE_INFO_WORDS", lent::TYPE_INFO_WORDS),
        ("FIELD_WORDS", lent::FIELD_WORDS),
        ("DIFFERENCE_WORDS", lent::DIFFERENCE_WORDS),
        ("RECORD_FIELDS", lent::RECORD_FIELDS),
        ("LONGEST", lent::LONGEST),
        ("GUID_LENGTH", lent::GUID_TEXT),
        ("LABEL_LONGEST", lent::LABEL_LONGEST),
        ("TABLE_LONGEST", lent::TABLE_LONGEST),
        ("NAME_ROOM", lent::NAME_ROOM),
        ("PANEL_TYPE_NAME", PanelRule::TypeName as usize),
        ("PANEL_NAME_MARK", PanelRule::NameMark as usize),
        ("PANEL_NEW_NAME", PanelRule::NewName as usize),
        ("PANEL_SOURCE", PanelRule::Source as usize),
        ("PANEL_PLACE", PanelRule::Place as usize),
        ("PANEL_LEVEL", PanelRule::Level as usize),
        ("KIND_NUMBER", Kind::Number as usize),
        ("KIND_TEXT", Kind::Text as usize),
        ("KIND_GUID", Kind::Guid as usize),
        ("KIND_DOUBLE", Kind::Double as usize),
        ("KIND_BYTES", Kind::Bytes as usize),
    ];
    for (name, number) in mine {
        assert_eq!(numbers[name], number as u64, "{name}");
    }
    // an enum of C holds no number of 32 bits with the highest set
    assert!(header.contains(&format!("#define OSKURAMOS_NO_PARENT UINT32_C(0x{:08X})", lent::NO_PARENT)));
    assert!(header.contains(&format!("#define OSKURAMOS_NO_TYPE UINT32_C(0x{:08X})", lent::NO_TYPE)));
    assert!(header.contains(&format!("#define OSKURAMOS_NO_CONTROL UINT32_C(0x{:08X})", lent::NO_CONTROL)));
    let refusals = [
        ("TOO_SHORT", Refused::TooShort),
        ("OTHER_MAGIC", Refused::OtherMagic),
        ("TOO_MANY_ENTRIES", Refused::TooManyEntries),
        ("NO_READING", Refused::NoReading),
        ("TOO_LONG", Refused::TooLong),
        ("MORE_CONTROLS", Refused::MoreControls(Counts::default())),
        ("MORE_CONTROLS", Refused::MoreRows(0)),
        ("MORE_PROPERTIES", Refused::MoreProperties(Counts::default())),
        ("BAD_TABLE", Refused::BadTable),
        ("NO_ROOM_FOR_TEXT", Refused::NoRoomForText),
        ("NOT_A_GUID", Refused::NotAGuid),
        ("BAD_ROWS", Refused::BadRows),
        ("NO_ROOM_FOR_SHEET", Refused::NoRoomForSheet),
        ("NOT_A_SHEET", Refused::NotASheet),
        ("OVER_CEILING", Refused::OverCeiling),
        ("OTHER_LAYOUT", Refused::OtherLayout),
        ("OTHER_HEAD", Refused::OtherHead),
        ("TWO_ROWS", Refused::TwoRows),
        ("TOO_MANY_SCOPES", Refused::TooManyScopes),
        ("NO_SUCCESSOR", Refused::NoSuccessor),
    ];
    for (name, refused) in refusals {
        assert_eq!(numbers[name], u64::from(refused.number()), "{name}");
    }
    let values = [
        ("BOOL", Value::Bool(true)),
        ("NOT_DEFAULT", Value::NotDefault),
        ("SHORT", Value::Short(0)),
        ("LONG", Value::Long(0)),
        ("DOUBLE", Value::Double(0.0)),
        ("GUID", Value::Guid(Guid([0; 16]))),
        ("TEXT", entry_value(10, &[])),
        ("BINARY", Value::Binary(&[])),
        ("LOOSE_TEXT", Value::Loose(Loose(&[0]))),
    ];
    for (name, value) in values {
        assert_eq!(numbers[name], u64::from(value.mark()), "{name}");
    }
    assert!(header.contains(&format!("#define OSKURAMOS_VERSION \"{VERSION}\"\n")));
}
