//! What a caller meets: errors, values, names and codes that the table lacks.

use oskuramos::*;
use std::collections::HashSet;
use std::error::Error;
use std::fs;

fn example(name: &str) -> Vec<u8> {
    fs::read(format!("{}/../examples/{name}", env!("CARGO_MANIFEST_DIR"))).unwrap()
}

#[test]
fn a_refusal_goes_through_the_question_mark() {
    fn controls(table: &[u8], stream: &[u8]) -> Result<usize, Box<dyn Error>> {
        Ok(Blob::read(table, stream)?.controls.len())
    }
    fn entries(stream: &[u8]) -> Result<usize, Box<dyn Error + Send + Sync>> {
        Ok(TypeInfo::read(stream)?.entries.len())
    }
    let form = example("form-2000.blob");
    assert_eq!(controls(ACCESS_2000_CODES, &form).unwrap(), 9);
    let error = controls(ACCESS_2000_CODES, &form[..form.len() - 1]).unwrap_err();
    assert!(error.to_string().contains("fits no reading"), "{error}");
    assert_eq!(error.downcast_ref(), Some(&Refused::NoReading));
    assert_eq!(entries(&example("form.typeinfo")).unwrap(), 5);
    assert_eq!(entries(&[]).unwrap_err().downcast_ref(), Some(&Refused::TooShort));
}

#[test]
fn each_refusal_has_its_words_and_its_number() {
    let counts = Counts { controls: 2, properties: 3, own: 1 };
    let all = [
        Refused::TooShort,
        Refused::OtherMagic,
        Refused::TooManyEntries,
        Refused::NoReading,
        Refused::TooLong,
        Refused::MoreControls(counts),
        Refused::MoreProperties(counts),
        Refused::BadTable,
        Refused::NoRoomForText,
        Refused::NotAGuid,
        Refused::BadRows,
        Refused::OtherHead,
        Refused::TwoRows,
        Refused::TooManyScopes,
    ];
    assert_eq!(all.map(Refused::number), [1, 2, 3, 4, 5, 6, 7, 8, 9, 10, 11, 16, 17, 18]);
    assert_eq!(Refused::MoreRows(2).number(), 6);
    let words = HashSet::from(all.map(|refused| refused.to_string()));
    assert_eq!(words.len(), all.len());
    assert!(words.iter().all(|text| text.contains(": ")), "each says what is wrong, and then what it means or what may be done");
    assert_eq!(Refused::MoreControls(counts).to_string(), "2 control rows are needed and fewer were lent: lend so many");
    assert_eq!(Refused::MoreRows(2).to_string(), "2 rows of TypeInfo are needed and fewer were lent: lend so many");
}

#[test]
fn a_scanned_form_takes_its_types_from_type_info() {
    let (stream, names) = (example("later-scan.blob"), example("form.typeinfo"));
    let mut form = Blob::read(ACCESS_2000_CODES, &stream).unwrap();
    let info = TypeInfo::read(&names).unwrap();
    assert!(form.controls.iter().all(|control| control.type_code == 0));
    assert_eq!(form.pair(&info), Ok(vec![1, 3, 4, 5, 6, 7]));
    assert_eq!([0, 2].map(|n| form.controls[n].type_name().unwrap().to_string()), ["Detail", "TextBox"]);
    let paired = form.clone();
    assert_eq!(form.pair(&info), Ok(vec![1, 3, 4, 5, 6, 7]), "again");
    assert_eq!(form, paired);
}

#[test]
fn an_entry_that_was_cut_is_skipped() {
    let (stream, names) = (example("later-scan.blob"), example("form.typeinfo"));
    let mut form = Blob::read(ACCESS_2000_CODES, &stream).unwrap();
    let mut info = TypeInfo::read(&names).unwrap();
    info.entries[1].cut = true; // txtVolt
    assert_eq!(form.pair(&info), Ok(vec![1, 2, 3, 4, 5, 6, 7]));
    assert_eq!(form.controls[2].type_code, 0);
}

#[test]
fn rows_that_fit_no_stream_are_refused() {
    let mut row = [7, 2, 0, 4, 0, 0, 0, lent::NO_PARENT];
    assert_eq!(lent::pair(b"odd", &mut [row], b"", &[]), Err(Refused::BadRows));
    row[3] = 3;
    assert_eq!(lent::pair(b"odd", &mut [row], b"ODD", &[[9, 0, 0, 4, 0]]), Err(Refused::BadRows));
    let mut rows = [row];
    assert_eq!(lent::pair(b"odd", &mut rows, b"ODD", &[[9, 0, 0, 3, 0]]), Ok(()));
    assert_eq!(rows, [[9, 2, 0, 3, 0, 0, 0, lent::NO_PARENT]]);
}

#[test]
fn a_panel_is_judged_by_its_rules() {
    let stream = example("panel-2000.blob");
    assert_eq!(Panel::check(ACCESS_2000_CODES, &stream), Ok(Panel::Yes));
    let mut other = ACCESS_2000_CODES.to_vec(); // ties the codes of ControlSource to another id
    let sources = other.windows(3).enumerate().filter(|(_, row)| *row == [0x1B, 0, 1]).map(|(at, _)| at).collect::<Vec<_>>();
    sources.iter().for_each(|&at| other[at] = 0x1C);
    assert_eq!(Panel::check(&other, &stream), Ok(Panel::No { control: 9, rule: PanelRule::Source }));
    let numbered = example("form-2000.blob");
    assert_eq!(Panel::check(ACCESS_2000_CODES, &numbered), Ok(Panel::No { control: 7, rule: PanelRule::NameMark }));
    assert_eq!(Panel::check(ACCESS_2000_CODES, &numbered[..numbered.len() - 1]), Err(Refused::NoReading));
    assert_eq!(Panel::check(b"", &stream), Err(Refused::BadTable));
    assert!(matches!(lent::check_panel(ACCESS_2000_CODES, &stream, &mut [], &mut []), Err(Refused::MoreControls(_))));
    let rules = [PanelRule::TypeName, PanelRule::NameMark, PanelRule::NewName, PanelRule::Source, PanelRule::Place, PanelRule::Level];
    assert_eq!(rules.map(PanelRule::number), [1, 2, 3, 4, 5, 6]);
    assert_eq!(HashSet::from(rules.map(|rule| rule.to_string())).len(), 6);
}

#[test]
fn only_text_is_text() {
    let stream = example("form-2000.blob");
    let form = Blob::read(ACCESS_2000_CODES, &stream).unwrap();
    let width = form.property("Width").unwrap().value;
    assert_eq!((width, width.text(), width.integer()), (Value::Short(7200), None, Some(7200)));
    let guid = form.property("GUID").unwrap().value;
    assert!(matches!(guid, Value::Guid(_)) && guid.text().is_none() && guid.integer().is_none());
    assert_eq!(form.property("RecordSource").unwrap().value.text().unwrap(), "Relays");
    for property in form.properties() {
        assert_eq!(property.value.text().is_some(), property.value.word() == "text", "{property}");
    }
}

#[test]
fn values_are_shown_for_people() {
    let guid = Value::Guid(Guid(std::array::from_fn(|i| i as u8)));
    let shown = [
        (Value::Bool(true), "yes"),
        (Value::Bool(false), "no"),
        (Value::NotDefault, "not default"),
        (Value::Short(-1), "-1"),
        (Value::Long(7200), "7200"),
        (Value::Double(1.5), "1.5"),
        (guid, "{03020100-0504-0706-0809-0A0B0C0D0E0F}"),
        (Value::Text(Text::new(b"a\0\x3D\xD8\0\xDE").unwrap()), "a\u{1F600}"),
        (Value::Loose(Loose(b"a\0b")), "a\u{FFFD}"),
        (Value::Loose(Loose(b"\x3D\xD8b\0")), "\u{FFFD}b"),
        (Value::Loose(Loose(b"\x3D\xD8b")), "\u{FFFD}\u{FFFD}"),
        (Value::Binary(&[0, 0xAB]), "00AB"),
    ];
    for (value, text) in shown {
        assert_eq!(value.to_string(), text);
        assert_eq!(format!("{value:>40}").chars().count(), 40);
    }
}

#[test]
fn a_code_that_the_table_lacks_is_told() {
    let stream = example("form-2000.blob");
    let form = Blob::read(ACCESS_2000_CODES, &stream).unwrap();
    assert_eq!(form.layout, Layout::Access2000);
    let lacked = Vec::from_iter(form.properties().filter_map(|p| Some((p.unmapped()?, p.value.word(), p.to_string()))));
    assert_eq!(lacked, [(0x2F, "notdefault", "802F = not default".into()), (0xD5, "binary", "80D5 = 010203".into())]);
    // without any row every code is lacked
    let bare = [ACCESS_2000_CODES[0], 0, 0, 0];
    assert!(Blob::read(&bare, &stream).unwrap().properties().all(|p| p.unmapped().is_some()));
}

#[test]
fn in_the_later_layout_no_id_is_a_code() {
    let mut stream = vec![0; 14];
    stream.extend([0x31, 0x80, 3, 0, 0, 0, 0, 0, 0, 0, 1, 0, 0, 0, 5, 253, 0, 0, 0]);
    let form = Blob::read(ACCESS_2000_CODES, &stream).unwrap();
    let property = form.own[0];
    assert_eq!((form.layout, property.id, property.value, property.unmapped()), (Layout::Later, 0x8031, Value::Long(5), None));
    assert_eq!(Blob::read(ACCESS_2000_CODES, &[]).unwrap().layout, Layout::Later);
}

#[test]
fn names_of_each_kind() {
    let (form, tree) = (example("form-2000.blob"), example("later-tree.blob"));
    let name = |stream, at: usize| Blob::read(ACCESS_2000_CODES, stream).unwrap().controls[at].name;
    assert_eq!(name(&form, 3).to_string(), "txtVolt");
    assert_eq!((name(&form, 7), name(&form, 7).to_string()), (ControlName::Numbered(7), "Control_7".into()));
    assert_eq!((name(&tree, 7), name(&tree, 7).to_string()), (ControlName::Loose(Loose(b"odd")), "\u{646F}\u{FFFD}".into()));
}

#[test]
fn a_control_is_found_by_its_name() {
    let (stream, tree) = (example("form-2000.blob"), example("later-tree.blob"));
    let form = Blob::read(ACCESS_2000_CODES, &stream).unwrap();
    assert_eq!(form.control("txtSign").unwrap(), &form.controls[5]);
    assert_eq!(form.control("Control_7").unwrap(), &form.controls[7]);
    assert_eq!((form.control("Control_8"), form.control("")), (None, None));
    assert!(form.controls[0].name == "FormHeader");
    assert_eq!(Blob::read(ACCESS_2000_CODES, &tree).unwrap().control("\u{646F}\u{FFFD}"), None);
}

#[test]
fn every_name_is_ascii() {
    let named =
        |look_up: fn(u16) -> Option<Name>| (0..=u16::MAX).filter_map(look_up).filter(|name| name.is_ascii() && !name.is_empty()).count();
    assert!([text_name, number_name, bytes_name, control_type_name].map(named).iter().all(|&count| count > 5));
}

/// Room by the length alone: enough for each example, and the numbers of the header's tests.
#[test]
fn room_for_the_length_is_enough() {
    for name in ["form-2000.blob", "report-2000.blob", "later-tree.blob", "later-scan.blob"] {
        let stream = example(name);
        let room = Room::for_length(stream.len());
        let (mut controls, mut properties) = (vec![Default::default(); room.controls], vec![Default::default(); room.properties]);
        let counts = lent::read_blob(ACCESS_2000_CODES, &stream, &mut controls, &mut properties).unwrap();
        let known = match Blob::read(ACCESS_2000_CODES, &stream).unwrap().layout {
            Layout::Access2000 => Room::for_access_2000(stream.len()),
            Layout::Later => Room::for_later(stream.len()),
        };
        assert!(counts.controls <= known.controls && counts.properties <= known.properties, "{name}");
        let readers = [Blob::read_2000(ACCESS_2000_CODES, &stream), Blob::read_later(ACCESS_2000_CODES[0].into(), &stream)];
        assert_eq!(readers.map(|reader| reader.is_ok()), [name.contains("2000"), name.contains("later")], "{name}");
    }
    let rows = |room: Room| (room.controls, room.properties);
    assert_eq!([0, 13, 14, 10_240].map(Room::for_length).map(rows), [(0, 0), (0, 2), (1, 3), (3_409, 10_229)]);
    assert_eq!([31, 32, 10_240, usize::MAX].map(Room::for_later).map(rows), [(0, 0), (1, 1), (568, 568), (932_066, 932_066)]);
    assert_eq!(Room::for_length(usize::MAX), Room::for_access_2000(lent::LONGEST));
    assert_eq!([39, 40, usize::MAX].map(lent::type_info_room), [0, 1, 2_097_148]);
}
