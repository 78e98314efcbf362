//! The example Blobs, listed as `formlist` lists them, against the listings that are kept beside them.

use oskuramos::*;
use std::fs;

fn or_dash(name: Option<Name>) -> String {
    name.map_or("-".into(), |n| n.to_string())
}

fn control_line(number: usize, first: usize, control: &Control) -> String {
    let characters = match control.name {
        ControlName::Numbered(_) => "-".into(),
        ControlName::Text(text) => text.chars().count().to_string(),
        ControlName::Loose(loose) => format!("{}b", loose.0.len()),
    };
    let name = or_dash(control.type_name());
    let parent = control.parent.map_or("-".into(), |n| n.to_string());
    format!("C {number} {:04X} {name} {characters} {first} {} {} {parent}\n", control.type_code, control.properties.len(), control.level)
}

fn property_line(number: usize, property: &Property) -> String {
    let shown = match property.value {
        Value::NotDefault => "-".into(),
        Value::Double(d) => format!("{:016X}", d.to_bits()),
        Value::Text(text) => text.chars().count().to_string(),
        Value::Binary(bytes) | Value::Loose(Loose(bytes)) => bytes.len().to_string(),
        value => value.to_string(),
    };
    format!("P {number} {:04X} {} {} {shown}\n", property.id, or_dash(property.name()), property.value.word())
}

fn listed(table: &[u8], stream: &[u8]) -> String {
    let blob = Blob::read(table, stream).unwrap();
    let mut text = format!("answer 0 {} {} {}\n", blob.controls.len(), blob.properties().count(), blob.own.len());
    let mut first = blob.own.len();
    for (number, control) in blob.controls.iter().enumerate() {
        text += &control_line(number, first, control);
        first += control.properties.len();
    }
    text.extend(blob.properties().enumerate().map(|(n, p)| property_line(n, p)));
    text
}

#[test]
fn examples_are_listed_alike() {
    let root = concat!(env!("CARGO_MANIFEST_DIR"), "/..");
    let table = fs::read(format!("{root}/data/access2000.codes")).unwrap();
    assert_eq!(table, ACCESS_2000_CODES);
    for name in ["form-2000", "panel-2000", "report-2000", "later-tree", "later-scan"] {
        let stream = fs::read(format!("{root}/examples/{name}.blob")).unwrap();
        let list = fs::read_to_string(format!("{root}/examples/{name}.list")).unwrap();
        assert_eq!(listed(&table, &stream), list, "{name}");
    }
}

fn info_line(entry: &TypeInfoEntry) -> String {
    let bytes = String::from_iter(entry.name.iter().map(|b| format!(" {b:02X}")));
    format!("T {} {} {} {} {}\nB{bytes}\n", entry.type_code, entry.index, entry.start, entry.name.len(), entry.cut as u32)
}

#[test]
fn type_info_is_read_as_its_rows_say() {
    let root = concat!(env!("CARGO_MANIFEST_DIR"), "/../examples");
    for name in ["form", "cut"] {
        let stream = fs::read(format!("{root}/{name}.typeinfo")).unwrap();
        let info = TypeInfo::read(&stream).unwrap();
        let lines = String::from_iter(info.entries.iter().map(info_line));
        assert_eq!(format!("A 0 {} 0 0\n{lines}", info.entries.len()), fs::read_to_string(format!("{root}/{name}.typeinfo.rows")).unwrap());
    }
}
