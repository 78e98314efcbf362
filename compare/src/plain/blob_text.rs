//! A Blob's properties as comma-separated text: document 02's wish 7, sentence by sentence. How such text is read stands in csv.rs, apart from this.

use super::{value, Property, Reading};
use crate::judge::property_name;

pub type Record = [Vec<u8>; 5];

/// "the header record `control,type,property,word,value`, then a record for each property with control number and type code in hex (both empty for the
/// object's), property name or hex id, value word and value as listed"
pub fn records(found: &Reading, stream: &[u8]) -> Vec<Record> {
    let mut records = vec![["control", "type", "property", "word", "value"].map(|field| field.as_bytes().to_vec())];
    records.extend(found.own.iter().map(|p| record([String::new(), String::new()], p, stream)));
    for (n, control) in found.controls.iter().enumerate() {
        let told = [n.to_string(), format!("{:04X}", control.type_code)];
        records.extend(control.properties.iter().map(|p| record(told.clone(), p, stream)));
    }
    records
}

fn record([control, type_code]: [String; 2], p: &Property, stream: &[u8]) -> Record {
    let property = property_name(p.value.mark, p.id).map_or_else(|| format!("{:04X}", p.id), str::to_string);
    let word = ["bool", "notdefault", "short", "long", "double", "guid", "text", "binary", "loose"][p.value.mark as usize];
    [control, type_code, property, word.to_string(), shown(p, &stream[p.start..][..p.length])].map(String::into_bytes)
}

/// "Text is written whole as UTF-8 .. Binary and loose values are written as hex, two digits a byte."
fn shown(p: &Property, bytes: &[u8]) -> String {
    let low = p.value.low;
    match p.value.mark {
        0 => if low == 0 { "no" } else { "yes" }.to_string(),
        1 => "-".to_string(),
        2 | 3 => (low as i32).to_string(),
        4 => format!("{:08X}{low:08X}", p.value.high),
        5 => value::guid_text(bytes),
        6 => {
            let units: Vec<u16> = bytes.chunks(2).map(|unit| u16::from_le_bytes([unit[0], unit[1]])).collect();
            String::from_utf16(&units).expect("text is UTF-16")
        }
        _ => bytes.iter().map(|byte| format!("{byte:02X}")).collect(),
    }
}

/// "Each record ends with CR LF. Text is .. quoted where it holds a comma, quote, CR or LF, with quotes doubled."
pub fn text(records: &[Record]) -> Vec<u8> {
    let mut text = Vec::new();
    for record in records {
        let fields: Vec<Vec<u8>> = record.iter().map(|field| quoted(field)).collect();
        text.extend(fields.join(&b','));
        text.extend(b"\r\n");
    }
    text
}

fn quoted(field: &[u8]) -> Vec<u8> {
    if !field.iter().any(|byte| b",\"\r\n".contains(byte)) {
        return field.to_vec();
    }
    let doubled = field.split(|&byte| byte == b'"').collect::<Vec<_>>().join(&b"\"\""[..]);
    [&b"\""[..], &doubled, b"\""].concat()
}
