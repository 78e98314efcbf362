//! jetdb's answer held against the plain reading, value by value and place by place.

use crate::form::{self, BlobProperty, BlobValue, ControlProperties};
use crate::plain::codes::Codes;
use crate::plain::{self, value, Control, Name, Property, Reading, Shape, NO_PARENT};
use crate::{form2000, oracle};

type Verdict = Result<(), String>;

/// The plain reading of a Blob under jetdb's own table, or in which way jetdb differs. `None` is answer 4.
pub fn blob(codes: &Codes, stream: &[u8]) -> Result<Option<Reading>, String> {
    let found = plain::reading(codes, stream);
    match (&found, oracle::blob(stream)) {
        (None, None) => {}
        (Some(ours), Some(theirs)) => same_reading(stream, ours, &theirs)?,
        (ours, theirs) => return Err(format!("read by document 01: {}, by jetdb: {}", ours.is_some(), theirs.is_some())),
    }
    Ok(found)
}

fn same_reading(stream: &[u8], ours: &Reading, theirs: &oracle::Blob) -> Verdict {
    same("shape", shape_of(stream), ours.shape)?;
    same_run(stream, "the object", ours.shape, Some(first_place(ours.shape)), &ours.own, &theirs.own)?;
    same("controls", theirs.controls.len(), ours.controls.len())?;
    for (n, (a, b)) in ours.controls.iter().zip(&theirs.controls).enumerate() {
        let whose = format!("control {n}");
        same(&format!("{whose}: type"), b.type_code, a.type_code)?;
        same_name(stream, &whose, ours.shape, n, a, b)?;
        same_run(stream, &whose, ours.shape, None, &a.properties, &b.properties)?;
    }
    same_nesting(stream, ours)
}

/// Levels and parents, against jetdb's own tree. A scan has none.
fn same_nesting(stream: &[u8], ours: &Reading) -> Verdict {
    let theirs = match ours.shape {
        Shape::Access2000 => form2000::nesting(stream),
        Shape::Tree => form::nesting(stream),
        Shape::Short | Shape::Scan => Some(vec![(0, None); ours.controls.len()]),
    };
    let rows = plain::rows(ours).controls;
    let found = rows.iter().map(|row| (row[6], (row[7] != NO_PARENT).then_some(row[7])));
    same("levels and parents", theirs, Some(found.collect()))
}

fn same<T: PartialEq + std::fmt::Debug>(what: &str, theirs: T, ours: T) -> Verdict {
    if theirs == ours {
        Ok(())
    } else {
        Err(format!("{what}: jetdb {theirs:?}, document 01 {ours:?}"))
    }
}

/// How jetdb reads the stream, by its own functions.
fn shape_of(stream: &[u8]) -> Shape {
    match stream {
        _ if oracle::is_2000(stream) => Shape::Access2000,
        _ if stream.len() < 14 => Shape::Short,
        _ if form::reads_as_tree(stream) => Shape::Tree,
        _ => Shape::Scan,
    }
}

/// Where the object's first property stands.
fn first_place(shape: Shape) -> usize {
    if shape == Shape::Access2000 {
        10
    } else {
        14
    }
}

// ---- properties

/// Two runs of properties; each must also be what jetdb's own step reads at its place, and each starts where the last ended.
fn same_run(stream: &[u8], whose: &str, shape: Shape, first: Option<usize>, ours: &[Property], theirs: &[BlobProperty]) -> Verdict {
    same(&format!("{whose}: properties"), theirs.len(), ours.len())?;
    let mut expected = first;
    for (n, (a, b)) in ours.iter().zip(theirs).enumerate() {
        let which = format!("{whose}, property {n}");
        same(&format!("{which}: id"), b.prop_id, a.id)?;
        same_value(stream, &which, a, &b.value)?;
        same(&format!("{which}: name"), b.name(), name_of(a))?;
        same(&format!("{which}: place"), expected.unwrap_or(a.at), a.at)?;
        expected = Some(step(stream, &which, shape, a)?);
    }
    Ok(())
}

/// The place behind the property, read by jetdb's own step at the property's place.
fn step(stream: &[u8], which: &str, shape: Shape, p: &Property) -> Result<usize, String> {
    let end = p.start + p.length;
    let behind = if shape == Shape::Access2000 {
        form2000::property_step(stream, p.at).map(|(_, behind)| behind)
    } else {
        form::property_step(stream, p.at, end + 4).map(|(_, behind)| behind - 4)
    };
    same(&format!("{which}: end of the value"), behind, Some(end))?;
    Ok(if shape == Shape::Access2000 { end } else { end + 4 })
}

/// The property's name by document 01's rule for marks, in jetdb's tables.
fn name_of(p: &Property) -> Option<&'static str> {
    property_name(p.value.mark, p.id)
}

pub fn property_name(mark: u32, id: u16) -> Option<&'static str> {
    match mark {
        0..=4 => form::number_prop_id_name(id),
        6 | 8 => form::prop_id_name(id),
        _ => form::bytes_prop_id_name(id),
    }
}

fn same_value(stream: &[u8], which: &str, ours: &Property, theirs: &BlobValue) -> Verdict {
    let bytes = &stream[ours.start..ours.start + ours.length];
    let low = ours.value.low;
    let bits = (ours.value.high as u64) << 32 | low as u64;
    let agrees = match (ours.value.mark, theirs) {
        (0, BlobValue::Bool(b)) => low == *b as u32,
        (1, BlobValue::NotDefault) => bytes.is_empty(),
        (2, BlobValue::Short(v)) => low as i32 == *v as i32,
        (3, BlobValue::Long(v)) => low as i32 == *v,
        (4, BlobValue::Double(v)) => bits == v.to_bits() || (v.is_nan() && f64::from_bits(bits).is_nan()),
        (5, BlobValue::Guid(text)) => *text == value::guid_text(bytes),
        (6, BlobValue::Text(text)) => is_text(bytes, text),
        (7, BlobValue::Binary(b)) => bytes == b.as_slice(),
        (8, BlobValue::Text(text)) => is_loose(bytes, text),
        _ => false,
    };
    let unused = match ours.value.mark {
        0 | 2 | 3 => ours.value.high == 0,
        4 => true,
        _ => bits == 0,
    };
    if agrees && unused {
        Ok(())
    } else {
        Err(format!("{which}: jetdb {theirs:?}, document 01 {:?} of {bytes:02X?}", ours.value))
    }
}

/// Whether `text` in UTF-16LE is just these bytes, and has as many characters as document 02 counts.
fn is_text(bytes: &[u8], text: &str) -> bool {
    text.encode_utf16().flat_map(u16::to_le_bytes).eq(bytes.iter().copied()) && text.chars().count() == value::characters(bytes)
}

/// Whether the bytes are not UTF-16 to jetdb either, and `text` is what its lossy reading makes of them.
fn is_loose(bytes: &[u8], text: &str) -> bool {
    crate::encoding::decode_utf16le(bytes).is_err() && String::from_utf8_lossy(bytes) == text
}

// ---- names

fn same_name(stream: &[u8], whose: &str, shape: Shape, n: usize, ours: &Control, theirs: &ControlProperties) -> Verdict {
    let agrees = match ours.name {
        Name::Text { start, length } => is_text(&stream[start..start + length], &theirs.name),
        Name::Numbered => theirs.name == plain::label(n as u32),
        Name::Loose { start, length } => is_loose(&stream[start..start + length], &theirs.name),
    };
    // A later control also tells whether its name was stored.
    let stored = shape == Shape::Access2000 || form::stored_name(&theirs.properties).is_some() == (ours.name != Name::Numbered);
    if agrees && stored {
        Ok(())
    } else {
        Err(format!("{whose}: name: jetdb {:?}, document 01 {:?}", theirs.name, ours.name))
    }
}

// ---- TypeInfo

/// The plain reading of TypeInfo, or in which way jetdb differs.
pub fn type_info(stream: &[u8]) -> Result<Result<Vec<plain::typeinfo::Entry>, u32>, String> {
    let ours = plain::typeinfo::entries(stream);
    match (&ours, oracle::type_info(stream)) {
        (Err(a), Err(b)) => same("refusal", b, *a)?,
        (Ok(a), Ok(b)) => {
            same("entries", b.len(), a.len())?;
            for (n, (a, b)) in a.iter().zip(&b).enumerate() {
                same(&format!("entry {n}"), (b.type_code, b.index), (a.type_code, a.index))?;
                let bytes = &stream[a.start..a.start + a.length];
                same(&format!("entry {n}: name"), oracle::name_bytes(&b.name), bytes.to_vec())?;
                same_place(stream, n, a)?;
            }
        }
        (a, b) => return Err(format!("jetdb {:?}, document 01 {:?}", b.map(|e| e.len()), a.as_ref().map(Vec::len))),
    }
    Ok(ours)
}

/// An entry's places, by jetdb's own steps from the entry's start.
fn same_place(stream: &[u8], n: usize, ours: &plain::typeinfo::Entry) -> Verdict {
    let behind = form::type_info_step(stream, ours.at).map(|(_, behind)| behind);
    same(&format!("entry {n}: end"), behind, Some(ours.end))?;
    let (first, next) = form::name_step(stream, ours.at + 8);
    let (second, end) = form::name_step(stream, next);
    let (start, name, behind) = if second.is_empty() { (ours.at + 8, first, next) } else { (next, second, end) };
    same(&format!("entry {n}: place of the name"), (start, name.len()), (ours.start, ours.length))?;
    // jetdb steps over a NUL where there is one
    same(&format!("entry {n}: cut"), behind == start + name.len(), ours.cut)
}
