//! Controls paired with TypeInfo: document 02's wish 2, and what its wish 6 says of names that were cut.

use super::{label, typeinfo, Answer, CONTROL_WORDS};

/// A name as the wish compares it, in small letters; `None` where it matches none.
pub fn folded(letters: impl Iterator<Item = u16>) -> Option<String> {
    letters.map(|unit| u8::try_from(unit).ok().filter(u8::is_ascii).map(|byte| char::from(byte.to_ascii_lowercase()))).collect()
}

fn of_bytes(bytes: &[u8]) -> Option<String> {
    folded(bytes.iter().map(|&byte| byte.into()))
}

/// The bytes that a row names, where they stand in the stream.
fn named<'a>(stream: &'a [u8], row: &[u32]) -> Option<&'a [u8]> {
    let (start, length) = (u64::from(row[2]), u64::from(row[3]));
    (start + length <= stream.len() as u64).then(|| &stream[start as usize..][..length as usize])
}

/// The name of a control row; the outer `None` is refusal 11.
fn control_name(stream: &[u8], row: &[u32]) -> Option<Option<String>> {
    match row[1] {
        0 => named(stream, row).map(|bytes| match bytes.len() % 2 {
            0 => folded(bytes.chunks(2).map(|unit| u16::from_le_bytes([unit[0], unit[1]]))),
            _ => None,
        }),
        1 => Some(of_bytes(label(row[2]).as_bytes())),
        2 => named(stream, row).map(of_bytes),
        _ => None,
    }
}

/// What is to be paired: rows by their words, and how many of them.
#[derive(Debug, Clone)]
pub struct Rows {
    pub stream: Vec<u8>,
    pub controls: Vec<u32>,
    pub control_count: u32,
    pub info_stream: Vec<u8>,
    pub infos: Vec<u32>,
    pub info_count: u32,
}

/// The answer, and the words of the control rows after the call.
pub fn pair(rows: &Rows) -> (Answer, Vec<u32>) {
    match types(rows) {
        None => (Answer::refusal(11), rows.controls.clone()),
        Some(types) => {
            let mut controls = rows.controls.clone();
            for (n, found) in types.into_iter().enumerate() {
                controls[n * CONTROL_WORDS] = found.unwrap_or(controls[n * CONTROL_WORDS]);
            }
            (Answer::refusal(0), controls)
        }
    }
}

/// The type that TypeInfo has for each control row counted; `None` for all of them is refusal 11.
fn types(rows: &Rows) -> Option<Vec<Option<u32>>> {
    let (n, m) = (rows.control_count as usize, rows.info_count as usize);
    if n > rows.controls.len() / CONTROL_WORDS || m > rows.infos.len() / typeinfo::WORDS {
        return None;
    }
    let controls = rows.controls.chunks(CONTROL_WORDS).take(n);
    let names = controls.map(|row| control_name(&rows.stream, row)).collect::<Option<Vec<_>>>()?;
    let infos = rows.infos.chunks(typeinfo::WORDS).take(m);
    let infos = infos.map(|row| Some((row, of_bytes(named(&rows.info_stream, row)?)))).collect::<Option<Vec<_>>>()?;
    let first = |name: &String| infos.iter().find(|(row, known)| row[4] == 0 && known.as_ref() == Some(name)).map(|(row, _)| row[0]);
    Some(names.iter().map(|name| name.as_ref().and_then(first)).collect())
}
