//! The text of `formlist`, and the rows as a program prints them.

use crate::form;
use crate::judge::property_name;
use crate::plain::{self, value, Answer, ControlRow, PropertyRow, Rows, NO_PARENT};

/// The size of `formlist`'s buffer, and the words it lends: 256 controls, 1,024 properties.
pub const BUFFER: usize = 32_768;
pub const CONTROL_WORDS: usize = plain::CONTROL_WORDS * 256;
pub const PROPERTY_WORDS: usize = plain::PROPERTY_WORDS * 1024;
/// Words lent for TypeInfo in a batch file, at most.
pub const TYPE_INFO_WORDS: usize = plain::typeinfo::WORDS * 256;

/// The code table and the Blob of an input, or the answer that refuses it.
pub fn parts(input: &[u8]) -> Result<(&[u8], &[u8]), Answer> {
    if input.len() > BUFFER {
        return Err(Answer::refusal(5));
    }
    let length = plain::u32_at(input, 0).ok_or(Answer::refusal(8))?;
    let rest = &input[4..];
    if length as u64 > rest.len() as u64 {
        return Err(Answer::refusal(8));
    }
    Ok(rest.split_at(length as usize))
}

/// What `formlist` prints.
pub fn listing(input: &[u8]) -> String {
    match parts(input) {
        Ok((table, stream)) => lines(stream, &plain::read_blob(table, stream, CONTROL_WORDS, PROPERTY_WORDS)),
        Err(answer) => answer_line("answer", answer),
    }
}

pub fn lines(stream: &[u8], rows: &Rows) -> String {
    let mut text = answer_line("answer", rows.answer);
    for (n, row) in rows.controls.iter().enumerate() {
        text += &control_line(stream, n, row);
    }
    for (n, row) in rows.properties.iter().enumerate() {
        text += &property_line(stream, n, row);
    }
    text
}

pub fn answer_line(word: &str, a: Answer) -> String {
    format!("{word} {} {} {} {}\n", a.number, a.counts[0], a.counts[1], a.counts[2])
}

/// A name's column by its mark: characters, nothing, or "the byte length followed by `b`".
fn name_column(stream: &[u8], [_, mark, start, length, ..]: &ControlRow) -> String {
    match mark {
        1 => "-".to_string(),
        2 => format!("{length}b"),
        _ => characters(stream, *start, *length),
    }
}

fn characters(stream: &[u8], start: u32, length: u32) -> String {
    value::characters(&stream[start as usize..][..length as usize]).to_string()
}

fn control_line(stream: &[u8], n: usize, row: &ControlRow) -> String {
    let name = form::control_type_name(row[0] as u16).unwrap_or("-");
    let characters = name_column(stream, row);
    let parent = if row[7] == NO_PARENT { "-".to_string() } else { row[7].to_string() };
    format!("C {n} {:04X} {name} {characters} {} {} {} {parent}\n", row[0], row[4], row[5], row[6])
}

fn property_line(stream: &[u8], n: usize, row: &PropertyRow) -> String {
    let name = property_name(row[1], row[0] as u16).unwrap_or("-");
    let (word, shown) = value_columns(stream, row);
    format!("P {n} {:04X} {name} {word} {shown}\n", row[0])
}

fn value_columns(stream: &[u8], row: &PropertyRow) -> (&'static str, String) {
    let [_, mark, low, high, start, length] = *row;
    match mark {
        0 => ("bool", if low == 0 { "no" } else { "yes" }.to_string()),
        1 => ("notdefault", "-".to_string()),
        2 => ("short", (low as i32).to_string()),
        3 => ("long", (low as i32).to_string()),
        4 => ("double", format!("{high:08X}{low:08X}")),
        5 => ("guid", value::guid_text(&stream[start as usize..][..16])),
        6 => ("text", characters(stream, start, length)),
        7 => ("binary", length.to_string()),
        _ => ("loose", length.to_string()),
    }
}

// ---- rows as words

pub fn row_line(letter: char, words: &[u32]) -> String {
    let shown: Vec<String> = words.iter().map(u32::to_string).collect();
    format!("{letter} {}\n", shown.join(" "))
}

/// `A number first second third`, then a C line for each control row and a P line for each property row.
pub fn dump(rows: &Rows) -> String {
    let mut text = answer_line("A", rows.answer);
    text.extend(rows.controls.iter().map(|row| row_line('C', row)));
    text.extend(rows.properties.iter().map(|row| row_line('P', row)));
    text
}

/// The same of TypeInfo, with T lines.
pub fn dump_type_info((answer, rows): &(Answer, Vec<crate::plain::typeinfo::Row>)) -> String {
    let mut text = answer_line("A", *answer);
    text.extend(rows.iter().map(|row| row_line('T', row)));
    text
}

/// `A` and the written bytes, two hex digits each, on a B line.
pub fn dump_bytes(answer: Answer, bytes: &[u8]) -> String {
    answer_line("A", answer) + &bytes_line(bytes)
}

/// The same of two tables joined into so many bytes, with a K line: how many bytes behind those written have kept their values.
pub fn dump_joined(answer: Answer, written: &[u8], room: usize) -> String {
    dump_bytes(answer, written) + &row_line('K', &[(room - written.len()) as u32])
}

/// A B line: the letter, then each byte as two hex digits behind a blank.
pub fn bytes_line(bytes: &[u8]) -> String {
    let shown: String = bytes.iter().map(|b| format!(" {b:02X}")).collect();
    format!("B{shown}\n")
}
