//! What must be printed for a case, after jetdb and the plain reading were held against each other on it.

use crate::cases::{Case, Kind};
use crate::listing::{self, bytes_line, dump, dump_bytes, dump_joined, dump_type_info};
use crate::plain::codes::Codes;
use crate::plain::{self, value, Answer, Rows, Shape};
use crate::{data, form, judge, oracle, paired};

pub struct Expected {
    pub text: String,
    /// How the Blob was read, where one was.
    pub shape: Option<Shape>,
    /// Whether jetdb itself was asked.
    pub by_jetdb: bool,
}

impl Expected {
    fn new(text: String, by_jetdb: bool) -> Expected {
        Expected { text, shape: None, by_jetdb }
    }

    /// The answer's number, from the first line.
    pub fn number(&self) -> Option<u32> {
        let mut words = self.text.split_ascii_whitespace();
        matches!(words.next()?, "A" | "answer").then(|| words.next()?.parse().ok())?
    }
}

/// jetdb's code table, made once.
pub struct Judge {
    pub codes: Codes,
    pub table: Vec<u8>,
}

impl Judge {
    pub fn new() -> Judge {
        let codes = oracle::codes();
        Judge { table: codes.bytes(), codes }
    }

    /// The text that must be printed for a case, or in which way jetdb differs from document 01.
    pub fn expected(&self, case: &Case) -> Result<Expected, String> {
        let [first, second] = case.numbers;
        match case.kind {
            Kind::Table => Ok(Expected::new(String::new(), false)),
            Kind::Blob => {
                let table = case.table.as_deref().unwrap_or(&self.table);
                self.blob(table, &case.bytes, [first as usize, second as usize], |_, rows| dump(rows))
            }
            Kind::TypeInfo => type_info(&case.bytes, first as usize),
            Kind::Listing => self.listing(&case.bytes),
            Kind::Guid => guid(&case.bytes, first as usize),
            Kind::Label => Ok(Expected::new(label(second, first as usize), false)),
            Kind::Names => names(first as u16),
            Kind::NamePart => Ok(Expected::new(name_part(&case.bytes, first, second as usize), false)),
            Kind::Join => joined(case.pair(), first as usize),
            Kind::Read2000 => {
                let table = case.table.as_deref().unwrap_or(&self.table);
                self.read_2000(table, &case.bytes, [first as usize, second as usize])
            }
            Kind::ReadLater => self.read_later(case.layout_and_stream(), [first as usize, second as usize]),
            Kind::Pairing => paired::expected(case.info_and_stream()).map(|(text, by_jetdb)| Expected::new(text, by_jetdb)),
        }
    }

    fn blob(&self, table: &[u8], stream: &[u8], words: [usize; 2], print: impl Fn(&[u8], &Rows) -> String) -> Result<Expected, String> {
        let by_jetdb = table == self.table && stream.len() <= plain::LONGEST;
        if by_jetdb {
            judge::blob(&self.codes, stream)?;
        } else {
            self.same_places(table, stream)?;
        }
        let rows = plain::read_blob(table, stream, words[0], words[1]);
        let found = Codes::parse(table).and_then(|codes| plain::reading(&codes, stream));
        found.iter().try_for_each(|found| plain::room::bounded(found, stream.len()))?;
        Ok(Expected { text: print(stream, &rows), shape: found.map(|found| found.shape), by_jetdb })
    }

    /// The reader of Access 2000: jetdb judges the reading, document 02 alone whether it is asked for.
    fn read_2000(&self, table: &[u8], stream: &[u8], words: [usize; 2]) -> Result<Expected, String> {
        let rows = plain::readers::read_2000(table, stream, words);
        plain::readers::kept_2000(table, stream, words, &rows)?;
        let found = self.blob(table, stream, words, |_, _| dump(&rows))?;
        Ok(Expected { shape: None, by_jetdb: found.by_jetdb && rows.answer.number != 15, ..found })
    }

    /// The reader of the later layout, which never looks at the first byte's value: jetdb is given another one where it would read Access 2000.
    fn read_later(&self, (layout, stream): (u32, &[u8]), words: [usize; 2]) -> Result<Expected, String> {
        let rows = plain::readers::read_later(layout, stream, words);
        plain::readers::kept_later(layout, stream, words, &rows)?;
        let mut later = stream.to_vec();
        later.iter_mut().take(1).filter(|first| **first == self.codes.layout).for_each(|first| *first ^= 1);
        let found = self.blob(&self.table, &later, words, |_, _| dump(&rows))?;
        Ok(Expected { shape: None, by_jetdb: found.by_jetdb && rows.answer.number != 15, ..found })
    }

    /// Under another table with jetdb's layout byte, jetdb still judges what no table changes: the places and the counts.
    fn same_places(&self, table: &[u8], stream: &[u8]) -> Result<(), String> {
        let Some(codes) = Codes::parse(table).filter(|codes| codes.layout == self.codes.layout) else { return Ok(()) };
        let places = |codes| plain::reading(codes, stream).map(|found| places_of(&plain::rows(&found)));
        judge::blob(&self.codes, stream)?;
        let (ours, theirs) = (places(&codes), places(&self.codes));
        if ours == theirs {
            Ok(())
        } else {
            Err("another table moved the places".to_string())
        }
    }

    /// What `formlist` prints.
    pub fn listing(&self, input: &[u8]) -> Result<Expected, String> {
        let text = listing::listing(input);
        let Ok((table, stream)) = listing::parts(input) else { return Ok(Expected::new(text, false)) };
        let room = [listing::CONTROL_WORDS, listing::PROPERTY_WORDS];
        let found = self.blob(table, stream, room, listing::lines)?;
        if found.text == text {
            Ok(found)
        } else {
            Err("two listings of one input".to_string())
        }
    }
}

/// The words of the rows that no code table changes.
fn places_of(rows: &Rows) -> Vec<Vec<u32>> {
    let controls = rows.controls.iter().map(|row| row[1..].to_vec());
    controls.chain(rows.properties.iter().map(|row| row[4..].to_vec())).collect()
}

fn type_info(stream: &[u8], words: usize) -> Result<Expected, String> {
    let by_jetdb = stream.len() <= plain::LONGEST;
    if by_jetdb {
        judge::type_info(stream)?.ok();
    }
    Ok(Expected::new(dump_type_info(&plain::typeinfo::read_type_info(stream, words)), by_jetdb))
}

fn written(room: usize, text: &str) -> String {
    if text.len() > room {
        return dump_bytes(Answer::refusal(9), &[]);
    }
    dump_bytes(Answer { number: 0, counts: [text.len() as u32, 0, 0] }, text.as_bytes())
}

fn guid(bytes: &[u8], room: usize) -> Result<Expected, String> {
    if bytes.len() != 16 {
        return Ok(Expected::new(dump_bytes(Answer::refusal(10), &[]), false));
    }
    let text = data::format_guid(bytes);
    if text != value::guid_text(bytes) {
        return Err(format!("GUID text: jetdb {text}"));
    }
    Ok(Expected::new(written(room, &text), true))
}

/// Two tables joined; document 02 is read in two ways, and both must agree.
fn joined((one, other): (&[u8], &[u8]), room: usize) -> Result<Expected, String> {
    let (answer, written) = plain::join::join(one, other, room);
    plain::join::kept(one, other, room, answer, &written)?;
    Ok(Expected::new(dump_joined(answer, &written, room), false))
}

fn label(n: u32, room: usize) -> String {
    written(room, &plain::label(n))
}

/// The four names of an id, an empty line where there is none.
fn names(id: u16) -> Result<Expected, String> {
    let found = [form::prop_id_name(id), form::number_prop_id_name(id), form::bytes_prop_id_name(id), form::control_type_name(id)];
    let by_search = form::name_tables().map(|table| table.iter().find(|row| row.0 == id).map(|row| row.1));
    if found != by_search {
        return Err(format!("names of {id:04X}: {found:?}, {by_search:?}"));
    }
    Ok(Expected::new(found.iter().map(|name| bytes_line(name.unwrap_or("").as_bytes())).collect(), true))
}

/// The part of the stream or of the label; the bytes are start, length, label, stream.
fn name_part(bytes: &[u8], mark: u32, label_length: usize) -> String {
    let [start, length] = [0, 4].map(|at| plain::u32_at(bytes, at).unwrap() as usize);
    let (label, stream) = bytes[8..].split_at(label_length);
    let part = match mark {
        0 | 2 => stream.get(start..start + length),
        1 => label.get(..length),
        _ => None,
    };
    bytes_line(part.unwrap_or(&[]))
}
