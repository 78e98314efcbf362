//! TypeInfo.

use super::{u16_at, u32_at, Answer, LONGEST};

/// Words of a row.
pub const WORDS: usize = 5;

pub type Row = [u32; WORDS];

#[derive(Debug, Clone)]
pub struct Entry {
    /// Where the entry itself starts.
    pub at: usize,
    pub type_code: u16,
    pub index: u32,
    pub start: usize,
    pub length: usize,
    /// Whether the stream's end, and no NUL, ended the name.
    pub cut: bool,
    /// The place behind the entry.
    pub end: usize,
}

impl Entry {
    pub fn row(&self) -> Row {
        [self.type_code as u32, self.index, self.start as u32, self.length as u32, self.cut as u32]
    }
}

/// The entries that are reported, or the number of the refusal.
pub fn entries(s: &[u8]) -> Result<Vec<Entry>, u32> {
    if s.len() > LONGEST {
        return Err(5);
    }
    if s.len() < 32 {
        return Err(1);
    }
    if s[..4] != [0xF7, 0xEA, 0xCD, 0xAC] {
        return Err(2);
    }
    let count = u32_at(s, 12).unwrap() as usize;
    if count > (s.len() - 32) / 8 {
        return Err(3);
    }
    let mut all = Vec::new();
    let mut pos = 32;
    while all.len() < count && pos + 8 <= s.len() {
        let entry = entry_at(s, pos);
        pos = entry.end;
        all.push(entry);
    }
    all.retain(|e| e.type_code != 0x1EFF);
    Ok(all)
}

fn entry_at(s: &[u8], at: usize) -> Entry {
    let type_code = u16_at(s, at).unwrap();
    let first_length = name_length(s, at + 8);
    let second = (at + 8 + first_length + 1).min(s.len());
    let second_length = name_length(s, second);
    let behind = second + second_length + 1 + if type_code % 256 == 0x77 { 36 } else { 0 };
    let (start, length) = if second_length > 0 { (second, second_length) } else { (at + 8, first_length) };
    let cut = s.get(start + length) != Some(&0);
    Entry { at, type_code, index: u32_at(s, at + 4).unwrap(), start, length, cut, end: behind.min(s.len()) }
}

/// The bytes up to a NUL or the stream's end.
fn name_length(s: &[u8], start: usize) -> usize {
    s[start..].split(|&b| b == 0).next().map_or(0, <[u8]>::len)
}

/// The answer with so many words lent, and the rows that are then written.
pub fn read_type_info(s: &[u8], words: usize) -> (Answer, Vec<Row>) {
    let found = match entries(s) {
        Ok(found) => found,
        Err(number) => return (Answer::refusal(number), Vec::new()),
    };
    let counts = [found.len() as u32, 0, 0];
    if found.len() > words / WORDS {
        return (Answer { number: 6, counts }, Vec::new());
    }
    (Answer { number: 0, counts }, found.iter().map(Entry::row).collect())
}
