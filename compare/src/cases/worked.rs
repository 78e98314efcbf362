//! The worked streams of `crates/rules`, read out of the files in which their results are proved, so no byte stands twice.
//!
//! Taken are lists of bytes that have a name (`NAME = dump "2A 00" ++ ..`) and what is claimed of them: `exit`, `stream_of`, `well_formed_lem`,
//! `type_info_exit`, `type_info_answer`, `printed` and `listing`. A claim over other values (a law, a part of a `map`) is passed over.

use super::{Case, Kind, Sink};
use crate::plain::typeinfo::WORDS;
use std::collections::HashMap;

const FILES: [&str; 7] = [
    include_str!("../../../crates/rules/specs/Examples.antt"),
    include_str!("../../../crates/rules/proofs/Worked2000.antt"),
    include_str!("../../../crates/rules/proofs/WorkedLater.antt"),
    include_str!("../../../crates/rules/proofs/WorkedBlob.antt"),
    include_str!("../../../crates/rules/proofs/WorkedTables.antt"),
    include_str!("../../../crates/rules/proofs/WorkedTypeInfo.antt"),
    include_str!("../../../crates/rules/proofs/WorkedListing.antt"),
];

/// All of them, in the order of the files. A Blob is read under its own table and, for jetdb's judgement, under jetdb's too.
pub fn streams(out: Sink) {
    for file in FILES {
        let file = File::new(file);
        for at in 0..file.tokens.len() {
            file.claim(at, out);
        }
    }
}

/// How many claims there are of lists that are said here, and those that aren't taken.
#[cfg(test)]
pub fn claims() -> (usize, Vec<String>) {
    let (mut all, mut left) = (0, Vec::new());
    for file in FILES.map(File::new) {
        for at in 0..file.tokens.len() - 1 {
            let said = match file.tokens[at + 1] {
                Open => true,
                Word(name) => file.named.contains_key(name),
                _ => false,
            };
            if said && CLAIMS.contains(&file.tokens[at]) {
                all += 1;
                if file.claim(at, &mut |_| ()).is_none() {
                    left.push(format!("{:?}", &file.tokens[at..file.tokens.len().min(at + 9)]));
                }
            }
        }
    }
    (all, left)
}

#[derive(Clone, Copy, PartialEq, Debug)]
enum Token<'a> {
    Word(&'a str),
    Text(&'a str),
    Open,
    Close,
}
use Token::{Close, Open, Text, Word};

#[cfg(test)]
const CLAIMS: [Token; 7] =
    [Word("exit"), Word("stream_of"), Word("well_formed_lem"), Word("type_info_exit"), Word("type_info_answer"), Word("printed"), Word("listing")];

/// Words, texts and parentheses, without comments; braces and commas only part words.
fn tokens(mut rest: &str) -> Vec<Token<'_>> {
    let mut found = Vec::new();
    loop {
        rest = rest.trim_start_matches(|c: char| c.is_whitespace() || "{},;".contains(c));
        let (token, end) = match rest.chars().next() {
            None => return found,
            Some('(') => (Some(Open), 1),
            Some(')') => (Some(Close), 1),
            Some('"') => {
                let end = 1 + rest[1..].find('"').expect("a text ends");
                (Some(Text(&rest[1..end])), end + 1)
            }
            _ if rest.starts_with("--") => (None, rest.find('\n').unwrap_or(rest.len())),
            _ => {
                let end = rest.find(|c: char| c.is_whitespace() || "{},;()\"".contains(c)).unwrap_or(rest.len());
                (Some(Word(&rest[..end])), end)
            }
        };
        found.extend(token);
        rest = &rest[end..];
    }
}

struct File<'a> {
    tokens: Vec<Token<'a>>,
    /// The lists that have a name, in this file and in those that it takes names from.
    named: HashMap<&'a str, Vec<u32>>,
}

impl<'a> File<'a> {
    fn new(text: &'a str) -> File<'a> {
        let mut file = File { tokens: Vec::new(), named: HashMap::from([("old", vec![0])]) };
        for text in [FILES[0], FILES[1], FILES[2], text] {
            file.tokens = tokens(text);
            file.names();
        }
        file
    }

    /// Notes every `NAME : List ℕ NAME = ..`.
    fn names(&mut self) {
        for at in 0..self.tokens.len().saturating_sub(6) {
            let [Word(name), Word(":"), Word("List"), Word("ℕ"), Word(again), Word("=")] = self.tokens[at..at + 6] else { continue };
            if let (true, Some((value, _))) = (name == again, self.list(at + 6)) {
                self.named.insert(name, value);
            }
        }
    }

    /// The list at a place and the place behind it: parts joined by `++`, or numbers by `∷`.
    fn list(&self, at: usize) -> Option<(Vec<u32>, usize)> {
        let (mut value, mut at) = self.part(at)?;
        while let Some(Word("++" | "∷")) = self.tokens.get(at) {
            let (more, end) = self.part(at + 1)?;
            value.extend(more);
            at = end;
        }
        Some((value, at))
    }

    fn part(&self, at: usize) -> Option<(Vec<u32>, usize)> {
        match self.tokens.get(at..)? {
            [Word("dump"), Text(text), ..] => {
                Some((text.split_ascii_whitespace().map(|b| u32::from_str_radix(b, 16).unwrap()).collect(), at + 2))
            }
            [Word("text"), Text(text), ..] => {
                Some((text.replace("\\0", "\0").replace("\\n", "\n").bytes().map(u32::from).collect(), at + 2))
            }
            [Word("replicate"), Word(times), ..] => {
                let (one, end) = self.atom(at + 2)?;
                Some((one.repeat(times.parse().ok()?), end))
            }
            [Word("concat"), Open, Word("replicate"), ..] => self.atom(at + 1),
            _ => self.atom(at),
        }
    }

    /// A name, a number, nothing, or a list in parentheses.
    fn atom(&self, at: usize) -> Option<(Vec<u32>, usize)> {
        match *self.tokens.get(at)? {
            Open => {
                let (value, end) = self.list(at + 1)?;
                (self.tokens.get(end) == Some(&Close)).then_some((value, end + 1))
            }
            Word("[]") => Some((Vec::new(), at + 1)),
            Word(word) => Some((self.named.get(word).cloned().or_else(|| number(word).map(|n| vec![n]))?, at + 1)),
            _ => None,
        }
    }

    fn atoms<const N: usize>(&self, mut at: usize) -> Option<[Vec<u32>; N]> {
        let mut values = [const { Vec::new() }; N];
        for value in &mut values {
            (*value, at) = self.atom(at)?;
        }
        Some(values)
    }

    /// The cases of the claim that begins at a place, if one does.
    fn claim(&self, at: usize, out: Sink) -> Option<()> {
        let table = &self.named["table"];
        match self.tokens[at] {
            Word("exit") => {
                let [table, stream, controls, properties] = self.atoms(at + 1)?;
                blob(&table, &stream, [controls.len(), properties.len()], out);
            }
            Word("stream_of") => {
                let [stream] = self.atoms(at + 1)?;
                blob(table, &stream, [6, 6], out);
            }
            Word("well_formed_lem") => {
                let [table] = self.atoms(at + 1)?;
                blob(&table, &self.named["blob"], [12, 18], out);
            }
            Word("type_info_exit") => {
                let [stream, rows] = self.atoms(at + 1)?;
                out(Case::other("worked", Kind::TypeInfo, [rows.len() as u32, 0], bytes(&stream)));
            }
            Word("type_info_answer") => {
                let [stream, room] = self.atoms(at + 1)?;
                out(Case::other("worked", Kind::TypeInfo, [WORDS as u32 * room.first()?, 0], bytes(&stream)));
            }
            Word("printed") => {
                // (outcome TABLE STREAM ..) stands behind it
                let (stream, end) = self.atom(at + 1)?;
                let [table] = self.atoms(end + 2)?;
                out(Case::listing("worked", &bytes(&table), &bytes(&stream)));
            }
            Word("listing") => {
                let [input] = self.atoms(at + 1)?;
                out(Case::other("worked", Kind::Listing, [0, 0], bytes(&input)));
            }
            _ => (),
        }
        Some(())
    }
}

fn number(word: &str) -> Option<u32> {
    match word.strip_prefix("0x") {
        Some(digits) => u32::from_str_radix(digits, 16).ok(),
        None => word.parse().ok(),
    }
}

fn bytes(list: &[u32]) -> Vec<u8> {
    list.iter().map(|&b| u8::try_from(b).expect("a byte")).collect()
}

/// A Blob under its table, and under jetdb's: as it is and, where it is of the Access 2000 layout, with jetdb's layout byte.
fn blob(table: &[u32], stream: &[u32], lent: [usize; 2], out: Sink) {
    let (table, mut stream) = (bytes(table), bytes(stream));
    let numbers = lent.map(|words| words as u32);
    out(Case { table: Some(table.as_slice().into()), numbers, ..Case::blob("worked", stream.clone()) });
    out(Case::blob("worked", stream.clone()));
    if !stream.is_empty() && stream.first() == table.first() {
        stream[0] = crate::oracle::codes().layout;
        out(Case::blob("worked", stream));
    }
}
