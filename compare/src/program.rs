//! Cases sent through another program, many in one process, and what it prints held against what must be printed.

use crate::batch::{self, Draw};
use crate::cases::Case;
use crate::expect::Judge;
use crate::run::Figures;
use crate::small::smallest;
use std::io::{Read, Write};
use std::process::{Command, Stdio};

/// How many cases one process gets.
const MANY: usize = 5_000;

/// A program with its words; it reads a batch file from standard input.
pub struct Program<'a> {
    pub words: &'a [&'a str],
}

impl Program<'_> {
    /// What is printed for these frames; a program that stops early has printed less.
    pub fn prints(&self, frames: &[u8]) -> Result<String, String> {
        let mut command = Command::new(self.words[0]);
        command.args(&self.words[1..]).stdin(Stdio::piped()).stdout(Stdio::piped());
        let mut child = command.spawn().map_err(|e| format!("{}: {e}", self.words[0]))?;
        let (mut input, mut output) = (child.stdin.take().expect("piped"), child.stdout.take().expect("piped"));
        let mut printed = Vec::new();
        std::thread::scope(|scope| {
            scope.spawn(move || input.write_all(frames));
            output.read_to_end(&mut printed).map_err(|e| e.to_string())
        })?;
        child.wait().map_err(|e| e.to_string())?;
        Ok(String::from_utf8_lossy(&printed).into_owned())
    }
}

/// What is sent, what must come back, and the figures of what agreed.
pub struct Run<'a> {
    pub judge: &'a Judge,
    pub prints: &'a dyn Fn(&[u8]) -> Result<String, String>,
    pub figures: Figures,
    waiting: Vec<Case>,
}

impl<'a> Run<'a> {
    pub fn new(judge: &'a Judge, prints: &'a dyn Fn(&[u8]) -> Result<String, String>) -> Run<'a> {
        Run { judge, prints, figures: Figures::default(), waiting: Vec::new() }
    }

    /// Draws and compares `count` cases; stops at the first that differs, and then says which and why.
    pub fn compare(&mut self, seed: u64, count: usize, longest: usize, draw: Draw) -> Result<(), String> {
        draw(seed, count, longest, &mut |case| {
            self.waiting.push(case);
            if self.waiting.len() == MANY {
                self.send()?;
            }
            Ok(())
        })?;
        self.send()
    }

    /// Sends the cases that wait; those of one code table stand together.
    fn send(&mut self) -> Result<(), String> {
        let mut cases = std::mem::take(&mut self.waiting);
        cases.sort_by_key(|case| case.table.is_some());
        let Some((case, why)) = self.first_difference(&cases)? else { return Ok(()) };
        let mut differs = |cases: &[Case]| self.first_difference(cases).ok().flatten();
        match differs(std::slice::from_ref(&case)) {
            Some((case, why)) => Err(smallest(&case, why, &mut differs)),
            None => Err(format!("only behind other cases: {why}\n{}", batch::shown(&case))),
        }
    }

    /// The first case that the program prints otherwise than it must; jetdb and document 01 have to agree on each.
    fn first_difference(&mut self, cases: &[Case]) -> Result<Option<(Case, String)>, String> {
        let (frames, expected) = batch::written(self.judge, cases)?;
        let printed = (self.prints)(&frames)?;
        let mut rest = printed.as_str();
        for (case, expected) in cases.iter().zip(&expected) {
            let Some(behind) = batch::strip_text(rest, &expected.text) else {
                return Ok(Some((case.clone(), batch::both(&expected.text, rest))));
            };
            rest = behind;
            self.figures.note(case, expected);
        }
        let more = || format!("more was printed: {}", batch::first_lines(rest, 3));
        Ok(cases.last().filter(|_| !rest.is_empty()).map(|case| (case.clone(), more())))
    }
}
