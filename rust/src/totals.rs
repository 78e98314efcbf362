//! Totals over many Blobs.

use crate::archive;
use crate::format::totals::{ANSWER_NUMBERS, TYPE_CODES};
use crate::refused::{of_blob, Counts, Refused};
use crate::{control_type_name, Name};
use std::fmt::{self, Display, Formatter};

/// The words that listings have for the marks of values, in their order.
const MARKS: [&str; 9] = ["bool", "notdefault", "short", "long", "double", "guid", "text", "binary", "loose"];

/// Totals over many Blobs: how many got each answer, and over those that were read how many controls have each type name, how many properties the code
/// table lacks, and how many values have each mark.
///
/// ```
/// use oskuramos::{Totals, ACCESS_2000_CODES};
///
/// let mut totals = Totals::default();
/// for file in ["examples/form-2000.blob", "examples/later-tree.blob"] {
///     if let Err(why) = totals.add(ACCESS_2000_CODES, &std::fs::read(file)?)? {
///         eprintln!("{file} is counted as refused: {why}");
///     }
/// }
/// assert_eq!(totals.streams(0), 2);
/// println!("{totals}");
/// # Ok::<(), Box<dyn std::error::Error>>(())
/// ```
#[derive(Debug, Clone, Copy, PartialEq, Eq, Hash, Default)]
pub struct Totals(archive::Totals);

impl Totals {
    /// Counts a Blob, and gives what its reading was answered: its counts, or why it couldn't be read. Either is counted.
    /// The one error is [`Refused::OverCeiling`]: then nothing was counted.
    pub fn add(&mut self, table: &[u8], stream: &[u8]) -> Result<Result<Counts, Refused>, Refused> {
        self.add_within(table, stream, u32::MAX, u32::MAX)
    }

    /// The same where there is room for so many rows of controls and of properties: a Blob that has more counts as answered 6 or 7.
    pub fn add_within(
        &mut self,
        table: &[u8],
        stream: &[u8],
        control_room: u32,
        property_room: u32,
    ) -> Result<Result<Counts, Refused>, Refused> {
        match of_blob(archive::count_blob(&mut self.0, table, stream, control_room, property_room)) {
            Err(Refused::OverCeiling) => Err(Refused::OverCeiling),
            answered => Ok(answered),
        }
    }

    /// How many streams got an answer: 0, 4, 5, 6, 7 or 8. Others get none.
    pub fn streams(&self, answer: u32) -> u32 {
        ANSWER_NUMBERS.iter().position(|&n| n == answer).map_or(0, |i| self.0.answers[i])
    }

    /// How many controls have each type name, in the order of the names' first codes; the names that no control has are among them.
    pub fn controls(&self) -> impl Iterator<Item = (Name, u32)> + '_ {
        TYPE_CODES.iter().zip(self.0.types).filter_map(|(&code, n)| Some((control_type_name(code)?, n)))
    }

    /// How many controls have a type without a name.
    pub fn other_controls(&self) -> u32 {
        self.0.types[TYPE_CODES.len()]
    }

    /// How many properties of Access 2000 streams have a code that the code table lacks.
    pub fn unmapped(&self) -> u32 {
        self.0.unmapped
    }

    /// How many properties aren't so.
    pub fn mapped(&self) -> u32 {
        self.0.mapped
    }

    /// How many values have a mark, 0 to 8.
    pub fn values(&self, mark: u32) -> u32 {
        self.0.marks.get(mark as usize).copied().unwrap_or(0)
    }
}

/// A line for each number that isn't 0.
impl Display for Totals {
    fn fmt(&self, f: &mut Formatter) -> fmt::Result {
        let mut line = |what: String, n: u32| if n == 0 { Ok(()) } else { writeln!(f, "{what} {n}") };
        for number in ANSWER_NUMBERS {
            line(format!("answer {number}"), self.streams(number))?;
        }
        for (name, n) in self.controls() {
            line(format!("control {name}"), n)?;
        }
        line("control of another type".to_string(), self.other_controls())?;
        line("property unmapped".to_string(), self.unmapped())?;
        line("property mapped".to_string(), self.mapped())?;
        for (mark, word) in MARKS.iter().enumerate() {
            line(format!("value {word}"), self.0.marks[mark])?;
        }
        Ok(())
    }
}
