//! What a newer code table changes.

use crate::code_table::Scope;
use crate::lent::{self, DifferenceRow, NO_CONTROL};
use crate::Refused;

/// A property that comes out otherwise under a newer code table: the older lacks its code.
#[derive(Clone, Copy, Debug, PartialEq, Eq, Hash)]
pub struct Difference {
    /// The number of its row among all properties.
    pub property: usize,
    /// The control that has it; none for the form or report itself.
    pub control: Option<usize>,
    /// The raw code, as stored.
    pub code: u8,
    /// The scope that the code is looked up in.
    pub scope: Scope,
    /// The id by the older table: the raw code, marked 0x8000.
    pub older_id: u16,
    /// The id by the newer table.
    pub newer_id: u16,
    /// The mark of its value by the newer table.
    pub newer_mark: u32,
    /// Where the value's bytes start in the stream.
    pub start: usize,
    /// How many they are.
    pub length: usize,
}

impl Difference {
    fn of(row: &DifferenceRow) -> Difference {
        let [property, control, code, kind, scope_code, older_id, newer_id, newer_mark, start, length] = *row;
        Difference {
            property: property as usize,
            control: (control != NO_CONTROL).then_some(control as usize),
            code: code as u8,
            scope: Scope::new(kind as u8, scope_code as u16),
            older_id: older_id as u16,
            newer_id: newer_id as u16,
            newer_mark,
            start: start as usize,
            length: length as usize,
        }
    }
}

/// The properties of a Blob that come out otherwise under a newer code table, in row order. Where there is none, the two conversions are the same.
///
/// Refused are [`TooLong`](Refused::TooLong), [`BadTable`](Refused::BadTable), [`NoSuccessor`](Refused::NoSuccessor) where the newer table doesn't hold
/// every row of the older, and [`NoReading`](Refused::NoReading), in this order.
///
/// ```
/// use oskuramos::{differences, ACCESS_2000_CODES};
///
/// let stream = std::fs::read("examples/form-2000.blob")?;
/// assert_eq!(differences(ACCESS_2000_CODES, ACCESS_2000_CODES, &stream)?, []);
/// # Ok::<(), Box<dyn std::error::Error>>(())
/// ```
pub fn differences(older: &[u8], newer: &[u8], stream: &[u8]) -> Result<Vec<Difference>, Refused> {
    let needed = match lent::differences(older, newer, stream, &mut []) {
        Ok((count, _)) | Err(Refused::MoreRows(count)) => count,
        Err(refused) => return Err(refused),
    };
    let mut rows = vec![[0; lent::DIFFERENCE_WORDS]; needed];
    lent::differences(older, newer, stream, &mut rows)?;
    Ok(rows.iter().map(Difference::of).collect())
}
