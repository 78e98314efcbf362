//! Comma-separated text.

use crate::format::RECORD_FIELDS;
use crate::lent::{self, FieldRow};
use crate::Refused;

/// The records of comma-separated text, read: five fields in each, quotes undone.
///
/// A header record is a record as any other. Fields are bytes; what `write_csv` wrote as text is UTF-8.
///
/// ```
/// use oskuramos::{Records, Refused};
///
/// let records = Records::read(b"control,type,property,word,value\r\n1,0064,Name,text,\"a \"\"b\"\", c\"\r\n")?;
/// for record in records.iter().skip(1) {
///     assert_eq!(record.property, b"Name");
///     assert_eq!(record.value, b"a \"b\", c");
/// }
/// assert_eq!(records.len(), 2);
/// assert_eq!(Records::read(b"a,b,c,d").unwrap_err(), Refused::NotASheet);
/// # Ok::<(), Refused>(())
/// ```
#[derive(Clone, Debug, PartialEq, Eq, Hash)]
pub struct Records {
    bytes: Vec<u8>,
    fields: Vec<FieldRow>,
}

/// A record: the five fields that the header record names.
#[derive(Clone, Copy, Debug, PartialEq, Eq, Hash)]
pub struct Record<'a> {
    /// The control's number in decimal; empty for a property of the object's own.
    pub control: &'a [u8],
    /// The control's type code in hex; empty for a property of the object's own.
    pub type_code: &'a [u8],
    /// The property's name, or its id in hex.
    pub property: &'a [u8],
    /// The word for the kind of value.
    pub word: &'a [u8],
    /// The value.
    pub value: &'a [u8],
}

impl Records {
    /// Reads a text by RFC 4180, whose data may be any byte but comma, quote, CR and LF. Every record has five fields; the last CR LF is optional.
    ///
    /// Refused are [`NotASheet`](Refused::NotASheet), and [`NoRoomForSheet`](Refused::NoRoomForSheet) for 2^32 bytes or fields and more.
    pub fn read(text: &[u8]) -> Result<Records, Refused> {
        let mut bytes = vec![0; text.len()];
        let ends = text.iter().filter(|byte| matches!(byte, b',' | b'\r')).count(); // a field ends there, or with the text
        let mut fields = vec![[0; 2]; ends + 1];
        let (length, many) = lent::read_csv(text, &mut fields, &mut bytes)?;
        bytes.truncate(length);
        fields.truncate(many);
        Ok(Records { bytes, fields })
    }

    /// How many records there are: one at least.
    #[allow(clippy::len_without_is_empty)]
    pub fn len(&self) -> usize {
        self.fields.len() / RECORD_FIELDS
    }

    /// The record of this number, the first being 0.
    pub fn get(&self, number: usize) -> Option<Record<'_>> {
        self.fields.chunks_exact(RECORD_FIELDS).nth(number).map(|row| self.record(row))
    }

    /// The records in their order.
    pub fn iter(&self) -> impl ExactSizeIterator<Item = Record<'_>> + DoubleEndedIterator + '_ {
        self.fields.chunks_exact(RECORD_FIELDS).map(|row| self.record(row))
    }

    fn record(&self, row: &[FieldRow]) -> Record<'_> {
        let field = |[start, length]: FieldRow| &self.bytes[start as usize..][..length as usize];
        Record { control: field(row[0]), type_code: field(row[1]), property: field(row[2]), word: field(row[3]), value: field(row[4]) }
    }
}
