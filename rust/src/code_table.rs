//! Code tables, and the joining of two.

use crate::format::{scope, table};
use crate::value::Kind;
use crate::{lent, well_formed, Refused, ACCESS_2000_CODES};
use std::fmt::{self, Display, Formatter};

/// A code table that is well formed: it says what the codes of an Access 2000 Blob mean.
///
/// ```
/// use oskuramos::{Blob, CodeRow, CodeTable, Kind, Scope};
///
/// let table = CodeTable::access_2000();
/// let stream = std::fs::read("examples/form-2000.blob")?;
/// assert_eq!(Blob::read(table.as_bytes(), &stream)?.controls.len(), 9);
///
/// let forms = table.scopes().find(|scope| scope.scope == Scope::Form).unwrap();
/// assert_eq!(forms.row(0xDC), Some(CodeRow { id: 0xDC, target: 0x9C, kind: Kind::Text })); // RecordSource
/// # Ok::<(), Box<dyn std::error::Error>>(())
/// ```
#[derive(Clone, PartialEq, Eq, Hash)]
pub struct CodeTable {
    bytes: Vec<u8>,
}

impl CodeTable {
    /// The table in these bytes. Whatever isn't well formed is refused as [`BadTable`](Refused::BadTable).
    ///
    /// ```
    /// use oskuramos::{CodeTable, Refused};
    ///
    /// let table = CodeTable::parse(std::fs::read("src/access2000.codes")?)?;
    /// assert_eq!((table.layout_byte(), table.scopes().count(), table.rows().count()), (0x13, 24, 608));
    /// assert_eq!(CodeTable::parse(b"another file"), Err(Refused::BadTable));
    /// # Ok::<(), Box<dyn std::error::Error>>(())
    /// ```
    pub fn parse(bytes: impl Into<Vec<u8>>) -> Result<CodeTable, Refused> {
        let bytes = bytes.into();
        if well_formed(&bytes) {
            Ok(CodeTable { bytes })
        } else {
            Err(Refused::BadTable)
        }
    }

    /// The default table, [`ACCESS_2000_CODES`].
    pub fn access_2000() -> CodeTable {
        CodeTable { bytes: ACCESS_2000_CODES.to_vec() }
    }

    /// Its bytes, as [`Blob::read`](crate::Blob::read) takes them.
    pub fn as_bytes(&self) -> &[u8] {
        &self.bytes
    }

    /// Its bytes, to be kept.
    pub fn into_bytes(self) -> Vec<u8> {
        self.bytes
    }

    /// The first byte of the streams that it is for.
    pub fn layout_byte(&self) -> u8 {
        self.bytes[table::LAYOUT]
    }

    /// The types that are headers and footers, ascending.
    pub fn header_codes(&self) -> impl Iterator<Item = u16> + '_ {
        self.bytes[table::HEADER_CODES..self.contents()].chunks_exact(2).map(|code| u16_at(code, 0))
    }

    /// Its scopes with their rows: the form's, the report's, then those of the entry types, ascending. A scope may have no rows.
    pub fn scopes(&self) -> impl Iterator<Item = CodeScope<'_>> {
        let contents = self.contents();
        let bodies = contents + table::SCOPE_BYTES * usize::from(u16_at(&self.bytes, table::SCOPE_COUNT));
        let mut rest = &self.bytes[bodies..];
        self.bytes[contents..bodies].chunks_exact(table::SCOPE_BYTES).map(move |head| {
            let (rows, behind) = rest.split_at(table::ROW_BYTES * usize::from(u16_at(head, scope::ROW_COUNT)));
            rest = behind;
            CodeScope { scope: Scope::of(head), rows }
        })
    }

    /// All rows, each with its scope.
    ///
    /// ```
    /// let table = oskuramos::CodeTable::access_2000();
    /// let first = table.rows().next().unwrap();
    /// assert_eq!(format!("{} {}", first.0, first.1), "form 14 -> 013A number");
    /// ```
    pub fn rows(&self) -> impl Iterator<Item = (Scope, CodeRow)> + '_ {
        self.scopes().flat_map(|scope| scope.rows().map(move |row| (scope.scope, row)))
    }

    /// The table that holds every scope and row of either: what two offices learned separately. A Blob is read under it as under either, but for
    /// the codes that this one lacked.
    ///
    /// Refused are [`OtherHead`](Refused::OtherHead), [`TwoRows`](Refused::TwoRows) and [`TooManyScopes`](Refused::TooManyScopes), in this order.
    ///
    /// ```
    /// use oskuramos::{CodeTable, Refused};
    ///
    /// // one row each for entries of type 0x64: code DC is property 0014, text; code 60 is property 0036, a number
    /// let north = CodeTable::parse([0x2A, 0, 1, 0, 2, 0x64, 0, 1, 0, 0xDC, 0x14, 0, 1])?;
    /// let south = CodeTable::parse([0x2A, 0, 1, 0, 2, 0x64, 0, 1, 0, 0x60, 0x36, 0, 0])?;
    /// let both = north.join(&south)?;
    /// let rows = both.rows().map(|(scope, row)| format!("{scope} {row}"));
    /// assert_eq!(Vec::from_iter(rows), ["entry 0064 60 -> 0036 number", "entry 0064 DC -> 0014 text"]);
    ///
    /// // another target for code 60
    /// let west = CodeTable::parse([0x2A, 0, 1, 0, 2, 0x64, 0, 1, 0, 0x60, 0x37, 0, 0])?;
    /// assert_eq!(both.join(&west), Err(Refused::TwoRows));
    /// assert_eq!(both.differing(&west).count(), 1);
    /// # Ok::<(), Box<dyn std::error::Error>>(())
    /// ```
    pub fn join(&self, other: &CodeTable) -> Result<CodeTable, Refused> {
        let mut bytes = vec![0; self.bytes.len() + other.bytes.len()];
        let length = lent::join(&self.bytes, &other.bytes, &mut bytes)?;
        bytes.truncate(length);
        bytes.shrink_to_fit();
        Ok(CodeTable { bytes })
    }

    /// Where two tables have different rows for one scope and id: this table's row, then the other's. There is none where they can be joined.
    pub fn differing<'a>(&'a self, other: &'a CodeTable) -> impl Iterator<Item = (Scope, CodeRow, CodeRow)> + 'a {
        self.rows().filter_map(|(scope, mine)| {
            let theirs = other.scopes().find(|s| s.scope == scope)?.row(mine.id)?;
            (mine != theirs).then_some((scope, mine, theirs))
        })
    }

    /// Where the contents start.
    fn contents(&self) -> usize {
        table::HEADER_CODES + 2 * usize::from(self.bytes[table::HEADER_COUNT])
    }
}

impl AsRef<[u8]> for CodeTable {
    fn as_ref(&self) -> &[u8] {
        &self.bytes
    }
}

impl TryFrom<Vec<u8>> for CodeTable {
    type Error = Refused;

    fn try_from(bytes: Vec<u8>) -> Result<CodeTable, Refused> {
        CodeTable::parse(bytes)
    }
}

impl TryFrom<&[u8]> for CodeTable {
    type Error = Refused;

    fn try_from(bytes: &[u8]) -> Result<CodeTable, Refused> {
        CodeTable::parse(bytes)
    }
}

/// Its head and how much it has; the bytes would be many.
impl fmt::Debug for CodeTable {
    fn fmt(&self, f: &mut Formatter) -> fmt::Result {
        f.debug_struct("CodeTable")
            .field("layout_byte", &self.layout_byte())
            .field("header_codes", &Vec::from_iter(self.header_codes()))
            .field("scopes", &self.scopes().count())
            .field("rows", &self.rows().count())
            .finish()
    }
}

/// What rows of a code table are for.
#[derive(Clone, Copy, Debug, PartialEq, Eq, PartialOrd, Ord, Hash)]
pub enum Scope {
    /// The form's own properties.
    Form,
    /// The report's own properties.
    Report,
    /// The properties of entries with this type.
    Entry(u16),
}

impl Scope {
    fn of(head: &[u8]) -> Scope {
        Scope::new(head[scope::KIND], u16_at(head, scope::CODE))
    }

    pub(crate) fn new(kind: u8, code: u16) -> Scope {
        match kind {
            scope::FORM => Scope::Form,
            scope::REPORT => Scope::Report,
            _ => Scope::Entry(code),
        }
    }
}

impl Display for Scope {
    fn fmt(&self, f: &mut Formatter) -> fmt::Result {
        match self {
            Scope::Form => write!(f, "form"),
            Scope::Report => write!(f, "report"),
            Scope::Entry(code) => write!(f, "entry {code:04X}"),
        }
    }
}

/// A scope of a code table with its rows.
#[derive(Clone, Copy, Debug, PartialEq, Eq, Hash)]
#[non_exhaustive]
pub struct CodeScope<'a> {
    /// What its rows are for.
    pub scope: Scope,
    rows: &'a [u8],
}

impl<'a> CodeScope<'a> {
    /// Its rows, their ids ascending.
    pub fn rows(&self) -> impl Iterator<Item = CodeRow> + 'a {
        self.rows.chunks_exact(table::ROW_BYTES).map(CodeRow::of)
    }

    /// The row of an id, where the table has one.
    pub fn row(&self, id: u8) -> Option<CodeRow> {
        self.rows().find(|row| row.id == id)
    }
}

/// A row of a code table: what it ties a code to.
#[derive(Clone, Copy, Debug, PartialEq, Eq, Hash)]
pub struct CodeRow {
    /// The code, as it stands in the stream.
    pub id: u8,
    /// The property's id.
    pub target: u16,
    /// What the value's bytes are read as.
    pub kind: Kind,
}

impl CodeRow {
    fn of(row: &[u8]) -> CodeRow {
        let kind = Kind::of(row[table::ROW_KIND]).expect("a well-formed table has no other kind");
        CodeRow { id: row[table::ROW_ID], target: u16_at(row, table::ROW_TARGET), kind }
    }
}

impl Display for CodeRow {
    fn fmt(&self, f: &mut Formatter) -> fmt::Result {
        write!(f, "{:02X} -> {:04X} {}", self.id, self.target, self.kind)
    }
}

fn u16_at(bytes: &[u8], at: usize) -> u16 {
    u16::from_le_bytes([bytes[at], bytes[at + 1]])
}
