//! TypeInfo with room of its own.

use crate::format::answer;
use crate::lent::{count, read_type_info, TypeInfoRow};
use crate::Refused;

/// A TypeInfo stream that was read.
///
/// ```
/// use oskuramos::TypeInfo;
///
/// let stream = std::fs::read("examples/form.typeinfo")?;
/// let info = TypeInfo::read(&stream)?;
/// assert_eq!(info.entries[1].ascii_name(), Some("txtVolt"));
/// assert_eq!(info.entries[4].name, b"K\xFCche"); // in the code page of the database
/// # Ok::<(), Box<dyn std::error::Error>>(())
/// ```
#[derive(Clone, Debug, PartialEq, Eq)]
#[non_exhaustive]
pub struct TypeInfo<'a> {
    /// Its entries that are reported, in the order of the stream.
    pub entries: Vec<TypeInfoEntry<'a>>,
}

impl<'a> TypeInfo<'a> {
    /// Asks how many rows there are, makes room and reads them.
    pub fn read(stream: &'a [u8]) -> Result<TypeInfo<'a>, Refused> {
        let needed = match read_type_info(stream, &mut []) {
            Ok(rows) | Err(Refused::MoreRows(rows)) => rows,
            Err(refused) => return Err(refused),
        };
        let mut rows = vec![Default::default(); needed];
        read_type_info(stream, &mut rows)?;
        let entries = rows.iter().map(|row| TypeInfoEntry::of(row, stream)).collect::<Option<_>>();
        Ok(TypeInfo { entries: entries.ok_or(Refused::OtherArchive(answer::READ))? })
    }
}

/// An entry of TypeInfo.
#[derive(Clone, Copy, Debug, PartialEq, Eq, Hash)]
#[non_exhaustive]
pub struct TypeInfoEntry<'a> {
    /// The control's type.
    pub type_code: u16,
    /// The index that is stored with it.
    pub index: u32,
    /// The name's bytes, in the code page of the database, of which the stream doesn't speak.
    pub name: &'a [u8],
    /// Where it starts in the stream.
    pub start: usize,
    /// Whether the stream's end cut the name off: no NUL stands after it, so it may have been longer. Only the last entry can be cut.
    ///
    /// ```
    /// use oskuramos::TypeInfo;
    ///
    /// let stream = std::fs::read("examples/form.typeinfo")?;
    /// let info = TypeInfo::read(&stream[..stream.len() - 3])?; // a copy that lost its tail
    /// let last = info.entries.last().ok_or("no entry")?;
    /// assert_eq!((last.name, last.cut), (&b"K\xFCch"[..], true));
    /// # Ok::<(), Box<dyn std::error::Error>>(())
    /// ```
    pub cut: bool,
}

impl<'a> TypeInfoEntry<'a> {
    fn of(row: &TypeInfoRow, stream: &'a [u8]) -> Option<TypeInfoEntry<'a>> {
        let [type_code, index, start, length, cut] = *row;
        let name = stream.get(start as usize..)?.get(..length as usize)?;
        Some(TypeInfoEntry { type_code: type_code.try_into().ok()?, index, name, start: start as usize, cut: cut != 0 })
    }

    /// A row of this entry; its name's bytes are put at the end of those of other names.
    pub(crate) fn row(&self, names: &mut Vec<u8>) -> Result<TypeInfoRow, Refused> {
        let (start, length) = (count(names.len())?, count(self.name.len())?);
        names.extend_from_slice(self.name);
        Ok([self.type_code.into(), self.index, start, length, self.cut.into()])
    }

    /// The name where it is wholly ASCII, which every code page has alike.
    pub fn ascii_name(&self) -> Option<&'a str> {
        std::str::from_utf8(self.name).ok().filter(|name| name.is_ascii())
    }
}
