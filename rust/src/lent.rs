//! The archive's own calls: what is read goes into what the caller lends, and nothing is allocated.
//!
//! [`Blob`](crate::Blob) and [`TypeInfo`](crate::TypeInfo) do the same with room of their own, and take the rows apart.
//! What the words of a row are stands in `oskuramos.h`.

use crate::archive;
use crate::format::OF_STREAM;
pub use crate::format::{
    CONTROL_WORDS, DIFFERENCE_WORDS, FIELD_WORDS, GUID_TEXT, LABEL_LONGEST, LONGEST, NAME_ROOM, NO_CONTROL, NO_PARENT, NO_TYPE,
    PROPERTY_WORDS, RECORD_FIELDS, STACK, TABLE_LONGEST, TYPE_INFO_WORDS,
};
use crate::panel::Panel;
use crate::refused::{of_blob, of_blob_text, of_differences, of_paired, of_panel, of_sheet, of_type_info, of_written, Counts, Refused};

/// Type code, name mark, name start, name length, first property row, property count, level, and the parent's row, [`NO_PARENT`] at level 0.
pub type ControlRow = [u32; CONTROL_WORDS];
/// Id, value mark, low, high, start of the value's bytes in the stream, their length.
pub type PropertyRow = [u32; PROPERTY_WORDS];
/// Type code, index, name start, name length, and 1 where the stream's end cut the name.
pub type TypeInfoRow = [u32; TYPE_INFO_WORDS];

/// Property row, control row ([`NO_CONTROL`] for the object's own), raw code, scope kind, scope code, older id, newer id, newer mark, start, length.
pub type DifferenceRow = [u32; DIFFERENCE_WORDS];

/// Where a field's bytes start, and how many they are.
pub type FieldRow = [u32; FIELD_WORDS];

/// Reads a Blob by a code table. Rows after those that are written keep their words.
///
/// To learn how many rows there are, lend none:
///
/// ```
/// use oskuramos::{lent, Refused, ACCESS_2000_CODES};
///
/// let stream = std::fs::read("examples/form-2000.blob")?;
/// let needed = match lent::read_blob(ACCESS_2000_CODES, &stream, &mut [], &mut []) {
///     Ok(counts) | Err(Refused::MoreControls(counts) | Refused::MoreProperties(counts)) => counts,
///     Err(refused) => return Err(refused.into()),
/// };
/// assert_eq!((needed.controls, needed.properties, needed.own), (9, 43, 9));
/// # Ok::<(), Box<dyn std::error::Error>>(())
/// ```
pub fn read_blob(table: &[u8], stream: &[u8], controls: &mut [ControlRow], properties: &mut [PropertyRow]) -> Result<Counts, Refused> {
    of_blob(archive::read_blob(table, stream, controls.as_flattened_mut(), properties.as_flattened_mut()))
}

/// Reads a Blob that is known to be of Access 2000. One whose first byte isn't the code table's is refused with [`Refused::OtherLayout`].
pub fn read_2000(table: &[u8], stream: &[u8], controls: &mut [ControlRow], properties: &mut [PropertyRow]) -> Result<Counts, Refused> {
    of_blob(archive::read_2000(table, stream, controls.as_flattened_mut(), properties.as_flattened_mut()))
}

/// Reads a Blob that is known to be of the later layout. One whose first byte is the layout byte of Access 2000, that of a code table being its first
/// byte, is refused with [`Refused::OtherLayout`]. No first byte is above 255.
pub fn read_later(layout: u32, stream: &[u8], controls: &mut [ControlRow], properties: &mut [PropertyRow]) -> Result<Counts, Refused> {
    of_blob(archive::read_later(layout, stream, controls.as_flattened_mut(), properties.as_flattened_mut()))
}

/// Reads a Blob as [`read_blob`] does, and judges it by the rules of panels. The rows stay written.
pub fn check_panel(table: &[u8], stream: &[u8], controls: &mut [ControlRow], properties: &mut [PropertyRow]) -> Result<Panel, Refused> {
    of_panel(archive::check_panel(table, stream, controls.as_flattened_mut(), properties.as_flattened_mut()))
}

/// Reads TypeInfo, and says how many rows it has. Rows after them keep their words.
pub fn read_type_info(stream: &[u8], rows: &mut [TypeInfoRow]) -> Result<usize, Refused> {
    of_type_info(archive::read_type_info(stream, rows.as_flattened_mut()))
}

/// Sets the type of each control row to that of the first TypeInfo row with the same name; without one it stays, and so do all other words. The streams
/// are those that the rows were read from. A control whose type is [`NO_TYPE`] beforehand keeps it where it finds no row.
pub fn pair(stream: &[u8], controls: &mut [ControlRow], info_stream: &[u8], infos: &[TypeInfoRow]) -> Result<(), Refused> {
    let (n, m) = (count(controls.len())?, count(infos.len())?);
    of_paired(archive::pair(stream, controls.as_flattened_mut(), n, info_stream, infos.as_flattened(), m))
}

/// Reads comma-separated text, [`RECORD_FIELDS`] fields in every record: the fields' bytes, quotes undone, end to end, with a row for each. Returns how many
/// bytes and fields there are. Bytes and rows after them stay. As many bytes as the text has are enough, and a row more than that.
pub fn read_csv(text: &[u8], fields: &mut [FieldRow], out: &mut [u8]) -> Result<(usize, usize), Refused> {
    of_sheet(archive::read_csv(text, fields.as_flattened_mut(), out))
}

/// A number of rows or a place, which has 32 bits.
pub(crate) fn count(number: usize) -> Result<u32, Refused> {
    number.try_into().map_err(|_| Refused::BadRows)
}

/// How many rows are enough for TypeInfo of at most so many bytes. For a Blob it is a [`Room`](crate::Room).
pub fn type_info_room(length: usize) -> usize {
    archive::type_info_room(length) as usize
}

/// The bytes of a control's name by the mark, start and length of its row: a part of the stream, or of the label for a numbered one.
/// A part that isn't there is empty.
pub fn control_name<'a>(stream: &'a [u8], label: &'a [u8], mark: u32, start: u32, length: u32) -> &'a [u8] {
    let part = archive::control_name(stream, label, mark, start, length);
    let source = if part.source == OF_STREAM { stream } else { label };
    &source[part.start as usize..][..part.length as usize]
}

/// Writes a GUID's 16 bytes as text of [`GUID_TEXT`] bytes, and says how many.
pub fn guid_text(guid: &[u8], out: &mut [u8]) -> Result<usize, Refused> {
    of_written(archive::guid_text(guid, out))
}

/// Writes `Control_` and a number, [`LABEL_LONGEST`] bytes at most, and says how many.
pub fn label_text(n: u32, out: &mut [u8]) -> Result<usize, Refused> {
    of_written(archive::label_text(n, out))
}

/// Writes the code table that holds every scope and row of either, and says how many bytes it has: [`TABLE_LONGEST`] at most, and no more than both.
/// Bytes after it keep their values. [`CodeTable::join`](crate::CodeTable::join) does the same with room of its own.
pub fn join(one: &[u8], other: &[u8], out: &mut [u8]) -> Result<usize, Refused> {
    of_written(archive::join(one, other, out))
}

/// Lists the properties whose rows under the newer code table differ from those under the older. Returns how many they are, and how many properties the Blob
/// has. Rows after them keep their words. [`differences`](crate::differences()) does the same with room of its own.
pub fn differences(older: &[u8], newer: &[u8], stream: &[u8], rows: &mut [DifferenceRow]) -> Result<(usize, usize), Refused> {
    of_differences(archive::differences(older, newer, stream, rows.as_flattened_mut()))
}

/// Reads a Blob by a code table into rows, and writes its properties as comma-separated text; says how many bytes that has. A refusal, also
/// [`Refused::NoRoomForSheet`] where the text doesn't fit, writes no row and no byte. What stands after rows and text keeps its values.
/// Room of 34 bytes, 94 for each property row lent and twice the stream's length holds every text, and is fastest: the text isn't measured first.
/// [`write_csv`](crate::write_csv()) does the same with room of its own.
pub fn write_csv(
    table: &[u8],
    stream: &[u8],
    controls: &mut [ControlRow],
    properties: &mut [PropertyRow],
    out: &mut [u8],
) -> Result<usize, Refused> {
    of_blob_text(archive::write_csv(table, stream, controls.as_flattened_mut(), properties.as_flattened_mut(), out))
}

/// Writes an Access 2000 stream in its shortest spelling, and says how many bytes it has: no more than the stream. Bytes after it keep their values.
/// [`rewrite`](crate::rewrite()) does the same with room of its own.
pub fn rewrite(stream: &[u8], out: &mut [u8]) -> Result<usize, Refused> {
    of_written(archive::rewrite(stream, out))
}
