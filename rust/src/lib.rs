#![doc = include_str!("../README.md")]
#![deny(unsafe_code)]
#![warn(missing_docs, missing_debug_implementations)]

#[allow(unsafe_code)]
mod archive;
mod blob;
mod code_table;
mod csv;
mod differences;
mod format;
pub mod lent;
mod panel;
mod refused;
mod rewrite;
mod room;
mod text;
mod totals;
mod type_info;
mod value;
mod write_csv;

pub use blob::{Blob, Control, ControlName, Layout, Property};
pub use code_table::{CodeRow, CodeScope, CodeTable, Scope};
pub use csv::{Record, Records};
pub use differences::{differences, Difference};
pub use panel::{Panel, PanelRule};
pub use refused::{Counts, Refused};
pub use rewrite::rewrite;
pub use room::Room;
pub use text::{is_utf16, Guid, Loose, Name, Text};
pub use totals::Totals;
pub use type_info::{TypeInfo, TypeInfoEntry};
pub use value::{entry_value, stored_value, value_as, Kind, Value};
pub use write_csv::write_csv;

/// The version of this crate, which is that of the archive and of `oskuramos.h`.
pub const VERSION: &str = env!("CARGO_PKG_VERSION");

/// The default code table: the codes of Access 2000 that jetdb knows (see NOTICE).
pub static ACCESS_2000_CODES: &[u8] = include_bytes!("access2000.codes");

/// Whether a code table is well formed. One that is can be had as a [`CodeTable`].
///
/// ```
/// assert!(oskuramos::well_formed(oskuramos::ACCESS_2000_CODES));
/// assert!(!oskuramos::well_formed(b"another file"));
/// ```
pub fn well_formed(table: &[u8]) -> bool {
    archive::well_formed(table)
}

/// The name of a text value's id.
pub fn text_name(id: u16) -> Option<Name> {
    Name::written(|out| archive::text_name(id, out))
}

/// The name of a number's id.
pub fn number_name(id: u16) -> Option<Name> {
    Name::written(|out| archive::number_name(id, out))
}

/// The name of the id of a GUID or of binary.
pub fn bytes_name(id: u16) -> Option<Name> {
    Name::written(|out| archive::bytes_name(id, out))
}

/// The name of a control's type.
pub fn control_type_name(type_code: u16) -> Option<Name> {
    Name::written(|out| archive::control_type_name(type_code, out))
}

/// The name of a property, in the table that its value's mark uses.
pub fn value_name(mark: u32, id: u16) -> Option<Name> {
    Name::written(|out| archive::value_name(mark, id, out))
}
