//! jetdb asked for its answers, through its own functions.

use crate::form::{self, BlobProperty, ControlInfo, ControlProperties};
use crate::plain::codes::{Codes, Row, Scope};
use crate::storage::{AccessStorage, StorageEntry};
use crate::{file::FileError, form2000};

/// What jetdb makes of a Blob: the object's properties and the controls.
pub struct Blob {
    pub own: Vec<BlobProperty>,
    pub controls: Vec<ControlProperties>,
}

/// The Blob as `read_form_properties_in` reads it, which chooses the layout; `None` where form2000.rs reads nothing.
pub fn blob(stream: &[u8]) -> Option<Blob> {
    if is_2000(stream) && form2000::read(stream).is_none() {
        return None;
    }
    let entries = vec![StorageEntry { name: "Blob", data: stream.to_vec() }];
    let storage = AccessStorage { entries, code_page: 0, jet3: false };
    let found = form::read_form_properties_in(&storage, "", None).expect("the storage has a Blob");
    Some(Blob { own: found.properties, controls: found.controls })
}

pub fn is_2000(stream: &[u8]) -> bool {
    stream.first() == Some(&form2000::VERSION)
}

/// TypeInfo's entries, or document 01's number for the reason that jetdb gives.
pub fn type_info(stream: &[u8]) -> Result<Vec<ControlInfo>, u32> {
    form::type_info_of(stream).map_err(|error| match error {
        FileError::InvalidFormData { reason: "TypeInfo too short for header" } => 1,
        FileError::InvalidFormData { reason: "TypeInfo magic mismatch" } => 2,
        FileError::InvalidFormData { reason: "TypeInfo entry count exceeds data size" } => 3,
        other => unreachable!("{other:?}"),
    })
}

/// The bytes of a TypeInfo name, from its Latin-1 text.
pub fn name_bytes(name: &str) -> Vec<u8> {
    name.chars().map(|c| u8::try_from(c as u32).expect("Latin-1")).collect()
}

/// The code table that jetdb's constants make.
pub fn codes() -> Codes {
    let scope = |(kind, code, rows): form2000::ScopeRows| Scope {
        kind,
        code,
        rows: rows.into_iter().map(|(id, target, kind)| Row { id, target, kind }).collect(),
    };
    Codes { layout: form2000::VERSION, header: form2000::header_codes(), scopes: form2000::scopes().into_iter().map(scope).collect() }
}
