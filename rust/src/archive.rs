//! The archive's functions, called with slices. All that is `unsafe` in this crate stands here.
//!
//! A slice is handed over as a pointer with its length after it, counted in elements, and is lent for the call alone. No function asks more of its
//! caller: each pointer is to as many elements as its length says, and the borrow checker keeps a slice that is written apart from the others.

/// The answer number and three counts.
#[repr(C)]
pub struct Answer {
    pub number: u32,
    pub first: u32,
    pub second: u32,
    pub third: u32,
}

/// A value's mark and its two words.
#[repr(C)]
pub struct Value {
    pub mark: u32,
    pub low: u32,
    pub high: u32,
}

/// A part of the stream (source 0) or of the label (source 1).
#[repr(C)]
pub struct Part {
    pub source: u32,
    pub start: u32,
    pub length: u32,
}

/// How many rows to lend.
#[repr(C)]
pub struct Rows {
    pub controls: u32,
    pub properties: u32,
}

/// Running totals: by answer number, by type name, unmapped and mapped properties, by mark.
#[repr(C)]
#[derive(Debug, Clone, Copy, PartialEq, Eq, Hash, Default)]
pub struct Totals {
    pub answers: [u32; 6],
    pub types: [u32; 31],
    pub unmapped: u32,
    pub mapped: u32,
    pub marks: [u32; 9],
}

#[rustfmt::skip]
extern "C" {
    fn oskuramos_read_blob(
        table: *const u8, table_length: usize, stream: *const u8, stream_length: usize,
        controls: *mut u32, controls_length: usize, properties: *mut u32, properties_length: usize,
    ) -> Answer;
    fn oskuramos_read_2000(
        table: *const u8, table_length: usize, stream: *const u8, stream_length: usize,
        controls: *mut u32, controls_length: usize, properties: *mut u32, properties_length: usize,
    ) -> Answer;
    fn oskuramos_read_later(
        layout: u32, stream: *const u8, stream_length: usize,
        controls: *mut u32, controls_length: usize, properties: *mut u32, properties_length: usize,
    ) -> Answer;
    fn oskuramos_read_type_info(stream: *const u8, stream_length: usize, rows: *mut u32, rows_length: usize) -> Answer;
    fn oskuramos_pair(
        stream: *const u8, stream_length: usize, controls: *mut u32, controls_length: usize, control_count: u32,
        info_stream: *const u8, info_stream_length: usize, infos: *const u32, infos_length: usize, info_count: u32,
    ) -> Answer;
    fn oskuramos_read_csv(
        text: *const u8, text_length: usize, fields: *mut u32, fields_length: usize, out: *mut u8, out_length: usize,
    ) -> Answer;
    fn oskuramos_check_panel(
        table: *const u8, table_length: usize, stream: *const u8, stream_length: usize,
        controls: *mut u32, controls_length: usize, properties: *mut u32, properties_length: usize,
    ) -> Answer;
    fn oskuramos_count_blob(
        totals: *mut Totals, table: *const u8, table_length: usize, stream: *const u8, stream_length: usize,
        control_room: u32, property_room: u32,
    ) -> Answer;
    fn oskuramos_well_formed(table: *const u8, table_length: usize) -> bool;
    fn oskuramos_join(
        one: *const u8, one_length: usize, other: *const u8, other_length: usize, out: *mut u8, out_length: usize,
    ) -> Answer;
    fn oskuramos_differences(
        older: *const u8, older_length: usize, newer: *const u8, newer_length: usize, stream: *const u8, stream_length: usize,
        rows: *mut u32, rows_length: usize,
    ) -> Answer;
    fn oskuramos_write_csv(
        table: *const u8, table_length: usize, stream: *const u8, stream_length: usize,
        controls: *mut u32, controls_length: usize, properties: *mut u32, properties_length: usize, out: *mut u8, out_length: usize,
    ) -> Answer;
    fn oskuramos_rewrite(stream: *const u8, stream_length: usize, out: *mut u8, out_length: usize) -> Answer;
    fn oskuramos_room(length: usize) -> Rows;
    fn oskuramos_room_2000(length: usize) -> Rows;
    fn oskuramos_room_later(length: usize) -> Rows;
    fn oskuramos_type_info_room(length: usize) -> u32;
    fn oskuramos_control_name(
        stream: *const u8, stream_length: usize, label: *const u8, label_length: usize, mark: u32, start: u32, length: u32,
    ) -> Part;
    fn oskuramos_guid_text(guid: *const u8, guid_length: usize, out: *mut u8, out_length: usize) -> Answer;
    fn oskuramos_label_text(n: u32, out: *mut u8, out_length: usize) -> Answer;
    fn oskuramos_is_utf16(bytes: *const u8, bytes_length: usize) -> bool;
    fn oskuramos_text_name(id: u16, out: *mut u8, out_length: usize) -> Answer;
    fn oskuramos_number_name(id: u16, out: *mut u8, out_length: usize) -> Answer;
    fn oskuramos_bytes_name(id: u16, out: *mut u8, out_length: usize) -> Answer;
    fn oskuramos_control_type_name(id: u16, out: *mut u8, out_length: usize) -> Answer;
    fn oskuramos_value_name(mark: u32, id: u16, out: *mut u8, out_length: usize) -> Answer;
    fn oskuramos_entry_value(type_code: u32, bytes: *const u8, bytes_length: usize) -> Value;
    fn oskuramos_stored_value(id: u8, bytes: *const u8, bytes_length: usize) -> Value;
    fn oskuramos_value_as(kind: u8, id: u8, bytes: *const u8, bytes_length: usize) -> Value;
}

// SAFETY of every call below: as said above.

pub fn read_blob(table: &[u8], stream: &[u8], controls: &mut [u32], properties: &mut [u32]) -> Answer {
    let (c, p) = ((controls.as_mut_ptr(), controls.len()), (properties.as_mut_ptr(), properties.len()));
    unsafe { oskuramos_read_blob(table.as_ptr(), table.len(), stream.as_ptr(), stream.len(), c.0, c.1, p.0, p.1) }
}

pub fn read_2000(table: &[u8], stream: &[u8], controls: &mut [u32], properties: &mut [u32]) -> Answer {
    let (c, p) = ((controls.as_mut_ptr(), controls.len()), (properties.as_mut_ptr(), properties.len()));
    unsafe { oskuramos_read_2000(table.as_ptr(), table.len(), stream.as_ptr(), stream.len(), c.0, c.1, p.0, p.1) }
}

pub fn read_later(layout: u32, stream: &[u8], controls: &mut [u32], properties: &mut [u32]) -> Answer {
    let (c, p) = ((controls.as_mut_ptr(), controls.len()), (properties.as_mut_ptr(), properties.len()));
    unsafe { oskuramos_read_later(layout, stream.as_ptr(), stream.len(), c.0, c.1, p.0, p.1) }
}

pub fn read_type_info(stream: &[u8], rows: &mut [u32]) -> Answer {
    unsafe { oskuramos_read_type_info(stream.as_ptr(), stream.len(), rows.as_mut_ptr(), rows.len()) }
}

pub fn pair(stream: &[u8], controls: &mut [u32], control_count: u32, info_stream: &[u8], infos: &[u32], info_count: u32) -> Answer {
    let (s, t) = ((stream.as_ptr(), stream.len()), (info_stream.as_ptr(), info_stream.len()));
    let (c, i) = ((controls.as_mut_ptr(), controls.len()), (infos.as_ptr(), infos.len()));
    unsafe { oskuramos_pair(s.0, s.1, c.0, c.1, control_count, t.0, t.1, i.0, i.1, info_count) }
}

pub fn read_csv(text: &[u8], fields: &mut [u32], out: &mut [u8]) -> Answer {
    unsafe { oskuramos_read_csv(text.as_ptr(), text.len(), fields.as_mut_ptr(), fields.len(), out.as_mut_ptr(), out.len()) }
}
pub fn check_panel(table: &[u8], stream: &[u8], controls: &mut [u32], properties: &mut [u32]) -> Answer {
    let (c, p) = ((controls.as_mut_ptr(), controls.len()), (properties.as_mut_ptr(), properties.len()));
    unsafe { oskuramos_check_panel(table.as_ptr(), table.len(), stream.as_ptr(), stream.len(), c.0, c.1, p.0, p.1) }
}
pub fn count_blob(totals: &mut Totals, table: &[u8], stream: &[u8], control_room: u32, property_room: u32) -> Answer {
    let (t, s) = ((table.as_ptr(), table.len()), (stream.as_ptr(), stream.len()));
    unsafe { oskuramos_count_blob(totals, t.0, t.1, s.0, s.1, control_room, property_room) }
}

pub fn well_formed(table: &[u8]) -> bool {
    unsafe { oskuramos_well_formed(table.as_ptr(), table.len()) }
}

pub fn join(one: &[u8], other: &[u8], out: &mut [u8]) -> Answer {
    unsafe { oskuramos_join(one.as_ptr(), one.len(), other.as_ptr(), other.len(), out.as_mut_ptr(), out.len()) }
}

pub fn differences(older: &[u8], newer: &[u8], stream: &[u8], rows: &mut [u32]) -> Answer {
    let (o, n, s) = ((older.as_ptr(), older.len()), (newer.as_ptr(), newer.len()), (stream.as_ptr(), stream.len()));
    unsafe { oskuramos_differences(o.0, o.1, n.0, n.1, s.0, s.1, rows.as_mut_ptr(), rows.len()) }
}

pub fn write_csv(table: &[u8], stream: &[u8], controls: &mut [u32], properties: &mut [u32], out: &mut [u8]) -> Answer {
    let (t, s) = ((table.as_ptr(), table.len()), (stream.as_ptr(), stream.len()));
    let (c, p) = ((controls.as_mut_ptr(), controls.len()), (properties.as_mut_ptr(), properties.len()));
    unsafe { oskuramos_write_csv(t.0, t.1, s.0, s.1, c.0, c.1, p.0, p.1, out.as_mut_ptr(), out.len()) }
}

pub fn rewrite(stream: &[u8], out: &mut [u8]) -> Answer {
    unsafe { oskuramos_rewrite(stream.as_ptr(), stream.len(), out.as_mut_ptr(), out.len()) }
}

pub fn room(length: usize) -> Rows {
    unsafe { oskuramos_room(length) }
}

pub fn room_2000(length: usize) -> Rows {
    unsafe { oskuramos_room_2000(length) }
}

pub fn room_later(length: usize) -> Rows {
    unsafe { oskuramos_room_later(length) }
}

pub fn type_info_room(length: usize) -> u32 {
    unsafe { oskuramos_type_info_room(length) }
}

pub fn control_name(stream: &[u8], label: &[u8], mark: u32, start: u32, length: u32) -> Part {
    unsafe { oskuramos_control_name(stream.as_ptr(), stream.len(), label.as_ptr(), label.len(), mark, start, length) }
}

pub fn guid_text(guid: &[u8], out: &mut [u8]) -> Answer {
    unsafe { oskuramos_guid_text(guid.as_ptr(), guid.len(), out.as_mut_ptr(), out.len()) }
}

pub fn label_text(n: u32, out: &mut [u8]) -> Answer {
    unsafe { oskuramos_label_text(n, out.as_mut_ptr(), out.len()) }
}

pub fn is_utf16(bytes: &[u8]) -> bool {
    unsafe { oskuramos_is_utf16(bytes.as_ptr(), bytes.len()) }
}

pub fn text_name(id: u16, out: &mut [u8]) -> Answer {
    unsafe { oskuramos_text_name(id, out.as_mut_ptr(), out.len()) }
}

pub fn number_name(id: u16, out: &mut [u8]) -> Answer {
    unsafe { oskuramos_number_name(id, out.as_mut_ptr(), out.len()) }
}

pub fn bytes_name(id: u16, out: &mut [u8]) -> Answer {
    unsafe { oskuramos_bytes_name(id, out.as_mut_ptr(), out.len()) }
}

pub fn control_type_name(id: u16, out: &mut [u8]) -> Answer {
    unsafe { oskuramos_control_type_name(id, out.as_mut_ptr(), out.len()) }
}

pub fn value_name(mark: u32, id: u16, out: &mut [u8]) -> Answer {
    unsafe { oskuramos_value_name(mark, id, out.as_mut_ptr(), out.len()) }
}

pub fn entry_value(type_code: u32, bytes: &[u8]) -> Value {
    unsafe { oskuramos_entry_value(type_code, bytes.as_ptr(), bytes.len()) }
}

pub fn stored_value(id: u8, bytes: &[u8]) -> Value {
    unsafe { oskuramos_stored_value(id, bytes.as_ptr(), bytes.len()) }
}

pub fn value_as(kind: u8, id: u8, bytes: &[u8]) -> Value {
    unsafe { oskuramos_value_as(kind, id, bytes.as_ptr(), bytes.len()) }
}
