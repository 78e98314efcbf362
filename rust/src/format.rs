//! The numbers of the format, as `include/oskuramos.h` has them. No other file writes one down.

/// A call takes less stack, in bytes. This is measured, not proved.
pub const STACK: usize = 98_304;
/// Words of a control's row.
pub const CONTROL_WORDS: usize = 8;
/// The parent's word of a control at level 0.
pub const NO_PARENT: u32 = 0xFFFF_FFFF;
/// A type that no row of TypeInfo has: a control that keeps it found none.
pub const NO_TYPE: u32 = 0xFFFF_FFFF;
/// Words of a property's row.
pub const PROPERTY_WORDS: usize = 6;
/// Words of a row of TypeInfo.
pub const TYPE_INFO_WORDS: usize = 5;
/// Words of a row of differences.
pub const DIFFERENCE_WORDS: usize = 10;
/// The control row of a difference among the object's own properties.
pub const NO_CONTROL: u32 = 0xFFFF_FFFF;
/// Shorter TypeInfo is refused.
pub const TYPE_INFO_SHORTEST: usize = 32;
/// A longer stream is refused.
pub const LONGEST: usize = 16_777_216;
/// Bytes of a GUID.
pub const GUID_BYTES: usize = 16;
/// Bytes of a GUID's text.
pub const GUID_TEXT: usize = 38;
/// Bytes of the longest label of a numbered control.
pub const LABEL_LONGEST: usize = 18;
/// Room that is more than enough for every name by id of this version.
pub const NAME_ROOM: usize = 64;
/// Bytes of the longest code table that is well formed.
pub const TABLE_LONGEST: usize = 65_100;
/// What a raw code that the code table lacks is joined with.
pub const UNMAPPED: u16 = 0x8000;

/// Words of the row of a field of comma-separated text.
pub const FIELD_WORDS: usize = 2;

/// Fields of a record of comma-separated text.
pub const RECORD_FIELDS: usize = 5;
/// Running totals: what the places of the answers count, and the first code of the name that each place of the types but the last counts.
pub mod totals {
    pub const ANSWER_NUMBERS: [u32; 6] = [0, 4, 5, 6, 7, 8];
    pub const TYPE_CODES: [u16; 30] = [
        0x0064, 0x0065, 0x0066, 0x0067, 0x0068, 0x0069, 0x006A, 0x006B, 0x006C, 0x006D, 0x006E, 0x006F, 0x0070, 0x0072, 0x0076, //
        0x0077, 0x007A, 0x007B, 0x007C, 0x0098, 0x009B, 0x009C, 0x009D, 0x009E, 0x1899, 0x189A, 0x1999, 0x199A, 0x1B70, 0x247F,
    ];
}

/// Answer numbers.
pub mod answer {
    pub const READ: u32 = 0;
    pub const TOO_SHORT: u32 = 1;
    pub const OTHER_MAGIC: u32 = 2;
    pub const TOO_MANY_ENTRIES: u32 = 3;
    pub const NO_READING: u32 = 4;
    pub const TOO_LONG: u32 = 5;
    pub const MORE_CONTROLS: u32 = 6;
    pub const MORE_PROPERTIES: u32 = 7;
    pub const BAD_TABLE: u32 = 8;
    pub const NO_ROOM_FOR_TEXT: u32 = 9;
    pub const NOT_A_GUID: u32 = 10;
    pub const BAD_ROWS: u32 = 11;
    pub const NO_ROOM_FOR_SHEET: u32 = 13;
    pub const NOT_A_SHEET: u32 = 14;
    pub const OVER_CEILING: u32 = 12;
    pub const OTHER_LAYOUT: u32 = 15;
    pub const OTHER_HEAD: u32 = 16;
    pub const TWO_ROWS: u32 = 17;
    pub const TOO_MANY_SCOPES: u32 = 18;
    pub const NO_SUCCESSOR: u32 = 19;
}

/// Rules of panels.
pub mod panel {
    pub const TYPE_NAME: u32 = 1;
    pub const NAME_MARK: u32 = 2;
    pub const NEW_NAME: u32 = 3;
    pub const SOURCE: u32 = 4;
    pub const PLACE: u32 = 5;
    pub const LEVEL: u32 = 6;
}

/// Where a part of a name is: in the stream, or else in the label.
pub const OF_STREAM: u32 = 0;

/// Marks of a control's name.
pub mod name {
    pub const UTF16: u32 = 0;
    pub const NUMBERED: u32 = 1;
    pub const LOOSE: u32 = 2;
}

/// Marks of a value.
pub mod value {
    pub const BOOL: u32 = 0;
    pub const NOT_DEFAULT: u32 = 1;
    pub const SHORT: u32 = 2;
    pub const LONG: u32 = 3;
    pub const DOUBLE: u32 = 4;
    pub const GUID: u32 = 5;
    pub const TEXT: u32 = 6;
    pub const BINARY: u32 = 7;
    pub const LOOSE_TEXT: u32 = 8;
}

/// Kinds of a code table's rows.
pub mod kind {
    pub const NUMBER: u8 = 0;
    pub const TEXT: u8 = 1;
    pub const GUID: u8 = 2;
    pub const DOUBLE: u8 = 3;
    pub const BYTES: u8 = 4;
}

/// Where what stands in a code table, and in a row of it.
pub mod table {
    pub const LAYOUT: usize = 0;
    pub const HEADER_COUNT: usize = 1;
    pub const SCOPE_COUNT: usize = 2;
    pub const HEADER_CODES: usize = 4;
    pub const SCOPE_BYTES: usize = 5;
    pub const MOST_SCOPES: usize = 64;
    pub const ROW_BYTES: usize = 4;
    pub const ROW_ID: usize = 0;
    pub const ROW_TARGET: usize = 1;
    pub const ROW_KIND: usize = 3;
}

/// Where what stands in a scope of the contents, and its kinds; the third is an entry's.
pub mod scope {
    pub const KIND: usize = 0;
    pub const CODE: usize = 1;
    pub const ROW_COUNT: usize = 3;
    pub const FORM: u8 = 0;
    pub const REPORT: u8 = 1;
}
