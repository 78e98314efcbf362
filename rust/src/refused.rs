//! What a call refuses with, and the counts that it reads.

use crate::archive;
use crate::format::{answer, table, GUID_BYTES, GUID_TEXT, LABEL_LONGEST, LONGEST, TABLE_LONGEST, TYPE_INFO_SHORTEST};
use crate::panel::{of_counts, Panel};
use std::error::Error;
use std::fmt::{self, Display, Formatter};

/// How many rows a Blob has.
#[derive(Clone, Copy, Debug, Default, PartialEq, Eq, Hash)]
pub struct Counts {
    /// Controls.
    pub controls: usize,
    /// All properties: the object's own, then each control's.
    pub properties: usize,
    /// The object's own properties, which stand first.
    pub own: usize,
}

/// Why nothing was read. A refused call has written nothing.
///
/// Its text says what may be done about it:
///
/// ```
/// let refused = oskuramos::TypeInfo::read(b"too short").unwrap_err();
/// assert_eq!(refused, oskuramos::Refused::TooShort);
/// assert_eq!(refused.number(), 1);
/// assert!(refused.to_string().starts_with("TypeInfo has fewer than 32 bytes"));
/// ```
#[derive(Clone, Copy, Debug, PartialEq, Eq, Hash)]
#[non_exhaustive]
pub enum Refused {
    /// 1: TypeInfo under 32 bytes.
    TooShort,
    /// 2: TypeInfo's first four bytes aren't F7 EA CD AC.
    OtherMagic,
    /// 3: TypeInfo's count is above what its length can hold.
    TooManyEntries,
    /// 4: an Access 2000 stream fits no reading.
    NoReading,
    /// 5: a stream over 16,777,216 bytes.
    TooLong,
    /// 6: more control rows are needed than were lent; the counts needed.
    MoreControls(Counts),
    /// 6: more rows of TypeInfo, or of differences, are needed than were lent; how many.
    MoreRows(usize),
    /// 7: more property rows are needed than were lent; the counts needed.
    MoreProperties(Counts),
    /// 8: the code table isn't well formed.
    BadTable,
    /// 9: the buffer for text, a joined code table or a rewritten stream is too short.
    NoRoomForText,
    /// 10: the GUID value isn't 16 bytes.
    NotAGuid,
    /// 11: rows to pair are more than were lent, have a name mark above 2, or name bytes outside their stream.
    BadRows,
    /// 12: a total would pass 4,294,967,295; the totals stay as they were.
    OverCeiling,
    /// 13: what is written or read as comma-separated text doesn't fit the room lent.
    NoRoomForSheet,
    /// 14: text isn't comma-separated text with five fields in every record.
    NotASheet,
    /// 15: the stream's first byte speaks for the other layout than the one that was asked for.
    OtherLayout,
    /// 16: two code tables differ in layout byte or header codes.
    OtherHead,
    /// 17: two code tables have different rows for one scope and id; [`CodeTable::differing`](crate::CodeTable::differing) shows which.
    TwoRows,
    /// 18: two code tables have more than 64 scopes together.
    TooManyScopes,
    /// 19: the newer code table hasn't the older's layout byte and header codes and every row of it.
    NoSuccessor,
    /// The archive answered what that of this version never does: it is of another version than this crate. The number that it gave.
    OtherArchive(u32),
}

impl Refused {
    /// The answer number of the format.
    pub fn number(self) -> u32 {
        match self {
            Refused::TooShort => answer::TOO_SHORT,
            Refused::OtherMagic => answer::OTHER_MAGIC,
            Refused::TooManyEntries => answer::TOO_MANY_ENTRIES,
            Refused::NoReading => answer::NO_READING,
            Refused::TooLong => answer::TOO_LONG,
            Refused::MoreControls(_) | Refused::MoreRows(_) => answer::MORE_CONTROLS,
            Refused::MoreProperties(_) => answer::MORE_PROPERTIES,
            Refused::BadTable => answer::BAD_TABLE,
            Refused::NoRoomForText => answer::NO_ROOM_FOR_TEXT,
            Refused::NotAGuid => answer::NOT_A_GUID,
            Refused::BadRows => answer::BAD_ROWS,
            Refused::NoRoomForSheet => answer::NO_ROOM_FOR_SHEET,
            Refused::NotASheet => answer::NOT_A_SHEET,
            Refused::OverCeiling => answer::OVER_CEILING,
            Refused::OtherLayout => answer::OTHER_LAYOUT,
            Refused::OtherHead => answer::OTHER_HEAD,
            Refused::TwoRows => answer::TWO_ROWS,
            Refused::TooManyScopes => answer::TOO_MANY_SCOPES,
            Refused::NoSuccessor => answer::NO_SUCCESSOR,
            Refused::OtherArchive(number) => number,
        }
    }
}

impl Display for Refused {
    fn fmt(&self, f: &mut Formatter) -> fmt::Result {
        const ANEW: &str = "get it anew from the database";
        match self {
            Refused::TooShort => {
                write!(f, "TypeInfo has fewer than {TYPE_INFO_SHORTEST} bytes: it was cut short, or this is another stream; {ANEW}")
            }
            Refused::OtherMagic => {
                write!(f, "the stream doesn't begin with F7 EA CD AC: it isn't TypeInfo; look for the stream of that name")
            }
            Refused::TooManyEntries => {
                write!(f, "TypeInfo counts more entries than its bytes can hold: it was cut short or damaged; {ANEW}")
            }
            Refused::NoReading => {
                write!(
                    f,
                    "the stream is of the Access 2000 layout and fits no reading: it was cut short or damaged, or isn't a Blob; {ANEW}"
                )
            }
            Refused::TooLong => write!(f, "the stream has more than {LONGEST} bytes: give the stream of one form, not the database"),
            Refused::MoreControls(c) => write!(f, "{} control rows are needed and fewer were lent: lend so many", c.controls),
            Refused::MoreRows(rows) => write!(f, "{rows} rows of TypeInfo are needed and fewer were lent: lend so many"),
            Refused::MoreProperties(c) => write!(f, "{} property rows are needed and fewer were lent: lend so many", c.properties),
            Refused::BadTable => write!(f, "the code table isn't well formed: give another file, or mend it"),
            Refused::NoRoomForText => {
                write!(
                    f,
                    "what is written doesn't fit the buffer: lend {GUID_TEXT} bytes for a GUID, {LABEL_LONGEST} for a label, for code tables \
                     joined the bytes of both, or {TABLE_LONGEST}, and for a stream rewritten its own length"
                )
            }
            Refused::NotAGuid => write!(f, "the value hasn't {GUID_BYTES} bytes: it isn't a GUID"),
            Refused::BadRows => {
                write!(f, "rows to pair don't fit their streams: give each stream with the rows that were read from it, and so many")
            }
            Refused::NoRoomForSheet => {
                write!(
                    f,
                    "comma-separated text doesn't fit the room lent: to read, lend as many bytes as the text has, and a row for each field"
                )
            }
            Refused::NotASheet => {
                write!(
                    f,
                    "the text isn't comma-separated text with five fields in every record: look for a record of more or fewer fields, a quote \
                     inside a field, or lines that end without CR LF"
                )
            }
            Refused::OverCeiling => write!(f, "a total would pass {}: begin new totals with this stream", u32::MAX),
            Refused::OtherLayout => {
                write!(
                    f,
                    "the stream's first byte speaks for the other layout: look up which layout this file has, and read it as that one, or let \
                     Blob::read choose"
                )
            }
            Refused::OtherHead => {
                write!(f, "the code tables differ in layout byte or header codes: they are for different streams; join those of one kind")
            }
            Refused::TwoRows => {
                write!(f, "the code tables have different rows for one scope and id: find out which is right, and mend the other")
            }
            Refused::TooManyScopes => {
                write!(f, "the code tables have more than {} scopes together: no table holds so many", table::MOST_SCOPES)
            }
            Refused::NoSuccessor => {
                write!(f, "the newer code table doesn't hold every row of the older: see which rows were changed or taken back")
            }
            Refused::OtherArchive(_) => write!(f, "the archive isn't of this crate's version, {}: build both from one", crate::VERSION),
        }
    }
}

impl Error for Refused {}

/// A Blob's counts, or its refusal.
pub(crate) fn of_blob(a: archive::Answer) -> Result<Counts, Refused> {
    let counts = Counts { controls: a.first as usize, properties: a.second as usize, own: a.third as usize };
    match a.number {
        answer::MORE_CONTROLS => Err(Refused::MoreControls(counts)),
        answer::MORE_PROPERTIES => Err(Refused::MoreProperties(counts)),
        _ => of_others(a.number, counts),
    }
}

/// The length of a Blob's text, or its refusal.
pub(crate) fn of_blob_text(a: archive::Answer) -> Result<usize, Refused> {
    let length = a.first as usize;
    of_blob(a).map(|_| length)
}

/// The rows of TypeInfo, or its refusal.
pub(crate) fn of_type_info(a: archive::Answer) -> Result<usize, Refused> {
    match a.number {
        answer::MORE_CONTROLS => Err(Refused::MoreRows(a.first as usize)),
        number => of_others(number, a.first as usize),
    }
}

/// How many differences there are, and properties, or why none are listed.
pub(crate) fn of_differences(a: archive::Answer) -> Result<(usize, usize), Refused> {
    match a.number {
        answer::MORE_CONTROLS => Err(Refused::MoreRows(a.first as usize)),
        number => of_others(number, (a.first as usize, a.second as usize)),
    }
}

/// What the rules of panels say, or the Blob's refusal.
pub(crate) fn of_panel(a: archive::Answer) -> Result<Panel, Refused> {
    match a.number {
        answer::READ => of_counts(&a),
        _ => of_blob(a).and(Err(Refused::OtherArchive(answer::READ))),
    }
}

/// Nothing, or why no row was paired.
pub(crate) fn of_paired(a: archive::Answer) -> Result<(), Refused> {
    of_others(a.number, ())
}

/// The bytes that were written, of text, of a code table or of a stream, or the refusal.
pub(crate) fn of_written(a: archive::Answer) -> Result<usize, Refused> {
    of_others(a.number, a.first as usize)
}

/// The bytes and the fields that were read, or the refusal.
pub(crate) fn of_sheet(a: archive::Answer) -> Result<(usize, usize), Refused> {
    of_others(a.number, (a.first as usize, a.second as usize))
}

fn of_others<T>(number: u32, read: T) -> Result<T, Refused> {
    Err(match number {
        answer::READ => return Ok(read),
        answer::TOO_SHORT => Refused::TooShort,
        answer::OTHER_MAGIC => Refused::OtherMagic,
        answer::TOO_MANY_ENTRIES => Refused::TooManyEntries,
        answer::NO_READING => Refused::NoReading,
        answer::TOO_LONG => Refused::TooLong,
        answer::BAD_TABLE => Refused::BadTable,
        answer::NO_ROOM_FOR_TEXT => Refused::NoRoomForText,
        answer::NOT_A_GUID => Refused::NotAGuid,
        answer::BAD_ROWS => Refused::BadRows,
        answer::NO_ROOM_FOR_SHEET => Refused::NoRoomForSheet,
        answer::NOT_A_SHEET => Refused::NotASheet,
        answer::OVER_CEILING => Refused::OverCeiling,
        answer::OTHER_LAYOUT => Refused::OtherLayout,
        answer::OTHER_HEAD => Refused::OtherHead,
        answer::TWO_ROWS => Refused::TwoRows,
        answer::TOO_MANY_SCOPES => Refused::TooManyScopes,
        answer::NO_SUCCESSOR => Refused::NoSuccessor,
        other => Refused::OtherArchive(other),
    })
}
