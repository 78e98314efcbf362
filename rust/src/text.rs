//! Text of the stream, GUIDs, and names by id.

use crate::format::{answer, GUID_BYTES, GUID_TEXT, NAME_ROOM};
use crate::{archive, lent};
use std::fmt::{self, Debug, Display, Formatter};
use std::ops::Deref;

/// Text in the stream: well-formed UTF-16LE.
///
/// ```
/// let text = oskuramos::Text::new(b"a\0b\0").unwrap();
/// assert_eq!(text, "ab");
/// assert_eq!(text.to_string(), "ab");
/// assert!(oskuramos::Text::new(b"a\0b").is_none());
/// ```
#[derive(Clone, Copy, PartialEq, Eq, Hash)]
pub struct Text<'a>(&'a [u8]);

impl<'a> Text<'a> {
    /// Bytes as text; nothing where they aren't UTF-16LE.
    pub fn new(bytes: &'a [u8]) -> Option<Text<'a>> {
        is_utf16(bytes).then_some(Text(bytes))
    }

    /// Its bytes as they stand in the stream.
    pub fn as_bytes(self) -> &'a [u8] {
        self.0
    }

    /// Its characters.
    pub fn chars(self) -> impl Iterator<Item = char> + 'a {
        decoded(self.0)
    }

    /// Whether it has no character.
    pub fn is_empty(self) -> bool {
        self.0.is_empty()
    }
}

impl Display for Text<'_> {
    fn fmt(&self, f: &mut Formatter) -> fmt::Result {
        f.pad(&String::from_iter(self.chars()))
    }
}

impl Debug for Text<'_> {
    fn fmt(&self, f: &mut Formatter) -> fmt::Result {
        Debug::fmt(&String::from_iter(self.chars()), f)
    }
}

impl PartialEq<str> for Text<'_> {
    fn eq(&self, other: &str) -> bool {
        self.chars().eq(other.chars())
    }
}

impl PartialEq<&str> for Text<'_> {
    fn eq(&self, other: &&str) -> bool {
        *self == **other
    }
}

/// Bytes that were stored as text and aren't UTF-16: an odd number of them, or a surrogate without its pair.
///
/// Compare them byte for byte. What [`Display`] shows, with U+FFFD for what can't be decoded, may be the same for two that differ.
#[derive(Clone, Copy, PartialEq, Eq, Hash)]
pub struct Loose<'a>(pub &'a [u8]);

impl Display for Loose<'_> {
    fn fmt(&self, f: &mut Formatter) -> fmt::Result {
        f.pad(&String::from_iter(decoded(self.0)))
    }
}

impl Debug for Loose<'_> {
    fn fmt(&self, f: &mut Formatter) -> fmt::Result {
        write!(f, "Loose({:02X?})", self.0)
    }
}

/// Characters of UTF-16LE. An odd last byte stands for a first surrogate, which has no pair at the end.
fn decoded(bytes: &[u8]) -> impl Iterator<Item = char> + '_ {
    let units = bytes.chunks(2).map(|pair| match *pair {
        [low, high] => u16::from_le_bytes([low, high]),
        _ => 0xD800,
    });
    char::decode_utf16(units).map(|c| c.unwrap_or(char::REPLACEMENT_CHARACTER))
}

/// Whether bytes are well-formed UTF-16LE: an even number, surrogates in pairs.
pub fn is_utf16(bytes: &[u8]) -> bool {
    archive::is_utf16(bytes)
}

/// A GUID's bytes as stored. Its text has the first three groups turned round:
///
/// ```
/// let guid = oskuramos::Guid([0, 1, 2, 3, 4, 5, 6, 7, 8, 9, 10, 11, 12, 13, 14, 15]);
/// assert_eq!(guid.to_string(), "{03020100-0504-0706-0809-0A0B0C0D0E0F}");
/// ```
#[derive(Clone, Copy, Debug, PartialEq, Eq, Hash)]
pub struct Guid(pub [u8; GUID_BYTES]);

impl Display for Guid {
    fn fmt(&self, f: &mut Formatter) -> fmt::Result {
        let mut out = [0; GUID_TEXT];
        lent::guid_text(&self.0, &mut out).map_err(|_| fmt::Error)?;
        f.pad(ascii(&out))
    }
}

/// A property's or a control type's name, which derefs to `str`.
///
/// ```
/// let name = oskuramos::number_name(0x36).unwrap();
/// assert_eq!(&*name, "Left");
/// assert_eq!(format!("{name:>6}"), "  Left");
/// ```
#[derive(Clone, PartialEq, Eq, Hash)]
pub struct Name(Bytes);

/// Only a name that doesn't fit into the room is allocated.
#[derive(Clone, PartialEq, Eq, Hash)]
enum Bytes {
    Short([u8; NAME_ROOM], usize),
    Long(Vec<u8>),
}

impl Name {
    /// What a look-up writes into room enough; nothing where no name has the id.
    pub(crate) fn written(look_up: impl Fn(&mut [u8]) -> archive::Answer) -> Option<Name> {
        let mut bytes = [0; NAME_ROOM];
        let answer = look_up(&mut bytes);
        if answer.number == answer::READ {
            return (answer.first > 0).then_some(Name(Bytes::Short(bytes, answer.first as usize)));
        }
        let mut bytes = vec![0; 2 * NAME_ROOM];
        loop {
            let answer = look_up(&mut bytes);
            if answer.number == answer::READ {
                bytes.truncate(answer.first as usize);
                return Some(Name(Bytes::Long(bytes)));
            }
            bytes.resize(2 * bytes.len(), 0);
        }
    }

    /// The name.
    pub fn as_str(&self) -> &str {
        match &self.0 {
            Bytes::Short(bytes, length) => ascii(&bytes[..*length]),
            Bytes::Long(bytes) => ascii(bytes),
        }
    }
}

impl Deref for Name {
    type Target = str;

    fn deref(&self) -> &str {
        self.as_str()
    }
}

impl Display for Name {
    fn fmt(&self, f: &mut Formatter) -> fmt::Result {
        f.pad(self)
    }
}

impl Debug for Name {
    fn fmt(&self, f: &mut Formatter) -> fmt::Result {
        Debug::fmt(self.as_str(), f)
    }
}

impl PartialEq<str> for Name {
    fn eq(&self, other: &str) -> bool {
        self.as_str() == other
    }
}

impl PartialEq<&str> for Name {
    fn eq(&self, other: &&str) -> bool {
        self.as_str() == *other
    }
}

/// Bytes that the archive wrote as ASCII.
pub(crate) fn ascii(bytes: &[u8]) -> &str {
    std::str::from_utf8(bytes).expect("the archive writes names and labels in ASCII")
}
