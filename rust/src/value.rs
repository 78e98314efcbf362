//! Values.

use crate::archive;
use crate::format::{kind, value as mark};
use crate::text::{Guid, Loose, Text};
use std::fmt::{self, Display, Formatter};

/// A property's value. Text and bytes are those of the stream.
///
/// Its text is for people: a number in decimal, a GUID in braces, text as it is, bytes in hex. [`word`](Value::word) names the kind.
///
/// ```
/// use oskuramos::{entry_value, Value};
///
/// let width = entry_value(3, &[0x20, 0x1C]);
/// assert_eq!(width, Value::Long(7200));
/// assert_eq!((width.text(), width.integer()), (None, Some(7200)));
/// assert_eq!(format!("{} {width}", width.word()), "long 7200");
/// ```
#[derive(Clone, Copy, Debug, PartialEq)]
pub enum Value<'a> {
    /// Yes or no.
    Bool(bool),
    /// A flag that is set and has no value.
    NotDefault,
    /// A number of 16 bits.
    Short(i16),
    /// A number of 32 bits.
    Long(i32),
    /// A single is widened to a double.
    Double(f64),
    /// A GUID.
    Guid(Guid),
    /// Text.
    Text(Text<'a>),
    /// Text that isn't UTF-16.
    Loose(Loose<'a>),
    /// Anything else.
    Binary(&'a [u8]),
}

impl<'a> Value<'a> {
    /// A value from its words and bytes; nothing where no value of the format has them.
    pub(crate) fn of(words: archive::Value, bytes: &'a [u8]) -> Option<Value<'a>> {
        let (low, high) = (words.low, words.high);
        Some(match words.mark {
            mark::BOOL => Value::Bool(low != 0),
            mark::NOT_DEFAULT => Value::NotDefault,
            mark::SHORT => Value::Short(i16::try_from(low as i32).ok()?),
            mark::LONG => Value::Long(low as i32),
            mark::DOUBLE => Value::Double(f64::from_bits(u64::from(high) << 32 | u64::from(low))),
            mark::GUID => Value::Guid(Guid(bytes.try_into().ok()?)),
            mark::TEXT => Value::Text(Text::new(bytes)?),
            mark::BINARY => Value::Binary(bytes),
            mark::LOOSE_TEXT => Value::Loose(Loose(bytes)),
            _ => return None,
        })
    }

    /// The text, where the value is [`Text`](Value::Text), and nothing for any other.
    pub fn text(self) -> Option<Text<'a>> {
        match self {
            Value::Text(text) => Some(text),
            _ => None,
        }
    }

    /// The number, where the value is a [`Short`](Value::Short) or a [`Long`](Value::Long), and nothing for any other.
    pub fn integer(self) -> Option<i32> {
        match self {
            Value::Short(n) => Some(n.into()),
            Value::Long(n) => Some(n),
            _ => None,
        }
    }

    /// The value's mark, by which [`value_name`](crate::value_name) looks a property's name up.
    pub fn mark(self) -> u32 {
        match self {
            Value::Bool(_) => mark::BOOL,
            Value::NotDefault => mark::NOT_DEFAULT,
            Value::Short(_) => mark::SHORT,
            Value::Long(_) => mark::LONG,
            Value::Double(_) => mark::DOUBLE,
            Value::Guid(_) => mark::GUID,
            Value::Text(_) => mark::TEXT,
            Value::Binary(_) => mark::BINARY,
            Value::Loose(_) => mark::LOOSE_TEXT,
        }
    }

    /// The word that `formlist` has for the kind of value.
    pub fn word(self) -> &'static str {
        match self {
            Value::Bool(_) => "bool",
            Value::NotDefault => "notdefault",
            Value::Short(_) => "short",
            Value::Long(_) => "long",
            Value::Double(_) => "double",
            Value::Guid(_) => "guid",
            Value::Text(_) => "text",
            Value::Loose(_) => "loose",
            Value::Binary(_) => "binary",
        }
    }
}

impl Display for Value<'_> {
    fn fmt(&self, f: &mut Formatter) -> fmt::Result {
        match self {
            Value::Bool(yes) => f.pad(if *yes { "yes" } else { "no" }),
            Value::NotDefault => f.pad("not default"),
            Value::Short(n) => n.fmt(f),
            Value::Long(n) => n.fmt(f),
            Value::Double(d) => d.fmt(f),
            Value::Guid(guid) => guid.fmt(f),
            Value::Text(text) => text.fmt(f),
            Value::Loose(loose) => loose.fmt(f),
            Value::Binary(bytes) => f.pad(&String::from_iter(bytes.iter().map(|b| format!("{b:02X}")))),
        }
    }
}

/// The kind of a code table's row: what bytes after a length are read as, if they can be.
#[derive(Clone, Copy, Debug, PartialEq, Eq, Hash)]
#[repr(u8)]
pub enum Kind {
    /// A number, which its id tells the size of.
    Number = kind::NUMBER,
    /// UTF-16.
    Text = kind::TEXT,
    /// 16 bytes.
    Guid = kind::GUID,
    /// 8 bytes.
    Double = kind::DOUBLE,
    /// Bytes as they are.
    Bytes = kind::BYTES,
}

impl Kind {
    pub(crate) fn of(number: u8) -> Option<Kind> {
        [Kind::Number, Kind::Text, Kind::Guid, Kind::Double, Kind::Bytes].into_iter().find(|kind| *kind as u8 == number)
    }
}

impl Display for Kind {
    fn fmt(&self, f: &mut Formatter) -> fmt::Result {
        f.pad(match self {
            Kind::Number => "number",
            Kind::Text => "text",
            Kind::Guid => "guid",
            Kind::Double => "double",
            Kind::Bytes => "bytes",
        })
    }
}

/// The value of a property's bytes in the later layout, by its type.
pub fn entry_value(type_code: u32, bytes: &[u8]) -> Value<'_> {
    known(archive::entry_value(type_code, bytes), bytes)
}

/// The value of a property's bytes in the Access 2000 layout as it is stored, by its id.
pub fn stored_value(id: u8, bytes: &[u8]) -> Value<'_> {
    known(archive::stored_value(id, bytes), bytes)
}

/// The same by the kind of the code table's row that ties the id.
pub fn value_as(kind: Kind, id: u8, bytes: &[u8]) -> Value<'_> {
    known(archive::value_as(kind as u8, id, bytes), bytes)
}

fn known(words: archive::Value, bytes: &[u8]) -> Value<'_> {
    Value::of(words, bytes).expect("an archive of this crate's version gives no other values")
}
