//! Room by the length.

use crate::archive;

/// Rows that are enough for every stream of at most so many bytes: a Blob that is read into them is never refused for room.
///
/// For a caller without a heap, or one who wants to read in one call:
///
/// ```
/// use oskuramos::{lent, Room, ACCESS_2000_CODES};
///
/// let stream = std::fs::read("examples/form-2000.blob")?;
/// let room = Room::for_length(stream.len());
/// let mut controls = vec![Default::default(); room.controls];
/// let mut properties = vec![Default::default(); room.properties];
/// let counts = lent::read_blob(ACCESS_2000_CODES, &stream, &mut controls, &mut properties)?;
/// assert_eq!((counts.controls, counts.properties), (9, 43));
/// # Ok::<(), Box<dyn std::error::Error>>(())
/// ```
///
/// It takes 32 bytes for each byte of the stream, and in the later layout less than 3. [`Blob::read`](crate::Blob::read) asks for the counts first
/// and takes no more than the rows themselves. The room stays the same beyond [`LONGEST`](crate::lent::LONGEST) bytes, since longer streams are refused.
#[derive(Clone, Copy, Debug, Default, PartialEq, Eq, Hash)]
pub struct Room {
    /// Rows of controls.
    pub controls: usize,
    /// Rows of properties.
    pub properties: usize,
}

impl Room {
    /// For streams of either layout.
    pub fn for_length(length: usize) -> Room {
        Room::of(archive::room(length))
    }

    /// For streams that are known to be of Access 2000.
    pub fn for_access_2000(length: usize) -> Room {
        Room::of(archive::room_2000(length))
    }

    /// For streams that are known to be of the later layout.
    pub fn for_later(length: usize) -> Room {
        Room::of(archive::room_later(length))
    }

    fn of(rows: archive::Rows) -> Room {
        Room { controls: rows.controls as usize, properties: rows.properties as usize }
    }
}
