//! One spelling for an archive.

use crate::{lent, Refused};

/// An Access 2000 stream in its shortest spelling: each length up to 254 in one byte, and 0xFE for a list of one entry.
///
/// All else is kept: the first ten bytes (the first isn't judged, so no code table is needed), every entry, reported or not, types, ids and values.
/// It is read as the same rows but for the starts of values and names, and the bytes there are the same. It is never longer than the stream, nor than any
/// stream with the same first ten bytes, types, ids, values and lists; rewritten again it stays.
///
/// Streams that show the same rows need not be rewritten as the same: an entry without a list and one with an empty list may show one row.
///
/// Refused are [`TooLong`](Refused::TooLong) and [`NoReading`](Refused::NoReading), in this order.
///
/// ```
/// use oskuramos::{rewrite, Refused};
///
/// // code DC with two bytes and 0xFF before its length; a list of one entry, with 0xFF before its count
/// let stream = [&[0; 10][..], &[0xDC, 0xFF, 2, 0, 0x41, 0, 0xFF, 1, 0, 0x98, 0, 0xFD]].concat();
/// let short = [&[0; 10][..], &[0xDC, 2, 0x41, 0, 0xFE, 0x98, 0, 0xFD]].concat();
/// assert_eq!(rewrite(&stream), Ok(short.clone()));
/// assert_eq!(rewrite(&short), Ok(short));
/// assert_eq!(rewrite(&stream[..20]), Err(Refused::NoReading));
/// ```
pub fn rewrite(stream: &[u8]) -> Result<Vec<u8>, Refused> {
    let mut bytes = vec![0; stream.len()];
    let length = lent::rewrite(stream, &mut bytes)?;
    bytes.truncate(length);
    bytes.shrink_to_fit();
    Ok(bytes)
}
