//! Properties for a spreadsheet.

use crate::{lent, Refused};

/// A Blob's properties as comma-separated text by RFC 4180: the record `control,type,property,word,value`, then a record for each property.
///
/// Control is the control's number in decimal and type its code in four digits of hex; both are empty for the object's own properties. Property is its
/// name or, where it has none, its id in four digits of hex. Word and value are as they are listed, but for text, which is whole and in UTF-8, and bytes,
/// which are in hex. Only text can need quotes. Each record ends with CR LF.
///
/// Refused are [`TooLong`](Refused::TooLong), [`BadTable`](Refused::BadTable) and [`NoReading`](Refused::NoReading), in this order.
///
/// ```
/// use oskuramos::{write_csv, ACCESS_2000_CODES};
///
/// let stream = std::fs::read("examples/form-2000.blob")?;
/// let text = String::from_utf8(write_csv(ACCESS_2000_CODES, &stream)?)?;
/// assert!(text.starts_with("control,type,property,word,value\r\n,,"));
/// assert_eq!(text.lines().count(), 1 + 43);
/// # Ok::<(), Box<dyn std::error::Error>>(())
/// ```
pub fn write_csv(table: &[u8], stream: &[u8]) -> Result<Vec<u8>, Refused> {
    let needed = match lent::read_blob(table, stream, &mut [], &mut []) {
        Ok(counts) | Err(Refused::MoreControls(counts) | Refused::MoreProperties(counts)) => counts,
        Err(refused) => return Err(refused),
    };
    let mut controls = vec![[0; lent::CONTROL_WORDS]; needed.controls];
    let mut properties = vec![[0; lent::PROPERTY_WORDS]; needed.properties];
    // every text fits this: a value takes up to twice its bytes, a record 94 more, the header 34
    let mut text = vec![0; 34 + 94 * needed.properties + 2 * stream.len()];
    let length = lent::write_csv(table, stream, &mut controls, &mut properties, &mut text)?;
    text.truncate(length);
    text.shrink_to_fit();
    Ok(text)
}
