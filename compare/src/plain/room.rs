//! Document 02, wish 14: how many bytes the rows of a stream take at least, so how much room is enough.

use super::{Reading, Shape};

/// In which way a reading has more rows than wish 14 allows its stream's length.
pub fn bounded(found: &Reading, length: usize) -> Result<(), String> {
    let c = found.controls.len();
    let p = found.own.len() + found.controls.iter().map(|control| control.properties.len()).sum::<usize>();
    let within = match found.shape {
        Shape::Access2000 => 3 * c + p + 11 <= length,
        Shape::Tree => 6 * c + 18 * p + 14 <= length,
        Shape::Scan => 18 * p + 14 <= length && c <= p,
        Shape::Short => c == 0 && p == 0,
    };
    if within {
        Ok(())
    } else {
        Err(format!("{c} controls and {p} properties in {length} bytes ({:?})", found.shape))
    }
}

#[cfg(test)]
mod tests {
    use super::bounded;
    use crate::{judge, oracle};

    /// "Give for the Access 2000 bound a stream that meets it exactly for each C": each entry alone in the list of the one before.
    #[test]
    fn chains_meet_the_bound_exactly() {
        let codes = oracle::codes();
        for c in 1..=256 {
            let links = [0xFE, 0x98, 0x00].repeat(c);
            let stream = [&[codes.layout][..], &[0; 9], &links, &[0xFD]].concat();
            let found = judge::blob(&codes, &stream).unwrap().expect("read");
            assert_eq!((found.controls.len(), stream.len()), (c, 3 * c + 11));
            assert!(bounded(&found, stream.len()).is_ok() && bounded(&found, stream.len() - 1).is_err());
        }
    }
}
