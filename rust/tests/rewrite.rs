//! A stream rewritten in its shortest spelling.

use oskuramos::{lent, rewrite, Blob, Refused, ACCESS_2000_CODES};

/// Ten bytes, the first of which is the default table's layout byte, and then these.
fn stream(rest: &[u8]) -> Vec<u8> {
    [&[ACCESS_2000_CODES[0]][..], &[0; 9], rest].concat()
}

/// Each control and property as it is shown, without where it stands.
fn shown(blob: &Blob) -> Vec<String> {
    let controls = blob.controls.iter().flat_map(|c| std::iter::once(c.to_string()).chain(c.properties.iter().map(|p| p.to_string())));
    blob.own.iter().map(|p| p.to_string()).chain(controls).collect()
}

#[test]
fn a_length_takes_one_byte_up_to_254() {
    for size in [0, 1, 253, 254, 255, 65535] {
        let value = vec![1; size];
        let long = [&[0xDC, 0xFF, size as u8, (size >> 8) as u8][..], &value, &[0xFF, 0, 0]].concat();
        let short = [&[0xDC, size as u8][..], &value, &[0xFF, 0, 0]].concat();
        assert_eq!(rewrite(&stream(&long)), Ok(stream(if size <= 254 { &short } else { &long })), "{size}");
    }
}

#[test]
fn one_entry_takes_one_byte() {
    assert_eq!(rewrite(&stream(&[0xFF, 1, 0, 5, 0, 0xFD])), Ok(stream(&[0xFE, 5, 0, 0xFD])));
    for kept in [&[0xFF, 0, 0][..], &[0xFF, 2, 0, 5, 0, 0xFD, 0x98, 0, 0xFF, 0, 0], &[0xFE, 0x98, 0, 0xFD]] {
        assert_eq!(rewrite(&stream(kept)), Ok(stream(kept)));
    }
}

#[test]
fn the_first_byte_is_not_judged() {
    let mut any = stream(&[0xFE, 0x98, 0, 0xFD]);
    any[0] ^= 0xFF;
    assert_eq!(rewrite(&any), Ok(any));
}

#[test]
fn read_again_it_shows_the_same() {
    let form = std::fs::read(concat!(env!("CARGO_MANIFEST_DIR"), "/../examples/form-2000.blob")).unwrap();
    let short = rewrite(&form).unwrap();
    let (before, after) = (Blob::read(ACCESS_2000_CODES, &form).unwrap(), Blob::read(ACCESS_2000_CODES, &short).unwrap());
    assert!(short.len() <= form.len());
    assert_eq!(rewrite(&short), Ok(short.clone()));
    assert_eq!(shown(&before), shown(&after));
}

#[test]
fn refusals_in_their_order() {
    let bad = stream(&[0xFD]);
    assert_eq!(rewrite(&bad), Err(Refused::NoReading));
    assert_eq!(rewrite(&[]), Err(Refused::NoReading));
    assert_eq!(rewrite(&vec![0; lent::LONGEST + 1]), Err(Refused::TooLong));
    let mut out = [7; 14];
    assert_eq!(lent::rewrite(&bad, &mut []), Err(Refused::NoReading));
    assert_eq!(lent::rewrite(&stream(&[0xFF, 1, 0, 5, 0, 0xFD]), &mut out[..13]), Err(Refused::NoRoomForText));
    assert_eq!(out, [7; 14]);
    assert_eq!(lent::rewrite(&stream(&[0xFF, 0, 0]), &mut out), Ok(13));
    assert_eq!(out[13], 7);
}
