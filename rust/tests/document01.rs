//! Document 01's worked example, every refusal, and what stays unwritten.

use oskuramos::lent::*;
use oskuramos::*;

const TABLE: [u8; 17] = [0x2A, 0, 1, 0, 2, 0x64, 0, 2, 0, 0x60, 0x36, 0, 0, 0xDC, 0x14, 0, 1];
const BLOB: [u8; 26] = [0x2A, 0, 0, 0, 0, 0, 0, 0, 0, 0, 0x31, 5, 0xFE, 0x98, 0, 0xFE, 0x64, 0, 0x60, 0xFF, 0xFF, 0xDC, 2, 0x41, 0, 0xFD];
const GUARD: usize = 2;

/// Rows between guards; each word has a value of its own before a call.
fn rows<const WORDS: usize>(room: usize) -> Vec<[u32; WORDS]> {
    (0..room + 2 * GUARD).map(|i| std::array::from_fn(|j| 0xA500_0000 + 7 * (i * WORDS + j) as u32)).collect()
}

/// All rows but the first `written` between the guards have their old words.
fn kept<const WORDS: usize>(room: usize, lent: &[[u32; WORDS]], written: usize) -> bool {
    rows(room).iter().zip(lent).enumerate().all(|(i, (old, new))| (GUARD..GUARD + written).contains(&i) || old == new)
}

fn between<T>(lent: &mut [T]) -> &mut [T] {
    let end = lent.len() - GUARD;
    &mut lent[GUARD..end]
}

/// The answer for a Blob with both slices, whose rows but the first `written` must have stayed.
fn blob_answer(
    table: &[u8],
    stream: &[u8],
    rooms: [usize; 2],
    written: [usize; 2],
) -> (Result<Counts, Refused>, Vec<ControlRow>, Vec<PropertyRow>) {
    let (mut controls, mut properties) = (rows(rooms[0]), rows(rooms[1]));
    let answer = read_blob(table, stream, between(&mut controls), between(&mut properties));
    assert!(kept(rooms[0], &controls, written[0]) && kept(rooms[1], &properties, written[1]), "{answer:?} wrote elsewhere");
    (answer, controls, properties)
}

fn blob_refusal(table: &[u8], stream: &[u8], rooms: [usize; 2]) -> Refused {
    blob_answer(table, stream, rooms, [0, 0]).0.unwrap_err()
}

fn info_refusal(stream: &[u8], room: usize) -> Refused {
    let mut rows = rows(room);
    let answer = read_type_info(stream, between(&mut rows));
    assert!(kept(room, &rows, 0), "{answer:?} wrote");
    answer.unwrap_err()
}

const NEEDED: Counts = Counts { controls: 2, properties: 3, own: 1 };

#[test]
fn k1_word_for_word() {
    for rooms in [[2, 3], [3, 4], [10, 10]] {
        let (answer, controls, properties) = blob_answer(&TABLE, &BLOB, rooms, [2, 3]);
        assert_eq!(answer, Ok(NEEDED));
        assert_eq!(controls[GUARD..GUARD + 2], [[0x98, 1, 0, 9, 1, 0, 0, NO_PARENT], [0x64, 0, 23, 2, 1, 2, 1, 0]]);
        let rows = [[0x8031, 2, 5, 0, 11, 1], [0x36, 2, 0xFFFF_FFFF, 0, 19, 2], [0x14, 6, 0, 0, 23, 2]];
        assert_eq!(properties[GUARD..GUARD + 3], rows);
    }
}

#[test]
fn k1_as_a_blob() {
    let blob = Blob::read(&TABLE, &BLOB).unwrap();
    assert_eq!((blob.layout, blob.own.len(), blob.controls.len()), (Layout::Access2000, 1, 2));
    let own = blob.own[0];
    assert_eq!((own.id, own.value, own.bytes, own.start, own.unmapped()), (0x8031, Value::Short(5), &[5][..], 11, Some(0x31)));
    assert_eq!(blob.controls[0].name, ControlName::Numbered(0));
    assert_eq!(blob.controls.iter().map(|c| c.to_string()).collect::<Vec<_>>(), ["Detail Control_0", "Label A"]);
    let label = &blob.controls[1];
    let left = label.property("Left").unwrap();
    assert_eq!((left.id, left.value, left.bytes, left.start, left.unmapped()), (0x36, Value::Short(-1), &[0xFF, 0xFF][..], 19, None));
    assert_eq!(label.property("Name").unwrap().value.text().unwrap(), "A");
    assert_eq!(blob.properties().map(|p| p.to_string()).collect::<Vec<_>>(), ["8031 = 5", "Left = -1", "Name = A"]);
    assert_eq!(Blob::read(&TABLE, &BLOB[..25]), Err(Refused::NoReading));
}

#[test]
fn refusals_of_a_blob() {
    let room = [10, 10];
    let long = vec![0; LONGEST + 1];
    assert_eq!(blob_refusal(&TABLE, &BLOB[..25], room), Refused::NoReading);
    assert_eq!(blob_refusal(&TABLE, &long, room), Refused::TooLong);
    assert_eq!(blob_refusal(&TABLE[..16], &long, room), Refused::TooLong);
    assert_eq!(blob_refusal(&TABLE, &long[1..], room).number(), 7);
    assert_eq!(blob_refusal(&TABLE, &BLOB, [1, 10]), Refused::MoreControls(NEEDED));
    assert_eq!(blob_refusal(&TABLE, &BLOB, [10, 2]), Refused::MoreProperties(NEEDED));
    assert_eq!(blob_refusal(&TABLE, &BLOB, [0, 0]), Refused::MoreControls(NEEDED));
    assert_eq!(blob_refusal(&TABLE[..16], &BLOB[..1], room), Refused::BadTable);
}

/// A reader's answer with nothing written, refused or not.
fn reader_answer(
    read: impl Fn(&mut [ControlRow], &mut [PropertyRow]) -> Result<Counts, Refused>,
    rooms: [usize; 2],
) -> Result<Counts, Refused> {
    let (mut controls, mut properties) = (rows(rooms[0]), rows(rooms[1]));
    let answer = read(between(&mut controls), between(&mut properties));
    assert!(kept(rooms[0], &controls, 0) && kept(rooms[1], &properties, 0), "{answer:?} wrote");
    answer
}

#[test]
fn readers_of_one_layout() {
    let (room, layout) = ([10, 10], TABLE[0].into());
    let access_2000 = |table: &[u8], stream: &[u8], rooms| reader_answer(|c, p| read_2000(table, stream, c, p), rooms);
    let later = |layout, stream: &[u8], rooms| reader_answer(|c, p| read_later(layout, stream, c, p), rooms);
    let (long, zeros) = (vec![0; LONGEST + 1], [0; 32]);
    assert_eq!(access_2000(&TABLE, &zeros, room), Err(Refused::OtherLayout));
    assert_eq!(access_2000(&TABLE, &[], room), Err(Refused::OtherLayout));
    assert_eq!(access_2000(&TABLE[..16], &zeros, room), Err(Refused::BadTable));
    assert_eq!(access_2000(&TABLE[..16], &long, room), Err(Refused::TooLong));
    assert_eq!(access_2000(&TABLE, &BLOB[..25], room), Err(Refused::NoReading));
    assert_eq!(access_2000(&TABLE, &BLOB, [1, 10]), Err(Refused::MoreControls(NEEDED)));
    assert_eq!(access_2000(&TABLE, &BLOB, [10, 2]), Err(Refused::MoreProperties(NEEDED)));
    assert_eq!(later(layout, &BLOB, [0, 0]), Err(Refused::OtherLayout));
    assert_eq!(later(0, &long, room), Err(Refused::TooLong));
    assert_eq!(later(0, &zeros, [0, 0]), Err(Refused::OtherLayout));
    assert_eq!(later(256, &zeros, [0, 0]), Err(Refused::MoreProperties(Counts { controls: 0, properties: 1, own: 1 })));
    assert_eq!(later(0, &[], room), Ok(Counts::default()));
    assert_eq!(Blob::read_2000(&TABLE, &BLOB), Blob::read(&TABLE, &BLOB));
    assert_eq!(Blob::read_later(layout, &zeros), Blob::read(&TABLE, &zeros));
    assert_eq!([Blob::read_2000(&TABLE, &zeros), Blob::read_later(layout, &BLOB)].map(Result::unwrap_err), [Refused::OtherLayout; 2]);
    assert_eq!(Refused::OtherLayout.number(), 15);
    assert!(Refused::OtherLayout.to_string().ends_with("let Blob::read choose"));
}

fn type_info(count: u8) -> Vec<u8> {
    let mut s = vec![0; 40];
    s[..4].copy_from_slice(&[0xF7, 0xEA, 0xCD, 0xAC]);
    (s[12], s[32], s[36]) = (count, 0x6D, 3);
    s.extend_from_slice(b"a\0Text\0\0");
    s
}

#[test]
fn a_name_that_was_cut_is_told() {
    let stream = type_info(1);
    let name = |length: usize| TypeInfo::read(&stream[..length]).unwrap().entries[0];
    assert_eq!([46, 45].map(|n| (name(n).start, name(n).name, name(n).cut)), [(42, &b"Text"[..], true), (42, b"Tex", true)]);
    // right after the first name's NUL, where a second name isn't missed; before it
    assert_eq!([42, 41].map(|n| (name(n).start, name(n).name, name(n).cut)), [(40, &b"a"[..], false), (40, b"a", true)]);
    assert!(!name(47).cut);
}

#[test]
fn type_info_and_its_refusals() {
    let mut lent = rows(3);
    assert_eq!(read_type_info(&type_info(1), between(&mut lent)), Ok(1));
    assert_eq!(lent[GUARD], [0x6D, 3, 42, 4, 0]);
    assert!(kept(3, &lent, 1));
    assert_eq!(info_refusal(&type_info(1)[..31], 3), Refused::TooShort);
    assert_eq!(info_refusal(&[0; 40], 3), Refused::OtherMagic);
    assert_eq!(info_refusal(&type_info(3), 3), Refused::TooManyEntries);
    assert_eq!(info_refusal(&vec![0; LONGEST + 1], 3), Refused::TooLong);
    assert_eq!(info_refusal(&type_info(1), 0), Refused::MoreRows(1));
}

#[test]
fn texts_and_their_refusals() {
    let guid: Vec<u8> = (0..16).collect();
    let mut out = [b'.'; 40];
    assert_eq!(guid_text(&guid[..15], &mut out[..37]), Err(Refused::NotAGuid));
    assert_eq!(guid_text(&guid, &mut out[..37]), Err(Refused::NoRoomForText));
    assert_eq!(label_text(10, &mut out[..9]), Err(Refused::NoRoomForText));
    assert_eq!(out, [b'.'; 40]);
    assert_eq!(guid_text(&guid, &mut out), Ok(38));
    assert_eq!(&out, b"{03020100-0504-0706-0809-0A0B0C0D0E0F}..");
    assert_eq!(label_text(u32::MAX, &mut out), Ok(18));
    assert_eq!(&out[..20], b"Control_42949672956-");
}

#[test]
fn values() {
    assert_eq!(entry_value(2, &[0xFF, 0x7F, 0, 0]), Value::Short(32767));
    assert_eq!(entry_value(2, &[0, 0x80, 0, 0]), Value::Binary(&[0, 0x80, 0, 0]));
    assert_eq!(entry_value(2, &[0xFF]), Value::Short(255));
    assert_eq!(entry_value(1, &[1, 0]), Value::Long(1));
    assert_eq!(entry_value(1, &[]), Value::NotDefault);
    assert_eq!([entry_value(1, &[0]), entry_value(1, &[2])], [Value::Bool(false), Value::Bool(true)]);
    assert_eq!(entry_value(6, &[0, 0, 0xC0, 0x3F]), Value::Double(1.5));
    assert_eq!(entry_value(9, &[7; 16]), Value::Guid(Guid([7; 16])));
    assert_eq!(entry_value(10, &[0x3D, 0xD8]), Value::Loose(Loose(&[0x3D, 0xD8])));
    assert_eq!(stored_value(0xDC, &[0x41, 0]), Value::Binary(&[0x41, 0]));
    assert_eq!(value_as(Kind::Text, 0xDC, &[0x41, 0]).text().unwrap(), "A");
    assert_eq!(value_as(Kind::Guid, 0xDC, &[0x41, 0]), Value::Binary(&[0x41, 0]));
}

#[test]
fn names_and_parts() {
    assert!(is_utf16(&[0x3D, 0xD8, 0, 0xDE]) && !is_utf16(&[0x3D, 0xD8]) && is_utf16(&[]));
    assert!(well_formed(&TABLE) && !well_formed(&TABLE[..16]) && !well_formed(&[]));
    assert_eq!(number_name(0x13E).unwrap(), "DatasheetGridlinesBehavior");
    assert_eq!(text_name(0x1B).unwrap(), "ControlSource");
    assert_eq!(bytes_name(0x178).unwrap(), "GUID");
    assert_eq!(control_type_name(0x1899).unwrap(), "FormHeader");
    assert_eq!([text_name(0xFFFF), value_name(9, 0x14)], [None, None]);
    assert_eq!(control_name(&BLOB, b"Control_0", 0, 23, 2), [0x41, 0]);
    assert_eq!(control_name(&BLOB, b"Control_0", 1, 0, 9), b"Control_0");
    assert_eq!(control_name(&BLOB, &[], 2, 25, 2), []);
}
