//! Code tables: what is parsed, what stands in one, and two joined.

use oskuramos::*;

/// A scope as its kind, its code and its rows: id, target, kind.
type Contents<'a> = &'a [(u8, u16, &'a [(u8, u16, u8)])];

/// The bytes of a table with layout byte 2A.
fn bytes(header: &[u16], contents: Contents) -> Vec<u8> {
    let mut out = vec![0x2A, header.len() as u8, contents.len() as u8, 0];
    out.extend(header.iter().flat_map(|code| code.to_le_bytes()));
    for (kind, code, rows) in contents {
        out.push(*kind);
        out.extend([code.to_le_bytes(), (rows.len() as u16).to_le_bytes()].concat());
    }
    for (id, target, kind) in contents.iter().flat_map(|scope| scope.2) {
        out.extend([&[*id][..], &target.to_le_bytes(), &[*kind]].concat());
    }
    out
}

fn table(contents: Contents) -> CodeTable {
    CodeTable::parse(bytes(&[0x99], contents)).unwrap()
}

/// So many entry scopes from a code on, without rows.
fn scopes(first: u16, count: u16) -> CodeTable {
    table(&(first..first + count).map(|code| (2, code, &[][..])).collect::<Vec<_>>())
}

#[test]
fn only_what_is_well_formed_is_a_table() {
    let good = bytes(&[0x99, 0x9A], &[(0, 0, &[(0x60, 0x36, 0)]), (2, 0x64, &[])]);
    assert_eq!(CodeTable::parse(&good[..]).unwrap().as_bytes(), good);
    assert_eq!(CodeTable::try_from(good.clone()).unwrap().into_bytes(), good);
    assert_eq!(CodeTable::try_from(&good[..]).unwrap().as_ref(), good);
    for end in 0..good.len() {
        assert_eq!(CodeTable::parse(&good[..end]), Err(Refused::BadTable));
    }
    assert_eq!(CodeTable::parse(bytes(&[5, 5], &[])), Err(Refused::BadTable));
    assert_eq!(CodeTable::parse(bytes(&[], &[(0, 0, &[(1, 0x8000, 0)])])), Err(Refused::BadTable));
}

#[test]
fn what_stands_in_a_table() {
    let table = table(&[(0, 0, &[(0x60, 0x36, 0), (0xDC, 0x14, 1)]), (1, 0, &[]), (2, 0x1264, &[(0, 0x7FFF, 4)])]);
    assert_eq!((table.layout_byte(), Vec::from_iter(table.header_codes())), (0x2A, vec![0x99]));
    let scopes = Vec::from_iter(table.scopes().map(|s| (s.scope, s.rows().count())));
    assert_eq!(scopes, [(Scope::Form, 2), (Scope::Report, 0), (Scope::Entry(0x1264), 1)]);
    let rows = Vec::from_iter(table.rows());
    assert_eq!(rows[1], (Scope::Form, CodeRow { id: 0xDC, target: 0x14, kind: Kind::Text }));
    assert_eq!(rows[2], (Scope::Entry(0x1264), CodeRow { id: 0, target: 0x7FFF, kind: Kind::Bytes }));
    assert_eq!(rows[2].0.to_string() + " " + &rows[2].1.to_string(), "entry 1264 00 -> 7FFF bytes");
    let forms = table.scopes().next().unwrap();
    assert_eq!((forms.row(0x60).map(|row| row.target), forms.row(0x61)), (Some(0x36), None));
    assert_eq!(format!("{table:?}"), "CodeTable { layout_byte: 42, header_codes: [153], scopes: 3, rows: 3 }");
}

/// Every code of the default table that a stream has comes out as its row says.
#[test]
fn the_default_table_is_a_table() {
    let table = CodeTable::access_2000();
    assert_eq!((table.as_bytes(), table.scopes().count()), (ACCESS_2000_CODES, 24));
    assert!(table.rows().all(|(_, row)| row.id <= 0xFC && row.target < 0x8000));
    let rows = table.scopes().flat_map(|s| s.rows().map(move |row| (s.scope, row)));
    assert!(rows.eq(table.rows()));
}

#[test]
fn two_tables_are_joined() {
    let north = table(&[(0, 0, &[(0x60, 0x36, 0)]), (2, 0x0100, &[])]);
    let south = table(&[(0, 0, &[(0x30, 1, 0), (0x60, 0x36, 0)]), (1, 0, &[]), (2, 0x00FF, &[(0xDC, 0x14, 1)])]);
    let both = table(&[(0, 0, &[(0x30, 1, 0), (0x60, 0x36, 0)]), (1, 0, &[]), (2, 0x00FF, &[(0xDC, 0x14, 1)]), (2, 0x0100, &[])]);
    assert_eq!((north.join(&south), south.join(&north)), (Ok(both.clone()), Ok(both.clone())));
    assert_eq!((both.join(&north), both.join(&both)), (Ok(both.clone()), Ok(both)));
    assert_eq!(north.differing(&south).count(), 0);
    let default = CodeTable::access_2000();
    assert_eq!(default.join(&default), Ok(default));
}

#[test]
fn tables_that_cannot_be_joined() {
    let one = table(&[(0, 0, &[(0x60, 0x36, 0), (0x61, 0x37, 0)])]);
    let other_header = CodeTable::parse(bytes(&[0x9A], &[])).unwrap();
    let mut layout = one.as_bytes().to_vec();
    layout[0] = 0x2B;
    assert_eq!(one.join(&other_header), Err(Refused::OtherHead));
    assert_eq!(one.join(&CodeTable::parse(layout).unwrap()), Err(Refused::OtherHead));
    let other = table(&[(0, 0, &[(0x60, 0x36, 1), (0x61, 0x37, 0)])]);
    assert_eq!(one.join(&other), Err(Refused::TwoRows));
    let [mine, theirs] = [Kind::Number, Kind::Text].map(|kind| CodeRow { id: 0x60, target: 0x36, kind });
    assert_eq!(Vec::from_iter(one.differing(&other)), [(Scope::Form, mine, theirs)]);
    assert_eq!(scopes(0, 64).join(&scopes(64, 1)), Err(Refused::TooManyScopes));
    assert_eq!(scopes(0, 40).join(&scopes(24, 40)), Ok(scopes(0, 64)));
}

#[test]
fn joined_into_what_is_lent() {
    let (one, other) = (scopes(0, 2), scopes(1, 2));
    let mut out = [b'.'; 24];
    assert_eq!(lent::join(&one.as_bytes()[1..], other.as_bytes(), &mut out), Err(Refused::BadTable));
    assert_eq!(lent::join(one.as_bytes(), &[], &mut out), Err(Refused::BadTable));
    assert_eq!(lent::join(one.as_bytes(), other.as_bytes(), &mut out[..20]), Err(Refused::NoRoomForText));
    assert_eq!(lent::join(one.as_bytes(), other.as_bytes(), &mut []), Err(Refused::NoRoomForText));
    assert_eq!(out, [b'.'; 24]);
    assert_eq!(lent::join(one.as_bytes(), other.as_bytes(), &mut out), Ok(21));
    assert_eq!((&out[..21], &out[21..]), (scopes(0, 3).as_bytes(), &b"..."[..]));
}

/// A form has a code that the default table lacks; another office has learned that one and no other.
#[test]
fn a_joined_table_reads_what_either_reads() {
    let stream = std::fs::read(concat!(env!("CARGO_MANIFEST_DIR"), "/../examples/form-2000.blob")).unwrap();
    let default = CodeTable::access_2000();
    let learned = CodeTable::parse(default_head(&default, &[(0, 0, &[(0x2F, 0x77, 0)])])).unwrap();
    let unmapped =
        |table: &CodeTable| Blob::read(table.as_bytes(), &stream).unwrap().properties().filter(|p| p.unmapped().is_some()).count();
    let both = default.join(&learned).unwrap();
    assert!(unmapped(&both) < unmapped(&default) && unmapped(&default) < unmapped(&learned));
}

/// A table with the default one's layout byte and header codes.
fn default_head(default: &CodeTable, contents: Contents) -> Vec<u8> {
    let mut made = bytes(&Vec::from_iter(default.header_codes()), contents);
    made[0] = default.layout_byte();
    made
}
