//! Document 02, wish 9: two code tables joined. What stands where is left to maps; nothing is merged by hand.

use super::codes::{Codes, Row, Scope};
use super::Answer;
use std::collections::{BTreeMap, BTreeSet};

/// "Number of scopes, 0 to 64".
const MOST_SCOPES: usize = 64;

/// What a joining into so many bytes answers, and the bytes that it writes.
pub fn join(one: &[u8], other: &[u8], room: usize) -> (Answer, Vec<u8>) {
    match joined(one, other, room) {
        Ok(bytes) => (Answer { number: 0, counts: [bytes.len() as u32, 0, 0] }, bytes),
        Err(number) => (Answer::refusal(number), Vec::new()),
    }
}

/// By scope (kind and code) and id, all that is said of it: target and kind.
type All = BTreeMap<(u8, u16), BTreeMap<u8, BTreeSet<(u16, u8)>>>;

fn joined(one: &[u8], other: &[u8], room: usize) -> Result<Vec<u8>, u32> {
    let [one, other] = [Codes::parse(one).ok_or(8u32)?, Codes::parse(other).ok_or(8u32)?];
    if (one.layout, &one.header) != (other.layout, &other.header) {
        return Err(16);
    }
    let mut all = All::new();
    for scope in one.scopes.iter().chain(&other.scopes) {
        let rows = all.entry((scope.kind, scope.code)).or_default();
        for row in &scope.rows {
            rows.entry(row.id).or_default().insert((row.target, row.kind));
        }
    }
    if all.values().flat_map(|rows| rows.values()).any(|said| said.len() > 1) {
        return Err(17);
    }
    if all.len() > MOST_SCOPES {
        return Err(18);
    }
    let bytes = Codes { scopes: all.into_iter().map(scope_of).collect(), ..one }.bytes();
    if bytes.len() > room {
        return Err(9);
    }
    Ok(bytes)
}

fn scope_of(((kind, code), rows): ((u8, u16), BTreeMap<u8, BTreeSet<(u16, u8)>>)) -> Scope {
    let row = |(id, said): (u8, BTreeSet<(u16, u8)>)| said.into_iter().map(move |(target, kind)| Row { id, target, kind });
    Scope { kind, code, rows: rows.into_iter().flat_map(row).collect() }
}

// ---- the same sentence once more, as what may be asked of an answer

/// In which way an answer and what was written break document 02's sentence: each part of it is looked for by itself, row by row.
pub fn kept(one: &[u8], other: &[u8], room: usize, answer: Answer, written: &[u8]) -> Result<(), String> {
    let expected = if answer.number == 0 { [written.len() as u32, 0, 0] } else { [0; 3] };
    if answer.counts != expected || answer.number != 0 && !written.is_empty() {
        return Err(format!("{answer:?} with {} bytes written", written.len()));
    }
    let reason = refusal(one, other, room);
    if reason != answer.number {
        return Err(format!("answer {} where {reason} is due", answer.number));
    }
    if reason == 0 {
        holds_both(&Codes::parse(one).unwrap(), &Codes::parse(other).unwrap(), written)?;
    }
    Ok(())
}

fn refusal(one: &[u8], other: &[u8], room: usize) -> u32 {
    let (Some(a), Some(b)) = (Codes::parse(one), Codes::parse(other)) else { return 8 };
    let new_scopes: Vec<&Scope> = b.scopes.iter().filter(|s| !has_scope(&a, s)).collect();
    let new_rows = b.scopes.iter().map(|s| s.rows.iter().filter(|r| a.row(s.kind, s.code, r.id).is_none()).count()).sum::<usize>();
    let differs = |s: &Scope| s.rows.iter().any(|r| a.row(s.kind, s.code, r.id).is_some_and(|old| old != r));
    if a.layout != b.layout || a.header != b.header {
        16
    } else if b.scopes.iter().any(differs) {
        17
    } else if a.scopes.len() + new_scopes.len() > 64 {
        18
    } else if one.len() + 5 * new_scopes.len() + 4 * new_rows > room {
        9
    } else {
        0
    }
}

fn has_scope(table: &Codes, wanted: &Scope) -> bool {
    table.scopes.iter().any(|s| (s.kind, s.code) == (wanted.kind, wanted.code))
}

/// The result is well formed, a successor of each, and holds nothing else.
fn holds_both(a: &Codes, b: &Codes, written: &[u8]) -> Result<(), String> {
    let found = Codes::parse(written).ok_or("the result is not well formed")?;
    for table in [a, b] {
        if !is_successor(&found, table) {
            return Err("the result lacks something of a table".to_string());
        }
    }
    for scope in &found.scopes {
        let row_of = |table: &Codes, row: &Row| table.row(scope.kind, scope.code, row.id) == Some(row);
        if !has_scope(a, scope) && !has_scope(b, scope) || !scope.rows.iter().all(|row| row_of(a, row) || row_of(b, row)) {
            return Err(format!("the result has more than both in scope {} {}", scope.kind, scope.code));
        }
    }
    Ok(())
}

/// The same layout byte and header codes, and every scope and row of the older table.
fn is_successor(newer: &Codes, older: &Codes) -> bool {
    let same = |s: &Scope| has_scope(newer, s) && s.rows.iter().all(|r| newer.row(s.kind, s.code, r.id) == Some(r));
    (newer.layout, &newer.header) == (older.layout, &older.header) && older.scopes.iter().all(same)
}

#[cfg(test)]
mod tests {
    use super::*;
    use crate::cases::join::{entries, table};

    /// One form scope with a row, and one entry scope without rows.
    fn small() -> Codes {
        table(0x13, &[0x99], &[(0, 0, &[(0x60, 0x36, 0)]), (2, 0x64, &[])])
    }

    /// The answer and the bytes; `kept` must find the same.
    fn answer(one: &Codes, other: &Codes, room: usize) -> (u32, Vec<u8>) {
        let (one, other) = (one.bytes(), other.bytes());
        let (answer, written) = join(&one, &other, room);
        assert_eq!(kept(&one, &other, room, answer, &written), Ok(()));
        (answer.number, written)
    }

    fn joined_table(one: &Codes, other: &Codes) -> Codes {
        let (number, written) = answer(one, other, 65_100);
        assert_eq!(number, 0);
        Codes::parse(&written).unwrap()
    }

    /// Other contents, the same head.
    fn with(scopes: &[(u8, u16, &[(u8, u16, u8)])]) -> Codes {
        table(0x13, &[0x99], scopes)
    }

    #[test]
    fn every_scope_and_row_of_either_in_order() {
        let other = with(&[(0, 0, &[(0x30, 1, 0), (0xDC, 0x14, 1)]), (1, 0, &[]), (2, 0x63, &[(0, 2, 0)])]);
        let both: [(u8, u16, &[(u8, u16, u8)]); 4] =
            [(0, 0, &[(0x30, 1, 0), (0x60, 0x36, 0), (0xDC, 0x14, 1)]), (1, 0, &[]), (2, 0x63, &[(0, 2, 0)]), (2, 0x64, &[])];
        assert_eq!(joined_table(&small(), &other), with(&both));
        assert_eq!(joined_table(&other, &small()), with(&both));
    }

    #[test]
    fn rows_that_both_have_stand_once() {
        assert_eq!(joined_table(&small(), &small()), small());
        let more = with(&[(0, 0, &[(0x60, 0x36, 0), (0x61, 0x37, 0)]), (2, 0x64, &[(1, 1, 1)])]);
        assert_eq!(joined_table(&small(), &more), more);
    }

    /// Codes go by their number: 0x0100 stands behind 0x00FF, though its low byte is less.
    #[test]
    fn scopes_go_by_number() {
        let (one, other) = (with(&[(2, 0x0100, &[])]), with(&[(2, 0x00FF, &[]), (2, 0x0201, &[])]));
        let codes: Vec<u16> = joined_table(&one, &other).scopes.iter().map(|s| s.code).collect();
        assert_eq!(codes, [0x00FF, 0x0100, 0x0201]);
    }

    #[test]
    fn scopes_without_rows_are_kept() {
        let (one, other) = (with(&[(0, 0, &[]), (2, 7, &[])]), with(&[(1, 0, &[]), (2, 7, &[])]));
        assert_eq!(joined_table(&one, &other), with(&[(0, 0, &[]), (1, 0, &[]), (2, 7, &[])]));
        assert_eq!(joined_table(&with(&[]), &with(&[])), with(&[]));
        assert_eq!(joined_table(&with(&[]), &small()), small());
    }

    #[test]
    fn as_many_as_64_scopes() {
        let (one, other) = (entries(0..40, 1), entries(24..64, 1));
        assert_eq!(joined_table(&one, &other), entries(0..64, 1));
        assert_eq!(answer(&one, &entries(24..65, 1), 65_100).0, 18);
        // scopes without rows count too
        assert_eq!(answer(&entries(0..64, 0), &entries(64..65, 0), 65_100).0, 18);
        assert_eq!(answer(&entries(0..64, 0), &entries(63..64, 0), 65_100).0, 0);
    }

    #[test]
    fn the_longest_table_has_65100_bytes() {
        let full = Codes { header: vec![1, 2, 3, 4], ..entries(0..64, 253) };
        assert_eq!(answer(&full, &full, 65_099).0, 9);
        assert_eq!(answer(&full, &full, 65_100), (0, full.bytes()));
        let halves =
            [Codes { header: vec![1, 2, 3, 4], ..entries(0..32, 253) }, Codes { header: vec![1, 2, 3, 4], ..entries(32..64, 253) }];
        assert_eq!(answer(&halves[1], &halves[0], 65_100), (0, full.bytes()));
    }

    #[test]
    fn room_to_the_byte() {
        let other = with(&[(2, 0x65, &[(1, 1, 1)])]);
        let exact = small().bytes().len() + 9;
        for room in [0, 1, exact - 1] {
            assert_eq!(answer(&small(), &other, room), (9, vec![]));
        }
        for room in [exact, exact + 1, 65_100] {
            let (number, written) = answer(&small(), &other, room);
            assert_eq!((number, written.len()), (0, exact));
        }
        let counts = join(&small().bytes(), &other.bytes(), exact).0.counts;
        assert_eq!(counts, [exact as u32, 0, 0]);
    }

    /// A table to be joined with `small` for each refusal.
    fn not_well_formed() -> Codes {
        with(&[(3, 0, &[])])
    }

    #[test]
    fn either_table_must_be_well_formed() {
        assert_eq!(answer(&not_well_formed(), &small(), 65_100).0, 8);
        assert_eq!(answer(&small(), &not_well_formed(), 65_100).0, 8);
        assert_eq!(join(&[], &[], 9).0, Answer::refusal(8));
        assert_eq!(join(&small().bytes(), &[], 9).0, Answer::refusal(8));
    }

    #[test]
    fn heads_must_be_the_same() {
        let heads: [(u8, &[u16]); 5] = [(0x14, &[0x99]), (0x13, &[]), (0x13, &[0x9A]), (0x13, &[0x99, 0x9A]), (0x13, &[0x0199])];
        for (layout, header) in heads {
            let other = Codes { layout, header: header.to_vec(), ..small() };
            assert_eq!(answer(&small(), &other, 65_100), (16, vec![]));
            assert_eq!(answer(&other, &small(), 65_100), (16, vec![]));
        }
    }

    #[test]
    fn one_scope_and_id_has_one_row() {
        // another low byte, another high byte, another kind
        for row in [(0x60, 0x37, 0), (0x60, 0x136, 0), (0x60, 0x36, 1)] {
            let other = with(&[(0, 0, &[row])]);
            assert_eq!(answer(&small(), &other, 65_100), (17, vec![]));
            assert_eq!(answer(&other, &small(), 65_100), (17, vec![]));
            // in another scope it is another row
            assert_eq!(answer(&small(), &with(&[(1, 0, &[row]), (2, 0, &[row])]), 65_100).0, 0);
        }
    }

    /// A pair that would be refused by both numbers of each two is refused by the one that comes first.
    #[test]
    fn refusals_come_in_order() {
        let one = Codes { scopes: [small().scopes, entries(0x100..0x130, 1).scopes].concat(), ..small() };
        let changed = |mut table: Codes, refusals: &[u32]| {
            if refusals.contains(&18) {
                table.scopes.extend(entries(0x200..0x220, 0).scopes);
            }
            if refusals.contains(&17) {
                table.scopes[0].rows[0].target += 1;
            }
            if refusals.contains(&16) {
                table.layout += 1;
            }
            if refusals.contains(&8) {
                table.scopes[1].rows = vec![Row { id: 0xFD, target: 0, kind: 0 }];
            }
            table
        };
        let order = [8, 16, 17, 18, 9];
        for (i, first) in order.iter().enumerate() {
            for second in &order[i..] {
                let other = changed(small(), &[*first, *second]);
                let room = if *second == 9 { 100 } else { 65_100 };
                assert_eq!(answer(&one, &other, room), (*first, vec![]), "{first} before {second}");
                assert_eq!(answer(&other, &one, room), (*first, vec![]), "{first} before {second}, the other way");
            }
        }
    }

    #[test]
    fn what_is_not_kept_is_seen() {
        let (one, other) = (small().bytes(), with(&[(1, 0, &[(1, 1, 1)])]).bytes());
        let (answer, written) = join(&one, &other, 100);
        let sees = |answer, written: &[u8]| kept(&one, &other, 100, answer, written).is_err();
        let with_length = |bytes: &[u8]| sees(Answer { number: 0, counts: [bytes.len() as u32, 0, 0] }, bytes);
        assert!(!sees(answer, &written));
        assert!(with_length(&one) && with_length(&other) && with_length(&written[1..]));
        let more = Codes { scopes: [Codes::parse(&written).unwrap().scopes, entries(0x70..0x71, 0).scopes].concat(), ..small() };
        assert!(with_length(&more.bytes()));
        assert!(sees(Answer { number: 0, counts: [1, 0, 0] }, &written) && sees(Answer::refusal(9), &[]) && sees(answer, &[]));
    }
}
