//! Pairs of code tables to be joined: alike but for some rows, with other heads, crowded, broken; rooms around what is needed.

use super::random::{codes, damage, type_code, TELLING};
use super::rng::Rng;
use super::{Case, Kind, Sink};
use crate::listing::BUFFER;
use crate::oracle;
use crate::plain::codes::{Codes, Row, Scope};
use crate::plain::join::join;
use std::collections::BTreeSet;

impl Case {
    /// Two tables that are joined into so many bytes.
    pub fn join(family: &'static str, one: &[u8], other: &[u8], room: usize) -> Case {
        Case::other(family, Kind::Join, [room as u32, one.len() as u32], [one, other].concat())
    }

    /// The two tables of a pair.
    pub fn pair(&self) -> (&[u8], &[u8]) {
        self.bytes.split_at(self.bytes.len().min(self.numbers[1] as usize))
    }
}

// ---- tables by hand

/// A scope as its kind, its code and its rows: id, target, kind.
type Contents<'a> = &'a [(u8, u16, &'a [(u8, u16, u8)])];

pub fn table(layout: u8, header: &[u16], contents: Contents) -> Codes {
    let row = |&(id, target, kind): &(u8, u16, u8)| Row { id, target, kind };
    let scope = |&(kind, code, rows): &(u8, u16, &[(u8, u16, u8)])| Scope { kind, code, rows: rows.iter().map(row).collect() };
    Codes { layout, header: header.to_vec(), scopes: contents.iter().map(scope).collect() }
}

/// Entry scopes of these codes, each with so many rows.
pub fn entries(of: std::ops::Range<u16>, rows: u8) -> Codes {
    let scope = |code| Scope { kind: 2, code, rows: (0..rows).map(|id| Row { id, target: code, kind: id % 5 }).collect() };
    Codes { layout: 0x13, header: vec![0x99], scopes: of.map(scope).collect() }
}

/// Every two of some small tables, with room to the byte and one byte less; 64 scopes and 65; jetdb's own table.
pub fn telling(out: Sink) {
    let tables = [
        table(0x13, &[], &[]),
        table(0x13, &[0x99], &[]),
        table(0x13, &[], &[(0, 0, &[])]),
        table(0x13, &[], &[(1, 0, &[]), (2, 0, &[(0, 1, 0)])]),
        table(0x13, &[], &[(0, 0, &[(0x60, 0x36, 0)])]),
        table(0x13, &[], &[(0, 0, &[(0x60, 0x36, 0), (0xFC, 0x7FFF, 4)])]),
        table(0x13, &[], &[(0, 0, &[(0x60, 0x136, 0)])]),
        table(0x13, &[], &[(2, 0x00FF, &[(0, 1, 0)]), (2, 0x0200, &[])]),
        table(0x13, &[], &[(2, 0x0100, &[(0xDC, 0x14, 1)]), (2, 0x0200, &[(0xDC, 0x14, 2)])]),
        table(0x14, &[], &[(0, 0, &[(0x60, 0x36, 0)])]),
        table(0x13, &[], &[(3, 0, &[])]),
        Codes { header: vec![], ..entries(0..64, 1) },
        oracle::codes(),
    ];
    for one in tables.iter().map(Codes::bytes) {
        for other in tables.iter().map(Codes::bytes) {
            let exact = join(&one, &other, usize::MAX).1.len();
            for room in [exact, exact.saturating_sub(1)] {
                out(Case::join("joins", &one, &other, room));
            }
        }
    }
    for many in [64, 65] {
        out(Case::join("joins", &entries(0..40, 2).bytes(), &entries(30..many, 2).bytes(), 1024));
    }
}

// ---- tables by chance

/// One random pair that a batch file takes.
pub fn random(rng: &mut Rng) -> Case {
    loop {
        let case = pair(rng, 4);
        if case.bytes.len() <= BUFFER && case.numbers[0] as usize <= BUFFER {
            return case;
        }
    }
}

/// One random pair of any size; the bodies grow with `most`, the rows that are added to a scope of a large table.
pub fn pair(rng: &mut Rng, most: usize) -> Case {
    let mut one = codes(rng);
    if rng.one_in(4) {
        crowd(rng, &mut one, most);
    }
    let mut other = if rng.one_in(6) { Codes { scopes: codes(rng).scopes, ..one.clone() } } else { relative(rng, &one) };
    for chance in [2, 2, 3] {
        if rng.one_in(chance) {
            add(rng, &mut other);
        }
    }
    if rng.one_in(6) {
        crowd(rng, &mut other, most);
    }
    agree(&one, &mut other);
    if rng.one_in(6) {
        change_row(rng, &one, &mut other);
    }
    if rng.one_in(8) {
        change_head(rng, &mut other);
    }
    let mut tables = [one.bytes(), other.bytes()];
    if rng.one_in(8) {
        let which = rng.below(2);
        tables[which] = broken(rng, [one, other][which].clone());
    }
    if rng.one_in(2) {
        tables.reverse();
    }
    let room = room(rng, &tables[0], &tables[1]);
    Case::join("random joins", &tables[0], &tables[1], room)
}

/// The table without some of its scopes and rows.
fn relative(rng: &mut Rng, table: &Codes) -> Codes {
    let mut kept = table.clone();
    kept.scopes.retain(|_| !rng.one_in(4));
    for scope in &mut kept.scopes {
        match rng.below(6) {
            0 => scope.rows.clear(),
            1 | 2 => {}
            _ => scope.rows.retain(|_| !rng.one_in(3)),
        }
    }
    kept
}

/// A scope or a row more, where the table lacks it.
fn add(rng: &mut Rng, table: &mut Codes) {
    let (kind, code) = if rng.one_in(3) { (rng.below(2) as u8, 0) } else { (2, type_code(rng)) };
    put_scope(table, kind, code);
    for _ in 0..rng.below(4) {
        let at = rng.below(table.scopes.len());
        put_row(rng, &mut table.scopes[at]);
    }
}

fn put_scope(table: &mut Codes, kind: u8, code: u16) {
    if let Err(at) = table.scopes.binary_search_by_key(&(kind, code), |s| (s.kind, s.code)) {
        table.scopes.insert(at, Scope { kind, code, rows: Vec::new() });
    }
}

fn put_row(rng: &mut Rng, scope: &mut Scope) {
    let any = rng.byte() % 0xFD;
    let id = rng.pick(&[any, any, any, 0x00, 0xFC]);
    if let Err(at) = scope.rows.binary_search_by_key(&id, |r| r.id) {
        scope.rows.insert(at, Row { id, target: rng.next() as u16 & 0x7FFF, kind: rng.below(5) as u8 });
    }
}

/// Scopes up to 64 or a few less; now and then with rows to the last id.
fn crowd(rng: &mut Rng, table: &mut Codes, most: usize) {
    let wanted = 64 - rng.pick(&[0, 0, 1, 2, 10, 30]);
    let from = rng.pick(&[0, 0xE0, 0x0FF0]);
    for code in from.. {
        if table.scopes.len() >= wanted {
            break;
        }
        put_scope(table, 2, code);
    }
    for _ in 0..rng.below(1 + most * 64) {
        let at = rng.below(table.scopes.len());
        put_row(rng, &mut table.scopes[at]);
    }
}

/// What both have a row for says the same in both.
fn agree(one: &Codes, other: &mut Codes) {
    for scope in &mut other.scopes {
        for row in &mut scope.rows {
            *row = one.row(scope.kind, scope.code, row.id).unwrap_or(row).clone();
        }
    }
}

/// A row that both have, or that the other gets, says something else there.
fn change_row(rng: &mut Rng, one: &Codes, other: &mut Codes) {
    let all: Vec<(u8, u16, &Row)> = one.scopes.iter().flat_map(|s| s.rows.iter().map(|r| (s.kind, s.code, r))).collect();
    if all.is_empty() {
        return;
    }
    let (kind, code, row) = rng.pick(&all);
    put_scope(other, kind, code);
    let scope = other.scopes.iter_mut().find(|s| (s.kind, s.code) == (kind, code)).unwrap();
    scope.rows.retain(|r| r.id != row.id);
    let at = scope.rows.partition_point(|r| r.id < row.id);
    let changed = match rng.below(3) {
        0 => Row { target: row.target ^ 1 << rng.below(8), ..row.clone() },
        1 => Row { target: row.target ^ 0x100 << rng.below(7), ..row.clone() },
        _ => Row { kind: (row.kind + 1 + rng.below(4) as u8) % 5, ..row.clone() },
    };
    scope.rows.insert(at, changed);
}

fn change_head(rng: &mut Rng, table: &mut Codes) {
    match rng.below(4) {
        0 => table.layout ^= 1 << rng.below(8),
        1 if !table.header.is_empty() => {
            let at = rng.below(table.header.len());
            table.header.remove(at);
        }
        2 if !table.header.is_empty() => {
            let at = rng.below(table.header.len());
            table.header[at] ^= 1 << rng.below(16);
        }
        _ => table.header.push(rng.next() as u16),
    }
    table.header.sort();
    table.header.dedup();
    table.header.truncate(4);
}

/// The bytes of a table with one rule of document 01 broken, or with any damage.
fn broken(rng: &mut Rng, mut table: Codes) -> Vec<u8> {
    let scopes = table.scopes.len();
    match rng.below(10) {
        0 if scopes > 1 => table.scopes.swap(0, scopes - 1),
        1 if scopes > 0 => table.scopes.push(table.scopes[scopes - 1].clone()),
        2 => table.scopes.push(Scope { kind: 3, code: 0, rows: Vec::new() }),
        3 => table.scopes.insert(0, Scope { kind: rng.below(2) as u8, code: 1, rows: Vec::new() }),
        4 => table.header.extend([5, 5]),
        5 => (0..65u16).for_each(|code| put_scope(&mut table, 2, code)),
        6 if scopes > 0 => break_row(rng, &mut table.scopes[scopes - 1].rows),
        _ => {
            let mut bytes = table.bytes();
            damage(rng, &mut bytes, &TELLING);
            return bytes;
        }
    }
    table.bytes()
}

fn break_row(rng: &mut Rng, rows: &mut Vec<Row>) {
    let last = rows.last().cloned().unwrap_or(Row { id: 0, target: 0, kind: 0 });
    rows.push(match rng.below(4) {
        0 => last,
        1 => Row { id: 0xFD, ..last },
        2 => Row { id: 0xFC, target: 0x8000, kind: 0 },
        _ => Row { id: 0xFC, target: 0, kind: 5 },
    });
}

/// Room around what the result takes; where there is none, around what both take together.
fn room(rng: &mut Rng, one: &[u8], other: &[u8]) -> usize {
    let (answer, written) = join(one, other, usize::MAX);
    let needed = if answer.number == 0 { written.len() } else { one.len() + other.len() };
    match rng.below(12) {
        0 => rng.below(needed + 1),
        1 => needed.saturating_sub(1),
        2 | 3 => (needed + rng.below(9)).saturating_sub(4),
        4 => one.len().max(other.len()),
        5 | 6 => needed,
        7 => needed + rng.below(600),
        _ => needed + 1 + rng.below(8),
    }
}

// ---- smaller pairs

/// A scope, or with an id one of its rows.
type Place = (u8, u16, Option<u8>);

/// The pair with some scopes and rows left out, of both tables or of one: many at first, then fewer.
pub fn less(case: &Case) -> Vec<Case> {
    let (one, other) = case.pair();
    let (Some(one), Some(other)) = (Codes::parse(one), Codes::parse(other)) else { return Vec::new() };
    let places: Vec<Place> = places(&one).chain(places(&other)).collect::<BTreeSet<_>>().into_iter().collect();
    let sizes = std::iter::successors(Some(places.len()), |size| Some(size / 2)).take_while(|size| *size > 0);
    let some = sizes.flat_map(|size| places.chunks(size));
    let pairs = some.flat_map(|some| {
        let (less, lesser) = (without(&one, some), without(&other, some));
        [(less.clone(), lesser.clone()), (less, other.clone()), (one.clone(), lesser)]
    });
    let cases = pairs.map(|(one, other)| Case::join(case.family, &one.bytes(), &other.bytes(), case.numbers[0] as usize));
    cases.filter(|less| less.bytes.len() < case.bytes.len()).collect()
}

fn places(table: &Codes) -> impl Iterator<Item = Place> + '_ {
    table.scopes.iter().flat_map(|s| [(s.kind, s.code, None)].into_iter().chain(s.rows.iter().map(|r| (s.kind, s.code, Some(r.id)))))
}

fn without(table: &Codes, some: &[Place]) -> Codes {
    let mut table = table.clone();
    table.scopes.retain(|s| some.binary_search(&(s.kind, s.code, None)).is_err());
    for scope in &mut table.scopes {
        scope.rows.retain(|r| some.binary_search(&(scope.kind, scope.code, Some(r.id))).is_err());
    }
    table
}
