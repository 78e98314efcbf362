
/// A scope of the tables: document 01's kind, its code, and its rows of id, target and kind.
pub(crate) type ScopeRows = (u8, u16, Vec<(u8, u16, u8)>);

/// Document 01's numbers for the kinds of a value.
fn kind_number(kind: Kind) -> u8 {
    match kind {
        Kind::Number => 0,
        Kind::Text => 1,
        Kind::Guid => 2,
        Kind::Double => 3,
        Kind::Bytes => 4,
    }
}

fn scope_rows(kind: u8, code: u16, table: Table) -> ScopeRows {
    let rows = table.iter().map(|&(id, target, k)| (id, target, kind_number(k))).collect();
    (kind, code, rows)
}

/// `FORM`, `REPORT` and `ENTRY_TABLES` in the order of the file.
pub(crate) fn scopes() -> Vec<ScopeRows> {
    let mut all = vec![scope_rows(0, 0, FORM), scope_rows(1, 0, REPORT)];
    all.extend(ENTRY_TABLES.iter().map(|&(code, table)| scope_rows(2, code, table)));
    all
}

/// `HEADER_FOOTER`, code by code.
pub(crate) fn header_codes() -> Vec<u16> {
    HEADER_FOOTER.collect()
}

/// `Reader::byte` and `Reader::value`: the id at `pos` and the place behind its value.
pub(crate) fn property_step(data: &[u8], pos: usize) -> Option<(u8, usize)> {
    let mut reader = Reader { data, pos };
    let id = reader.byte()?;
    reader.value(id)?;
    Some((id, reader.pos))
}

/// The stored types of the reported entries, in output order: `Reader`'s tree, `is_section`'s choice.
pub(crate) fn stored_types(data: &[u8]) -> Option<Vec<u16>> {
    Some(reported(data)?.into_iter().map(|(type_code, _)| type_code).collect())
}

/// The level of each reported entry and the number of the entry that holds it, by the same tree.
pub(crate) fn nesting(data: &[u8]) -> Option<Vec<(u32, Option<u32>)>> {
    Some(reported(data)?.into_iter().map(|(_, nested)| nested).collect())
}

type Nested = (u16, (u32, Option<u32>));

fn reported(data: &[u8]) -> Option<Vec<Nested>> {
    let mut reader = Reader { data, pos: 10 };
    reader.props()?;
    let entries = reader.list(0)?;
    let mut all = Vec::new();
    for top in entries.iter().filter(|e| is_section(e)) {
        push_nested(top, 0, None, &mut all);
    }
    Some(all)
}

fn push_nested(entry: &Entry, level: u32, parent: Option<u32>, all: &mut Vec<Nested>) {
    let own = all.len() as u32;
    all.push((entry.type_code, (level, parent)));
    for child in entry.children.iter().flatten() {
        push_nested(child, level + 1, Some(own), all);
    }
}
