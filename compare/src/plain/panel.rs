//! The rules of panels: document 02's wish 11.

use super::{label, read_blob, Answer, ControlRow, PropertyRow, Rows};

const CONTROL_SOURCE: u32 = 0x001B;
const LEFT: u32 = 0x0036;
const TOP: u32 = 0x008D;
const WIDTH: u32 = 0x0096;
const HEIGHT: u32 = 0x002C;
const SHORT: u32 = 2;
const TEXT: u32 = 6;

/// The name of a type, as jetdb has it.
pub type TypeName = fn(u32) -> Option<&'static str>;

/// The rows as they are read, and the answer of the rules in the place of the reading's.
pub fn check(table: &[u8], stream: &[u8], words: [usize; 2], type_name: TypeName) -> Rows {
    let mut rows = read_blob(table, stream, words[0], words[1]);
    if rows.answer.number == 0 {
        let counts = broken(stream, &rows, type_name).map_or([1, 0, 0], |(row, rule)| [0, row, rule]);
        rows.answer = Answer { number: 0, counts };
    }
    rows
}

/// "the first control row that breaks one with the first rule broken in this order"
fn broken(stream: &[u8], rows: &Rows, type_name: TypeName) -> Option<(u32, u32)> {
    let mut names = Vec::new();
    for (n, row) in rows.controls.iter().enumerate() {
        let own = &rows.properties[row[4] as usize..][..row[5] as usize];
        let name = match row[1] {
            1 => label(row[2]).into_bytes(),
            _ => stream[row[2] as usize..][..row[3] as usize].to_vec(),
        };
        let rules = [
            type_name(row[0]).is_some(),
            row[1] == 0,
            !names.contains(&name),
            sourced(row, own, type_name),
            own.iter().all(placed),
            row[6] <= 7,
        ];
        if let Some(rule) = rules.iter().position(|kept| !kept) {
            return Some((n as u32, rule as u32 + 1));
        }
        names.push(name);
    }
    None
}

/// "each TextBox or ComboBox has exactly one property 0x001B, and that is Text (mark 6) of at least one byte"
fn sourced(row: &ControlRow, own: &[PropertyRow], type_name: TypeName) -> bool {
    if !matches!(type_name(row[0]), Some("TextBox" | "ComboBox")) {
        return true;
    }
    let mut sources = own.iter().filter(|p| p[0] == CONTROL_SOURCE);
    let only = sources.next();
    sources.next().is_none() && only.is_some_and(|p| p[1] == TEXT && p[5] >= 1)
}

/// "with the id of Left, Top, Width or Height is Short and those of Width and Height are not negative"
fn placed(p: &PropertyRow) -> bool {
    match p[0] {
        LEFT | TOP => p[1] == SHORT,
        WIDTH | HEIGHT => p[1] == SHORT && p[2] as i32 >= 0,
        _ => true,
    }
}
