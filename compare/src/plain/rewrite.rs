//! Wish 13 of document 02: an Access 2000 stream written anew in its shortest spelling. A tree is read by recursion, and written by another.

use super::u16_at;

/// An id and its value's bytes.
type Run<'a> = Vec<(u8, &'a [u8])>;

struct Entry<'a> {
    type_code: u16,
    run: Run<'a>,
    list: Option<Vec<Entry<'a>>>,
}

/// "Refusals: 5, 4, then 9", or the bytes written.
pub fn rewrite(s: &[u8], room: usize) -> Result<Vec<u8>, u32> {
    if s.len() > 16_777_216 {
        return Err(5);
    }
    let out = rewritten(s).ok_or(4u32)?;
    if out.len() > room {
        return Err(9);
    }
    Ok(out)
}

fn rewritten(s: &[u8]) -> Option<Vec<u8>> {
    let mut at = 10;
    let own = run(s, &mut at)?;
    let top = list(s, &mut at, 0)??;
    if at != s.len() {
        return None;
    }
    let mut out = s[..10].to_vec();
    put_run(&mut out, &own);
    put_list(&mut out, &top);
    Some(out)
}

fn run<'a>(s: &'a [u8], at: &mut usize) -> Option<Run<'a>> {
    let mut found = Vec::new();
    while let Some(&id) = s.get(*at).filter(|&&id| id <= 0xFC) {
        let told = match id {
            0..=0x2F => Some(0),
            0x30..=0x5F => Some(1),
            0x60..=0x7F => Some(2),
            0x80..=0xBC => Some(4),
            _ => None,
        };
        let (start, size) = match told {
            Some(size) => (*at + 1, size),
            None if *s.get(*at + 1)? == 0xFF => (*at + 4, u16_at(s, *at + 2)? as usize),
            None => (*at + 2, s[*at + 1] as usize),
        };
        found.push((id, s.get(start..start + size)?));
        *at = start + size;
    }
    Some(found)
}

/// What stands after a run: no list (the inner `None`), or a list, whose entries have this level.
fn list<'a>(s: &'a [u8], at: &mut usize, level: usize) -> Option<Option<Vec<Entry<'a>>>> {
    let head = *s.get(*at)?;
    *at += 1;
    let count = match head {
        0xFD => return Some(None),
        0xFE => 1,
        _ => {
            *at += 2;
            u16_at(s, *at - 2)?
        }
    };
    let mut entries = Vec::new();
    for _ in 0..count {
        if level > 255 {
            return None;
        }
        let type_code = u16_at(s, *at)?;
        *at += 2;
        let run = run(s, at)?;
        let list = list(s, at, level + 1)?;
        entries.push(Entry { type_code, run, list });
    }
    Some(Some(entries))
}

fn put_run(out: &mut Vec<u8>, run: &Run) {
    for &(id, value) in run {
        out.push(id);
        match value.len() {
            _ if id <= 0xBC => {}
            size @ 0..=254 => out.push(size as u8),
            size => {
                out.push(0xFF);
                out.extend((size as u16).to_le_bytes());
            }
        }
        out.extend(value);
    }
}

fn put_list(out: &mut Vec<u8>, entries: &[Entry]) {
    if entries.len() == 1 {
        out.push(0xFE);
    } else {
        out.push(0xFF);
        out.extend((entries.len() as u16).to_le_bytes());
    }
    for entry in entries {
        out.extend(entry.type_code.to_le_bytes());
        put_run(out, &entry.run);
        match &entry.list {
            None => out.push(0xFD),
            Some(entries) => put_list(out, entries),
        }
    }
}
