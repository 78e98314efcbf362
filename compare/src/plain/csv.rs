//! Comma-separated text: document 02's wish 7, and the rules of RFC 4180 one by one.

/// `record *(CRLF record) [CRLF]`, each record of five fields; `None` where the text is no such.
pub fn records(text: &[u8]) -> Option<Vec<Vec<Vec<u8>>>> {
    let mut records = Vec::new();
    let mut rest = text;
    loop {
        let (one, after) = record(rest)?;
        records.push(one);
        rest = match after {
            [] => break,
            _ => after.strip_prefix(b"\r\n")?,
        };
        if rest.is_empty() {
            break;
        }
    }
    records.iter().all(|record| record.len() == 5).then_some(records)
}

/// `field *(COMMA field)`, and what stands after it.
fn record(text: &[u8]) -> Option<(Vec<Vec<u8>>, &[u8])> {
    let (first, mut rest) = field(text)?;
    let mut fields = vec![first];
    while let Some(after) = rest.strip_prefix(b",") {
        let (next, end) = field(after)?;
        fields.push(next);
        rest = end;
    }
    Some((fields, rest))
}

fn field(text: &[u8]) -> Option<(Vec<u8>, &[u8])> {
    match text.strip_prefix(b"\"") {
        Some(inside) => escaped(inside),
        None => {
            let length = text.iter().position(|byte| b",\"\r\n".contains(byte)).unwrap_or(text.len());
            Some((text[..length].to_vec(), &text[length..]))
        }
    }
}

/// What stands in quotes, up to the quote that isn't one of two.
fn escaped(mut text: &[u8]) -> Option<(Vec<u8>, &[u8])> {
    let mut field = Vec::new();
    loop {
        let quote = text.iter().position(|&byte| byte == b'"')?;
        field.extend(&text[..quote]);
        text = &text[quote + 1..];
        match text.strip_prefix(b"\"") {
            Some(after) => {
                field.push(b'"');
                text = after;
            }
            None => return Some((field, text)),
        }
    }
}
