//! The later layout, as a tree and as a scan.

use super::value::{self, is_utf16};
use super::{u16_at, u32_at, Control, Name, Property, Reading, Shape, Value};

struct Group {
    properties: Vec<Property>,
    stop: usize,
    trailer: Option<u32>,
}

/// A node as stored, with its level; the nodes of a stream stand in preorder.
struct Node {
    level: usize,
    type_code: u16,
    properties: Vec<Property>,
    children: u16,
}

const LEVELS: usize = 256;
const NAME: [u8; 6] = [0x14, 0x00, 0x0A, 0x00, 0x00, 0x00];

pub fn reading(s: &[u8]) -> Reading {
    if s.len() < 14 {
        return Reading { shape: Shape::Short, own: Vec::new(), controls: Vec::new() };
    }
    let own = group(s, 14, s.len());
    let (shape, controls) = match nodes(s, &own) {
        Some(nodes) => (Shape::Tree, reported(nodes)),
        None => (Shape::Scan, scan(s, own.stop)),
    };
    Reading { shape, own: own.properties, controls }
}

// ---- groups

fn group(s: &[u8], start: usize, limit: usize) -> Group {
    let mut found = Group { properties: Vec::new(), stop: start, trailer: None };
    while let Some((property, trailer)) = property_at(s, found.stop, limit) {
        found.stop = property.start + property.length + 4;
        found.properties.push(property);
        if (253..=255).contains(&trailer) {
            found.trailer = Some(trailer);
            break;
        }
    }
    found
}

/// The property at `at` and its trailer, if all of it ends by `limit`.
fn property_at(s: &[u8], at: usize, limit: usize) -> Option<(Property, u32)> {
    let start = at + 14;
    let length = u32_at(s, at + 10)? as u64;
    if start as u64 + length + 4 > limit as u64 {
        return None;
    }
    let length = length as usize;
    let value = entry_value(u32_at(s, at + 2)?, &s[start..start + length]);
    let property = Property { at, id: u16_at(s, at)?, value, start, length };
    Some((property, u32_at(s, start + length)?))
}

fn entry_value(kind: u32, bytes: &[u8]) -> Value {
    match (kind, bytes.len()) {
        (0x01, 0) => value::NOT_DEFAULT,
        (0x01, 1) => value::boolean(bytes[0]),
        (0x01 | 0x03 | 0x04, 1 | 2 | 4) => value::long(value::integer(bytes).unwrap()),
        (0x02, 1 | 2 | 4) => match value::integer(bytes).unwrap() {
            v @ -0x8000..=0x7FFF => value::short(v),
            _ => value::BINARY,
        },
        (0x06, 4) => value::double(value::widened(value::unsigned(bytes) as u32)),
        (0x08, 8) => value::double(value::unsigned(bytes)),
        (0x09, 16) => value::GUID,
        (0x0A | 0x0C, _) if is_utf16(bytes) => value::TEXT,
        (0x0A | 0x0C, _) => value::LOOSE,
        _ => value::BINARY,
    }
}

// ---- the tree

/// The nodes behind the object's group, if they use up the stream.
fn nodes(s: &[u8], own: &Group) -> Option<Vec<Node>> {
    let (count, mut pos) = children(s, own)?;
    let mut left = vec![count];
    let mut nodes = Vec::new();
    while let Some(count) = left.pop() {
        if count == 0 {
            continue;
        }
        left.push(count - 1);
        let level = left.len() - 1;
        if level == LEVELS {
            return None;
        }
        let type_code = u16_at(s, pos)?;
        // The four bytes passed over are there if the group's first property is.
        let found = group(s, pos + 6, s.len());
        let (children, behind) = children(s, &found)?;
        left.push(children);
        pos = behind;
        nodes.push(Node { level, type_code, properties: found.properties, children });
    }
    (pos == s.len()).then_some(nodes)
}

/// How many children follow a group, and where they start.
fn children(s: &[u8], group: &Group) -> Option<(u16, usize)> {
    match group.trailer? {
        253 => Some((0, group.stop)),
        254 => Some((1, group.stop)),
        _ => Some((u16_at(s, group.stop)?, group.stop + 2)),
    }
}

fn reported(nodes: Vec<Node>) -> Vec<Control> {
    let mut controls = Vec::new();
    let mut shown = false;
    for node in nodes {
        if node.level == 0 {
            shown = (0x98..=0x9E).contains(&node.type_code) || node.children > 0;
        }
        if shown {
            let name = name_in_tree(&node.properties);
            controls.push(Control { level: node.level, type_code: node.type_code, name, properties: node.properties });
        }
    }
    controls
}

// ---- the scan

fn scan(s: &[u8], start: usize) -> Vec<Control> {
    let mut matches = Vec::new();
    let mut pos = start;
    while pos + 6 <= s.len() {
        if s[pos..].starts_with(&NAME) {
            matches.push(pos);
            pos += 6;
        } else {
            pos += 1;
        }
    }
    let ends = matches.iter().skip(1).copied().chain([s.len()]);
    let groups = matches.iter().zip(ends).map(|(&from, end)| group(s, from, end).properties);
    groups.filter_map(|properties| Some(Control { level: 0, type_code: 0, name: text(properties.first()?), properties })).collect()
}

// ---- names

/// "its first property 0x0014 if that is Text (mark 6 or 8); otherwise, in the tree, it is numbered"
fn name_in_tree(properties: &[Property]) -> Name {
    match properties.iter().find(|p| p.id == 0x0014) {
        Some(p) if [6, 8].contains(&p.value.mark) => text(p),
        _ => Name::Numbered,
    }
}

/// A Text as a name. "every scanned control has a Text name first"
fn text(p: &Property) -> Name {
    match p.value.mark {
        6 => Name::Text { start: p.start, length: p.length },
        _ => Name::Loose { start: p.start, length: p.length },
    }
}
