//! Long streams of either layout and of TypeInfo, each made to a number of controls or to an exact number of bytes.

use crate::cases::build::*;
use crate::cases::rng::Rng;

/// How many controls one section of these streams has at most.
const SECTION: usize = 10_000;

const GUID: [u8; 16] = [0xF0, 0xE1, 0xD2, 0xC3, 0xB4, 0xA5, 0x96, 0x87, 0x78, 0x69, 0x5A, 0x4B, 0x3C, 0x2D, 0x1E, 0x0F];

fn little(n: usize) -> [u8; 2] {
    (n as u16).to_le_bytes()
}

// ---- Access 2000

fn short2000(id: u8, n: usize) -> Vec<u8> {
    let [a, b] = little(n);
    vec![id, a, b]
}

fn long2000(id: u8, n: u32) -> Vec<u8> {
    [&[id][..], &n.to_le_bytes()].concat()
}

fn text2000(id: u8, text: &str) -> Vec<u8> {
    bytes2000(id, &utf16(text))
}

/// The place and the size of a control.
fn place2000(n: usize) -> Vec<u8> {
    [short2000(0x60, 60 + n % 7 * 900), short2000(0x61, 120 + n % 500 * 24), short2000(0x62, 1800), short2000(0x63, 240)].concat()
}

fn label2000(n: usize) -> Vec<u8> {
    let fonts = [vec![0x38, 8], text2000(0xDE, "Tahoma"), bytes2000(0xEA, &GUID)].concat();
    [vec![0x64, 0], place2000(n), text2000(0xDC, &format!("lblFeeder{n}")), text2000(0xDD, &format!("Feeder {n}")), fonts, vec![0xFD]]
        .concat()
}

fn text_box2000(n: usize) -> Vec<u8> {
    let look = [vec![0x01], vec![0x3C, 8], long2000(0x9D, 0x00FF_FFFF), text2000(0xE8, "Tahoma"), bytes2000(0xFA, &GUID)].concat();
    let texts = [text2000(0xDC, &format!("txtVoltage{n}")), text2000(0xDD, &format!("Voltage{n}"))].concat();
    [vec![0x6D, 0], place2000(n), texts, look, vec![0xFD]].concat()
}

fn control2000(n: usize) -> Vec<u8> {
    if n.is_multiple_of(2) {
        label2000(n)
    } else {
        text_box2000(n)
    }
}

/// The object's own properties, with so many flags more.
fn object2000(flags: usize) -> Vec<u8> {
    let own = [short2000(0x63, 7200), bytes2000(0xD0, &GUID), text2000(0xDC, "Relays"), text2000(0xDD, "Relay room")].concat();
    [head2000(0x96), vec![0x00; flags], own].concat()
}

/// A form of so many controls, labels and text boxes in turn, in as few sections as hold them; `flags` flags on the form itself.
pub fn form2000(controls: usize, flags: usize) -> Vec<u8> {
    let mut s = object2000(flags);
    s.extend(list2000(controls.div_ceil(SECTION) as u16, true));
    for first in (0..controls).step_by(SECTION) {
        let count = SECTION.min(controls - first);
        s.extend([&[0x98, 0][..], &short2000(0x60, 3000), &text2000(0xDF, "Detail"), &list2000(count as u16, true)].concat());
        (first..first + count).for_each(|n| s.extend(control2000(n)));
    }
    s
}

/// Nothing but flags.
pub fn flags2000(flags: usize) -> Vec<u8> {
    let all = (0..flags).map(|n| (n % 0x30) as u8).collect();
    [head2000(0x96), all, list2000(0, true)].concat()
}

/// So many values of 65,535 bytes on the form itself, which no list follows but an empty one; and `flags` flags.
pub fn values2000(values: usize, flags: usize) -> Vec<u8> {
    let value = bytes2000(0xEA, &[0x41; 65_535]);
    [head2000(0x96), vec![0x00; flags], value.repeat(values), list2000(0, true)].concat()
}

/// So many entries in each other, the last with an empty list.
pub fn nested2000(depth: usize) -> Vec<u8> {
    let entry = |n| [vec![0x7B, 0], place2000(n), text2000(0xDC, &format!("tab{n}"))].concat();
    let entries: Vec<u8> = (0..depth).flat_map(|n| [vec![0xFE], entry(n)].concat()).collect();
    [object2000(0), entries, list2000(0, true)].concat()
}

// ---- later

fn node_of(type_code: u16, properties: &[(u16, u32, Vec<u8>)], trailer: u32) -> Vec<u8> {
    let mut s = node_later(type_code);
    for (n, (id, kind, value)) in properties.iter().enumerate() {
        let last = n + 1 == properties.len();
        s.extend(property_later(*id, *kind, value, if last { trailer } else { 1 }));
    }
    s
}

fn control_properties(n: usize) -> Vec<(u16, u32, Vec<u8>)> {
    let number = |id, n: usize| (id, 0x02, little(n).to_vec());
    let place = [number(0x36, 60 + n % 7 * 900), number(0x8D, 120), number(0x96, 1800), number(0x2C, 240)];
    let name = (0x14, 0x0A, utf16(&format!("txtVoltage{n}")));
    let rest = [(0x1B, 0x0A, utf16(&format!("Voltage{n}"))), (0x22, 0x0A, utf16("Tahoma")), (0x178, 0x09, GUID.to_vec())];
    [&place[..], &[(0x19, 0x01, Vec::new()), (0x08, 0x04, vec![0xFF; 4]), name], &rest].concat()
}

/// A tree of so many controls, in as few sections as hold them; the object has a binary value of `filler` bytes.
pub fn tree(controls: usize, filler: usize) -> Vec<u8> {
    let mut s = [head_later(), property_later(0xBD, 0x0B, &vec![0x5A; filler], 255)].concat();
    s.extend(little(controls.div_ceil(SECTION)));
    for first in (0..controls).step_by(SECTION) {
        let count = SECTION.min(controls - first);
        s.extend(node_of(0x98, &[(0x14, 0x0A, utf16("Detail"))], 255));
        s.extend(little(count));
        (first..first + count).for_each(|n| s.extend(node_of(0x6D, &control_properties(n), 253)));
    }
    s
}

/// So many nodes in each other.
pub fn nested_later(depth: usize) -> Vec<u8> {
    let mut s = [head_later(), property_later(0x11, 0x01, &[], 254)].concat();
    for n in 1..=depth {
        s.extend(node_of(0x7B, &control_properties(n), if n < depth { 254 } else { 253 }));
    }
    s
}

/// One value of so many bytes and nothing else.
pub fn value(kind: u32, bytes: Vec<u8>) -> Vec<u8> {
    [head_later(), property_later(0xBD, kind, &bytes, 253)].concat()
}

/// A stream of so many bytes that is no tree: controls with their names first, then `noise` bytes in front of the next.
pub fn scan(bytes: usize, noise: usize) -> Vec<u8> {
    let mut rng = Rng::new(7);
    let mut s = [head_later(), property_later(0xBD, 0x0B, &[1, 2, 3], 1), vec![0xEE; 30]].concat();
    let mut n = 0;
    while s.len() < bytes {
        s.extend(property_later(0x14, 0x0A, &utf16(&format!("txtVoltage{n}")), 1));
        s.extend(property_later(0x1B, 0x0A, &utf16(&format!("Voltage{n}")), 1));
        s.extend(property_later(0x36, 0x02, &little(n), 253));
        s.extend(rng.bytes(noise));
        n += 1;
    }
    s.truncate(bytes);
    s
}

// ---- TypeInfo

/// So many names, and a last one that is `filler` bytes longer.
pub fn type_info(names: usize, filler: usize) -> Vec<u8> {
    let mut s = type_info_head(names as u32);
    for n in 0..names {
        s.extend(type_info_entry(0x126D, n as u32));
        s.extend(format!("txtVoltage{n}").bytes());
        s.extend(vec![b'x'; if n + 1 == names { filler } else { 0 }]);
        s.extend(if n % 8 == 0 { format!("\0Voltage ({n})\0") } else { "\0\0".to_string() }.bytes());
    }
    s
}

// ---- to an exact size

/// What `make` gives for the most parts that fit into `bytes`, filled up to just so many.
pub fn filled(bytes: usize, make: impl Fn(usize, usize) -> Vec<u8>) -> Vec<u8> {
    let each = (make(1000, 0).len() - make(500, 0).len()) / 500;
    let mut parts = bytes / each;
    let mut least = make(parts, 0);
    while least.len() > bytes {
        parts -= (least.len() - bytes).div_ceil(each);
        least = make(parts, 0);
    }
    make(parts, bytes - least.len())
}
