//! The parts that streams are put together from.

/// The ten leading bytes of an Access 2000 stream: 0x96 is a form, 0x97 a report.
pub fn head2000(object: u8) -> Vec<u8> {
    vec![0x13, 0, 0, 0, 0, 0, 0, 0, object, 0]
}

/// The length of a value: one byte, or 0xFF and two.
pub fn length2000(n: usize, long: bool) -> Vec<u8> {
    if long || n > 254 {
        let [a, b] = (n as u16).to_le_bytes();
        vec![0xFF, a, b]
    } else {
        vec![n as u8]
    }
}

/// An id above 0xBC with its bytes, in the short spelling where there is one.
pub fn bytes2000(id: u8, value: &[u8]) -> Vec<u8> {
    [vec![id], length2000(value.len(), false), value.to_vec()].concat()
}

/// The head of a list: 0xFE for one, or 0xFF and a count.
pub fn list2000(count: u16, long: bool) -> Vec<u8> {
    if count == 1 && !long {
        vec![0xFE]
    } else {
        let [a, b] = count.to_le_bytes();
        vec![0xFF, a, b]
    }
}

pub fn utf16(text: &str) -> Vec<u8> {
    text.encode_utf16().flat_map(u16::to_le_bytes).collect()
}

/// The fourteen leading bytes of a later stream.
pub fn head_later() -> Vec<u8> {
    vec![0x01, 0, 0, 0, 0x0B, 0, 0, 0, 0x96, 0, 0, 0, 0, 0]
}

/// A property of a later stream.
pub fn property_later(id: u16, kind: u32, value: &[u8], trailer: u32) -> Vec<u8> {
    let mut out = id.to_le_bytes().to_vec();
    out.extend(kind.to_le_bytes());
    out.extend([0xB0, 0xB1, 0xB2, 0xB3]);
    out.extend((value.len() as u32).to_le_bytes());
    out.extend(value);
    out.extend(trailer.to_le_bytes());
    out
}

/// The type of a node and the four bytes behind it.
pub fn node_later(type_code: u16) -> Vec<u8> {
    [&type_code.to_le_bytes()[..], &[0xA0, 0xA1, 0xA2, 0xA3]].concat()
}

/// The header of TypeInfo.
pub fn type_info_head(count: u32) -> Vec<u8> {
    let mut out = vec![0xF7, 0xEA, 0xCD, 0xAC];
    out.extend([1, 0, 0, 0, 2, 0, 0, 0]);
    out.extend(count.to_le_bytes());
    out.extend([0x60; 16]);
    out
}

/// An entry of TypeInfo up to its names.
pub fn type_info_entry(type_code: u16, index: u32) -> Vec<u8> {
    [&type_code.to_le_bytes()[..], &[0x50, 0x51], &index.to_le_bytes()].concat()
}
