//! Values: numbers, UTF-16, singles as doubles, GUID text.

use super::Value;

pub const NOT_DEFAULT: Value = Value { mark: 1, low: 0, high: 0 };
pub const GUID: Value = Value { mark: 5, low: 0, high: 0 };
pub const TEXT: Value = Value { mark: 6, low: 0, high: 0 };
pub const BINARY: Value = Value { mark: 7, low: 0, high: 0 };
pub const LOOSE: Value = Value { mark: 8, low: 0, high: 0 };

pub fn boolean(b: u8) -> Value {
    Value { mark: 0, low: (b != 0) as u32, high: 0 }
}

pub fn short(v: i64) -> Value {
    Value { mark: 2, low: v as u32, high: 0 }
}

pub fn long(v: i64) -> Value {
    Value { mark: 3, low: v as u32, high: 0 }
}

pub fn double(bits: u64) -> Value {
    Value { mark: 4, low: bits as u32, high: (bits >> 32) as u32 }
}

/// The bytes as one number, the first byte lowest.
pub fn unsigned(bytes: &[u8]) -> u64 {
    bytes.iter().rev().fold(0, |sum, &b| sum * 256 + b as u64)
}

/// "one byte is unsigned, two bytes are signed, four are signed"
pub fn integer(bytes: &[u8]) -> Option<i64> {
    let v = unsigned(bytes.get(..4).unwrap_or(bytes)) as i64;
    match bytes.len() {
        1 => Some(v),
        2 => Some(if v >= 0x8000 { v - 0x1_0000 } else { v }),
        4 => Some(if v >= 0x8000_0000 { v - 0x1_0000_0000 } else { v }),
        _ => None,
    }
}

/// "even length and paired surrogates; no bytes at all is well formed"
pub fn is_utf16(bytes: &[u8]) -> bool {
    let mut pos = 0;
    while pos < bytes.len() {
        let Some(high) = bytes.get(pos + 1) else { return false };
        pos += 2;
        match high {
            0xD8..=0xDB => match bytes.get(pos + 1) {
                Some(0xDC..=0xDF) => pos += 2,
                _ => return false,
            },
            0xDC..=0xDF => return false,
            _ => {}
        }
    }
    true
}

/// "A character is a Unicode scalar value: for UTF-16 text a surrogate pair counts once": every unit but the second of a pair.
pub fn characters(bytes: &[u8]) -> usize {
    bytes.chunks_exact(2).filter(|unit| !matches!(unit[1], 0xDC..=0xDF)).count()
}

/// A single's bits as those of the double of the same value, by whole numbers alone.
pub fn widened(bits: u32) -> u64 {
    let sign = ((bits >> 31) as u64) << 63;
    let exponent = (bits >> 23 & 0xFF) as u64;
    let fraction = (bits & 0x7F_FFFF) as u64;
    let magnitude = match (exponent, fraction) {
        (0, 0) => 0,
        (0, _) => subnormal(fraction),
        (255, 0) => 0x7FF << 52,
        (255, _) => 0x7FF << 52 | 1 << 51 | fraction << 29,
        _ => (exponent + 1023 - 127) << 52 | fraction << 29,
    };
    sign | magnitude
}

/// A fraction without the leading one is doubled until it has it; each doubling takes one from the exponent.
fn subnormal(mut fraction: u64) -> u64 {
    let mut exponent = 1023 - 126;
    while fraction < 1 << 23 {
        fraction *= 2;
        exponent -= 1;
    }
    exponent << 52 | (fraction - (1 << 23)) << 29
}

/// GUID text: the order of the bytes, and the places of the dashes.
pub fn guid_text(b: &[u8]) -> String {
    let mut text = String::from("{");
    for (n, i) in [3, 2, 1, 0, 5, 4, 7, 6, 8, 9, 10, 11, 12, 13, 14, 15].into_iter().enumerate() {
        if [4, 6, 8, 10].contains(&n) {
            text.push('-');
        }
        text += &format!("{:02X}", b[i]);
    }
    text + "}"
}
