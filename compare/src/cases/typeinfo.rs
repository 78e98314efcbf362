//! TypeInfo cases: all short ones over telling parts, and random ones.

use super::build::{type_info_entry, type_info_head};
use super::random::damage;
use super::rng::Rng;
use super::{strings, Case, Sink};
use crate::plain::typeinfo::WORDS;

/// Every header length, every bit of the first four bytes, and counts around what fits.
pub fn headers(out: Sink) {
    let whole = [type_info_head(1), type_info_entry(0x64, 7), b"Ab\0\0".to_vec()].concat();
    for length in 0..=whole.len() {
        out(Case::type_info("headers", whole[..length].to_vec()));
    }
    for bit in 0..32 {
        let mut s = whole.clone();
        s[bit / 8] ^= 1 << (bit % 8);
        out(Case::type_info("headers", s));
    }
    for length in 32..=72 {
        for count in [0, 1, 2, 3, 4, 5, 6, 0x1000_0001, 0x2000_0000, 0x2000_0001, 0x8000_0000, 0xFFFF_FFFF] {
            let mut s = type_info_head(count);
            s.resize(length, 0x41);
            out(Case::type_info("headers", s));
        }
    }
    for type_code in 0..=0xFFFF {
        let names = b"A\0\0".to_vec();
        out(Case::type_info("types", [type_info_head(2), type_info_entry(type_code, 1), names, vec![0x43; 48]].concat()));
    }
}

/// Every string of at most `longest` parts behind a header with count 0 to 3.
pub fn tokens(longest: usize, out: Sink) {
    let heads = [type_info_entry(0x64, 1), type_info_entry(0x1077, 0xFFFF_FFFF), type_info_entry(0x1EFF, 3), vec![0x42; 35]];
    let mut parts: Vec<&[u8]> = heads.iter().map(Vec::as_slice).collect();
    parts.extend([&[0x00][..], &[0x41], &[0xE4]]);
    for count in 0..=3 {
        strings(&type_info_head(count), &parts, longest, &mut |s| out(Case::type_info("tokens", s)));
    }
}

pub fn random(rng: &mut Rng) -> Case {
    let n = rng.below(6);
    let count = if rng.one_in(4) { rng.below(9) } else { n };
    let mut s = type_info_head(count as u32);
    for _ in 0..n {
        entry(rng, &mut s);
    }
    if rng.one_in(2) {
        for _ in 0..1 + rng.below(3) {
            damage(rng, &mut s, &[0x00, 0x77, 0x1E, 0xFF, 0x41]);
        }
    }
    let mut case = Case::type_info("random", s);
    if rng.one_in(4) {
        case.numbers[0] = rng.below(WORDS * n + 6) as u32;
    }
    case
}

fn entry(rng: &mut Rng, s: &mut Vec<u8>) {
    let any = rng.next() as u16;
    let type_code = rng.pick(&[0x0064, 0x126D, 0x1898, 0x1EFF, 0x1B77, 0x0077, 0x771E, 0xFF1E, any]);
    s.extend(type_info_entry(type_code, rng.next() as u32 >> rng.below(32)));
    for _ in 0..2 {
        let length = rng.below(rng_name(type_code));
        s.extend((0..length).map(|_| rng.pick(&[0x41, 0x62, 0x5F, 0xE4, 0xFF, 0x77, 0x01])));
        s.push(0);
    }
    if type_code % 256 == 0x77 && !rng.one_in(4) {
        s.extend(rng.bytes(36));
    }
}

/// Names of the internal entries are kept short.
fn rng_name(type_code: u16) -> usize {
    if type_code == 0x1EFF {
        3
    } else {
        9
    }
}
