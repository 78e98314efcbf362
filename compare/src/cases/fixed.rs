//! Cases without chance: every member of a family.

use super::build::*;
use super::{strings, Case, Sink};

/// Streams that must be in every selection: the worked ones, the examples of document 01, the depths, the lengths.
pub fn telling(out: Sink) {
    super::worked::streams(out);
    examples(out);
    whole_forms(out);
    depths(out);
    lengths2000(out);
    lengths_later(out);
    rooms(out);
}

/// The large families: `longest` letters or tokens.
pub fn exhaustive(longest: usize, out: Sink) {
    short_streams(out);
    object_bytes(out);
    letters2000(longest + 1, out);
    tokens_later(longest, out);
    ids2000(out);
    values_later(out);
    numbers_later(out);
    texts(out);
    counts(out);
    damaged(out);
}

/// K1's stream, K7 and K8, and the shortest streams of each answer.
fn examples(out: Sink) {
    let tails: [&[u8]; 9] = [
        &[0x31, 5, 0xFE, 0x98, 0, 0xFE, 0x64, 0, 0x60, 0xFF, 0xFF, 0xDC, 2, 0x41, 0, 0xFD],
        &[0xFE, 0x64, 0, 0xFD],
        &[0xFE, 0x64, 0, 0xFF, 0, 0],
        &[0xFF, 0, 0],
        &[0xFD],
        &[],
        &[0xFF, 0, 0, 0],
        &[0xFE, 0x98, 0, 0xDF, 2, 0x3D, 0xD8, 0xDF, 2, 0x41, 0, 0xFD],
        &[0xFE, 0xFF, 0xFE, 0xFD],
    ];
    for tail in tails {
        for object in [0x96, 0x97] {
            out(Case::blob("examples", [&head2000(object)[..], tail].concat()));
        }
    }
    for trailer in 252..=256 {
        for count in 0..=2 {
            let mut s = [head_later(), property_later(0x11, 0x0A, b"A\0", trailer)].concat();
            s.extend(u16::to_le_bytes(count));
            out(Case::blob("examples", s.clone()));
            s.extend([node_later(0x64), property_later(0x14, 0x0A, b"B\0", 255), vec![0, 0]].concat());
            out(Case::blob("examples", s));
        }
    }
}

/// Chains of 254 to 258 entries or nodes, with each way to end them.
fn depths(out: Sink) {
    for depth in 254..=258 {
        for last in [&[0xFD][..], &[0xFF, 0, 0], &[0xFE], &[0xFF, 1, 0], &[0x98]] {
            let mut s = [head2000(0x96), vec![0x60, 1, 0]].concat();
            for n in 0..depth {
                s.extend(list2000(1, n % 2 == 1));
                s.extend([0x64 + (n % 5) as u8, 0, 0x01]);
            }
            s.extend(last);
            out(Case::blob("depths", s));
        }
        for (trailer, last) in [(253, &[][..]), (255, &[0, 0]), (254, &[]), (255, &[1, 0]), (1, &[])] {
            let mut s = [head_later(), property_later(0x11, 2, &[1], 254)].concat();
            for n in 0..depth {
                s.extend(node_later(0x64 + n % 5));
                let inner = if n + 1 < depth { 254 } else { trailer };
                s.extend(property_later(0x14, 0x0A, b"N\0", inner));
            }
            s.extend(last);
            out(Case::blob("depths", s));
        }
    }
}

/// Each spelling of telling lengths, whole, one byte short and one byte too long.
fn lengths2000(out: Sink) {
    for n in [0, 1, 2, 3, 8, 15, 16, 17, 127, 128, 252, 253, 254, 255, 256, 257, 32767, 65534, 65535] {
        for long in [false, true] {
            for id in [0xBD, 0xCE, 0xD0, 0xDC, 0xFC] {
                let value = vec![0x41; n];
                for cut in [0, 1] {
                    let mut s = [head2000(0x96), vec![id], length2000(n, long)].concat();
                    s.extend(&value[..n.saturating_sub(cut)]);
                    s.extend([0xFE, 0x64, 0, id]);
                    s.extend(length2000(n, long));
                    s.extend(&value);
                    s.extend([0xFF, 0, 0]);
                    out(Case::blob("lengths", s.clone()));
                    s.push(0xFD);
                    out(Case::blob("lengths", s));
                }
            }
        }
    }
}

/// Stated lengths around what is there, and around the largest numbers of 32 bits.
fn lengths_later(out: Sink) {
    let telling = [0, 1, 4, 0x7FFF_FFFF, 0x8000_0000, 0xFFFF_FFED, 0xFFFF_FFEE, 0xFFFF_FFF2, 0xFFFF_FFFC, 0xFFFF_FFFF];
    for present in [0usize, 1, 2, 4, 8, 253, 254, 255, 65535] {
        let near = (-2..=2).map(|d| (present as i64 + d).max(0) as u32);
        for stated in near.chain(telling) {
            for trailer in [1, 253] {
                let mut s = [head_later(), property_later(0x11, 0x0A, &vec![0x41; present], trailer)].concat();
                s[24..28].copy_from_slice(&stated.to_le_bytes());
                out(Case::blob("lengths", s.clone()));
                s.extend(property_later(0x14, 0x0A, b"A\0", 253));
                out(Case::blob("lengths", s));
            }
        }
    }
    for length in 0..40 {
        let whole = [head_later(), property_later(0x14, 0x0A, b"A\0", 253), vec![0; 8]].concat();
        out(Case::blob("lengths", whole[..length].to_vec()));
    }
}

/// All streams of at most two bytes.
fn short_streams(out: Sink) {
    out(Case::blob("short", Vec::new()));
    for a in 0..=255 {
        out(Case::blob("short", vec![a]));
        for b in 0..=255 {
            out(Case::blob("short", vec![a, b]));
        }
    }
}

/// Each value of the first and of the ninth byte, with header codes and all sections below.
fn object_bytes(out: Sink) {
    for (place, value) in [0, 8].into_iter().flat_map(|p| (0..=255u8).map(move |v| (p, v))) {
        let mut s = [head2000(0x96), vec![0x30, 1, 0xDC, 2, 0x41, 0, 0xFF, 9, 0]].concat();
        for code in 0x97..=0x9F {
            s.extend([code, 0, 0xDF, 2, 0x42, 0, 0xFD]);
        }
        s[place] = value;
        out(Case::blob("object", s));
    }
}

/// Every string over telling bytes behind the head of a form.
fn letters2000(longest: usize, out: Sink) {
    let tokens: [&[u8]; 10] = [&[0x00], &[0x01], &[0x02], &[0x30], &[0x60], &[0x98], &[0xDC], &[0xFD], &[0xFE], &[0xFF]];
    strings(&head2000(0x96), &tokens, longest, &mut |s| out(Case::blob("letters", s)));
}

/// Every string over whole and broken parts of a later stream.
fn tokens_later(longest: usize, out: Sink) {
    let name = |trailer| property_later(0x14, 0x0A, b"A\0", trailer);
    let parts: Vec<Vec<u8>> = vec![
        property_later(0x11, 2, &[5, 0], 1),
        name(1),
        name(253),
        name(254),
        name(255),
        property_later(0x94, 1, &[], 253),
        vec![0, 0],
        vec![1, 0],
        vec![2, 0],
        node_later(0x64),
        node_later(0x98),
        vec![0xFF],
        name(1)[..10].to_vec(),
        name(1)[..6].to_vec(),
    ];
    let tokens: Vec<&[u8]> = parts.iter().map(Vec::as_slice).collect();
    strings(&head_later(), &tokens, longest, &mut |s| out(Case::blob("tokens", s)));
}

/// Every id in every scope that jetdb has rows for and in two that it has none for, with values of telling lengths.
fn ids2000(out: Sink) {
    let mut types: Vec<u16> = crate::oracle::codes().scopes.iter().map(|s| s.code).collect();
    types.extend([0x0071, 0x0164]);
    for id in 0..=0xFC {
        for &type_code in &types {
            let lengths: &[usize] = if id > 0xBC { &[0, 1, 2, 7, 8, 9, 15, 16, 17] } else { &[0] };
            for &n in lengths {
                let value = value2000(id, n);
                let object = if type_code == 0 { 0x97 } else { 0x96 };
                let [low, high] = type_code.to_le_bytes();
                out(Case::blob("ids", [head2000(object), value.clone(), vec![0xFE, low, high], value, vec![0xFF, 0, 0]].concat()));
            }
        }
    }
}

/// An id with a value of its size; `n` bytes above 0xBC.
fn value2000(id: u8, n: usize) -> Vec<u8> {
    let fill = [0x80, 0xFF, 0x00, 0x7F, 0x01, 0xFE, 0x02, 0x90, 0x41];
    let take = |n: usize| fill.iter().copied().cycle().take(n).collect::<Vec<u8>>();
    match id {
        0x00..=0x2F => vec![id],
        0x30..=0x5F => [vec![id], take(1)].concat(),
        0x60..=0x7F => [vec![id], take(2)].concat(),
        0x80..=0xBC => [vec![id], take(4)].concat(),
        _ => bytes2000(id, &take(n)),
    }
}

/// Each type with each length to 17 and several fillings, in the object and in a node.
fn values_later(out: Sink) {
    let types = (0..=0x10).chain([0x14, 0x101, 0x10A, 0x1_0002, 0x0100_000A, 0xFFFF_FFFF]);
    for kind in types {
        for n in 0..=17 {
            for fill in [0x00, 0x01, 0x41, 0x7F, 0x80, 0xD8, 0xFF] {
                let value = vec![fill; n];
                let property = property_later(0x0014, kind, &value, 254);
                let node = [node_later(0x98), property_later(0x0014, kind, &value, 253)].concat();
                out(Case::blob("values", [head_later(), property, node].concat()));
            }
        }
    }
}

/// Telling numbers as short, long and single, many to a stream.
fn numbers_later(out: Sink) {
    let fractions = [0, 1, 2, 3, 0x155555, 0x2AAAAA, 0x3FFFFF, 0x400000, 0x400001, 0x7FFFFE, 0x7FFFFF];
    let singles = (0..512u32).flat_map(|top| fractions.map(|f| top << 23 | f));
    let powers = (0..23).map(|bit| 1u32 << bit).flat_map(|f| [f, f | 0x8000_0000, f | 0x7F80_0000, f | 0xFF80_0000]);
    let edges = [0x7FFE, 0x7FFF, 0x8000, 0x8001, 0xFFFF, 0x1_0000, 0xFFFF_7FFF, 0xFFFF_8000, 0xFFFF_8001, 0xFFFF_FFFF];
    let numbers: Vec<u32> = singles.chain(powers).chain(edges).collect();
    for part in numbers.chunks(40) {
        let mut s = head_later();
        for v in part {
            for kind in [1, 2, 3, 4, 6] {
                s.extend(property_later(0x6F, kind, &v.to_le_bytes(), 1));
            }
            s.extend(property_later(0x6F, 2, &(*v as u16).to_le_bytes(), 2));
            let [a, b, c, d] = v.to_le_bytes();
            s.extend(property_later(0x6F, 8, &[d, c, b, a, a, b, c, d], 3));
        }
        let last = s.len() - 4;
        s[last..].copy_from_slice(&253u32.to_le_bytes());
        let mut case = Case::blob("numbers", s);
        case.numbers = [6, 6 * 512];
        out(case);
    }
}

/// Every text of at most three telling units, with and without an odd byte, as name and as value in each layout.
fn texts(out: Sink) {
    let units: [&[u8]; 9] = [
        &[0x00, 0x00],
        &[0x41, 0x00],
        &[0xFF, 0xD7],
        &[0x00, 0xD8],
        &[0xFF, 0xDB],
        &[0x00, 0xDC],
        &[0xFF, 0xDF],
        &[0x00, 0xE0],
        &[0xFF, 0xFF],
    ];
    strings(&[], &units, 3, &mut |text| {
        for odd in [&[][..], &[0xD8], &[0xDC]] {
            let text = [&text[..], odd].concat();
            for (type_code, id) in [(0x64, 0xDC), (0x98, 0xDF), (0x98, 0xDC)] {
                let entry = [vec![type_code, 0], bytes2000(id, &text), bytes2000(id, b"B\0")].concat();
                out(Case::blob("texts", [head2000(0x97), vec![0xFE], entry, vec![0xFF, 0, 0]].concat()));
            }
            for kind in [0x0A, 0x0C, 0x0B] {
                let node = [node_later(0x98), property_later(0x14, kind, &text, 1), property_later(0x14, 0x0A, b"B\0", 253)];
                out(Case::blob("texts", [head_later(), property_later(0x11, kind, &text, 254), node.concat()].concat()));
            }
            let scanned = property_later(0x14, 0x0A, &text, 7);
            out(Case::blob("texts", [head_later(), vec![0xEE; 5], scanned].concat()));
        }
    });
}

/// As many rows as `formlist` lends, one less and one more; read with words, and listed.
fn rooms(out: Sink) {
    let table = crate::oracle::codes().bytes();
    let mut out = |stream: Vec<u8>| {
        out(Case::listing("rooms", &table, &stream));
        out(Case::blob("rooms", stream));
    };
    for controls in 255..=257 {
        for properties in [1023, 1024, 1025] {
            let list = list2000(controls, true);
            let entries = [0x98, 0, 0xFD].repeat(controls as usize);
            out([head2000(0x96), vec![0x01; properties], list, entries].concat());
            let flags: Vec<u8> = (1..properties).flat_map(|_| property_later(0x13, 1, &[], 1)).collect();
            let last = [property_later(0x13, 1, &[], 255), controls.to_le_bytes().to_vec()].concat();
            let nodes = [node_later(0x98), property_later(0x13, 1, &[], 253)].concat().repeat(controls as usize);
            out([head_later(), flags[..flags.len() - 18 * controls as usize].to_vec(), last, nodes].concat());
        }
    }
}

/// The largest counts, all there and one missing.
fn counts(out: Sink) {
    for present in [65534, 65535] {
        let entries = [0x64, 0, 0xFF, 0, 0].repeat(present);
        out(Case::blob("counts", [head2000(0x96), list2000(65535, true), entries].concat()));
        let own = [property_later(0x13, 1, &[], 255), vec![0xFF, 0xFF]].concat();
        let nodes = [node_later(0x98), property_later(0x13, 1, &[], 253)].concat().repeat(present);
        out(Case::blob("counts", [head_later(), own, nodes].concat()));
    }
}

const EXAMPLES: [&[u8]; 3] = [
    include_bytes!("../../../examples/form-2000.blob"),
    include_bytes!("../../../examples/report-2000.blob"),
    include_bytes!("../../../examples/later-tree.blob"),
];

/// The example Blobs, and with a byte behind them; read with words, and listed.
fn whole_forms(out: Sink) {
    let table = crate::oracle::codes().bytes();
    for example in EXAMPLES {
        for behind in [&[][..], &[0]] {
            let stream = [example, behind].concat();
            out(Case::listing("forms", &table, &stream));
            out(Case::blob("forms", stream));
        }
    }
}

/// The example Blobs with each cut, each byte taken out or doubled, each bit turned, each byte made a telling one.
fn damaged(out: Sink) {
    for example in EXAMPLES {
        for place in 0..example.len() {
            let (before, behind) = example.split_at(place);
            let byte = behind[0];
            out(Case::blob("damaged", before.to_vec()));
            out(Case::blob("damaged", [before, &behind[1..]].concat()));
            out(Case::blob("damaged", [before, &[byte], behind].concat()));
            let turned = (0..8).map(|bit| byte ^ 1 << bit);
            for other in turned.chain([0x00, 0x13, 0x14, 0x30, 0x80, 0xDC, 0xFD, 0xFE, 0xFF]) {
                out(Case::blob("damaged", [before, &[other], &behind[1..]].concat()));
            }
        }
    }
}
