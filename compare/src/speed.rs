//! The streams that `bench` times both readers on, and whether the library reads them as it must.

use crate::batch;
use crate::cases::{Case, Kind};
use crate::expect::Judge;
use crate::large::{blob_agrees, blob_in, type_info_agrees, type_info_in, Library};
use crate::long::*;
use crate::plain::LONGEST;

pub const MIB: usize = 1 << 20;

pub struct Stream {
    pub name: &'static str,
    pub kind: Kind,
    pub bytes: Vec<u8>,
}

fn blob(name: &'static str, bytes: Vec<u8>) -> Stream {
    Stream { name, kind: Kind::Blob, bytes }
}

fn names(name: &'static str, bytes: Vec<u8>) -> Stream {
    Stream { name, kind: Kind::TypeInfo, bytes }
}

fn changed(mut s: Vec<u8>, change: impl Fn(&mut Vec<u8>)) -> Vec<u8> {
    change(&mut s);
    s
}

fn refused_at_the_start(controls: usize) -> Vec<u8> {
    changed(form2000(controls, 0), |s| s[10] = 0xFD)
}

fn refused_at_the_end(controls: usize) -> Vec<u8> {
    changed(form2000(controls, 0), |s| s.truncate(s.len() - 1))
}

fn with_a_byte_more(controls: usize) -> Vec<u8> {
    changed(form2000(controls, 0), |s| s.push(0))
}

/// Stream `n` of the table, none behind the last.
pub fn stream(n: usize) -> Option<Stream> {
    Some(match n {
        0 => blob("Access 2000 form, 60 controls", form2000(60, 0)),
        1 => blob("Access 2000 form, 10,000 controls", form2000(10_000, 0)),
        2 => blob("Access 2000, deepest nesting (256)", nested2000(256)),
        3 => blob("Access 2000, 16 MiB of flags", flags2000(16 * MIB - 13)),
        4 => blob("later tree, 10,000 nodes", tree(10_000, 0)),
        5 => blob("later tree, deepest nesting (256)", nested_later(256)),
        6 => blob("later, 16 MiB in one binary value", value(0x0B, vec![0x5A; 16 * MIB - 32])),
        7 => blob("later, 16 MiB in one text", value(0x0A, vec![0x41; 16 * MIB - 32])),
        8 => blob("scan, 16 MiB, a control every 130 bytes", scan(16 * MIB, 0)),
        9 => blob("scan, 16 MiB, a control every 4,000 bytes", scan(16 * MIB, 4000)),
        10 => names("TypeInfo, 5,000 names", type_info(5000, 0)),
        11 => blob("refused: 60 controls, bad at the start", refused_at_the_start(60)),
        12 => blob("refused: 60 controls, bad at the end", refused_at_the_end(60)),
        13 => blob("refused: 60 controls, a byte more", with_a_byte_more(60)),
        14 => blob("refused: 10,000 controls, bad at the start", refused_at_the_start(10_000)),
        15 => blob("refused: 10,000 controls, bad at the end", refused_at_the_end(10_000)),
        16 => blob("refused: 10,000 controls, a byte more", with_a_byte_more(10_000)),
        17 => blob("refused: an entry at level 256", nested2000(257)),
        18 => names("refused: TypeInfo, wrong first bytes", changed(type_info(5000, 0), |s| s[0] = 0)),
        19 => names("refused: TypeInfo, count too high", changed(type_info(5000, 0), |s| s[15] = 1)),
        _ => return None,
    })
}

/// The stream of family `n` with so many MiB, none behind the last family.
pub fn grown(n: usize, mib: usize) -> Option<Stream> {
    let bytes = mib * MIB;
    Some(match n {
        0 => blob("Access 2000 form", filled(bytes, form2000)),
        1 => blob("Access 2000, flags", flags2000(bytes - 13)),
        2 => blob("later tree", filled(bytes, tree)),
        3 => blob("later, one text", value(0x0A, vec![0x41; bytes - 32])),
        4 => blob("scan, a control every 130 bytes", scan(bytes, 0)),
        5 => blob("scan, a control every 4,000 bytes", scan(bytes, 4000)),
        6 => names("TypeInfo", filled(bytes, type_info)),
        7 => blob("refused: a byte more", changed(filled(bytes - 1, form2000), |s| s.push(0))),
        _ => return None,
    })
}

// ---- whether what is timed is right

/// Holds the library against jetdb and document 01 on fresh cases of a seed, those of them that are streams, and on every stream that is timed.
/// Prints how many agree, or the first that doesn't.
pub fn compare(library: &Library, count: usize, seed: u64) -> bool {
    let judge = Judge::new();
    let timed = || (0..).map_while(stream).try_for_each(|timed| timed_agrees(library, &judge, &timed));
    let verdict = cases_agree(library, &judge, count, seed).and_then(|agreed| timed().map(|()| agreed));
    match &verdict {
        Ok(agreed) => println!("{agreed} cases of seed {seed} and the streams that are timed: no difference from jetdb and document 01"),
        Err(why) => println!("seed {seed}: a difference\n{why}"),
    }
    verdict.is_ok()
}

fn cases_agree(library: &Library, judge: &Judge, count: usize, seed: u64) -> Result<usize, String> {
    let mut agreed = 0;
    batch::drawn(seed, count, LONGEST, &mut |case| {
        if matches!(case.kind, Kind::Blob | Kind::TypeInfo) {
            case_agrees(library, judge, &case).map_err(|why| format!("{why}\n{}", batch::shown(&case)))?;
            agreed += 1;
        }
        Ok(())
    })?;
    Ok(agreed)
}

fn case_agrees(library: &Library, judge: &Judge, case: &Case) -> Result<(), String> {
    let [first, second] = case.numbers.map(|words| words as usize);
    judge.expected(case)?;
    match case.kind {
        Kind::TypeInfo => type_info_in(library, &case.bytes, first),
        _ => blob_in(library, case.table.as_deref().unwrap_or(&judge.table), &case.bytes, [first, second]),
    }
}

fn timed_agrees(library: &Library, judge: &Judge, timed: &Stream) -> Result<(), String> {
    let verdict = match timed.kind {
        Kind::TypeInfo => type_info_agrees(library, &timed.bytes),
        _ => blob_agrees(library, judge, &timed.bytes),
    };
    verdict.map(|_| ()).map_err(|why| format!("{}: {why}", timed.name))
}

#[cfg(test)]
mod tests {
    use super::*;
    use crate::large::CAnswer;
    use crate::plain;
    use std::slice::{from_raw_parts, from_raw_parts_mut};

    /// What a library does that reads plainly, but for a slip in its last word.
    unsafe fn write<const SLIP: u32>(rows: &[u32], out: *mut u32, room: usize) {
        let written = &mut from_raw_parts_mut(out, room)[..rows.len()];
        written.copy_from_slice(rows);
        written.iter_mut().rev().take(1).for_each(|word| *word ^= SLIP);
    }

    type Words = *mut u32;

    unsafe extern "C" fn blob<const SLIP: u32>(
        t: *const u8,
        n: usize,
        s: *const u8,
        m: usize,
        c: Words,
        i: usize,
        p: Words,
        k: usize,
    ) -> CAnswer {
        let found = plain::read_blob(from_raw_parts(t, n), from_raw_parts(s, m), i, k);
        write::<0>(found.controls.as_flattened(), c, i);
        write::<SLIP>(found.properties.as_flattened(), p, k);
        CAnswer::of(found.answer)
    }

    unsafe extern "C" fn type_info<const SLIP: u32>(s: *const u8, m: usize, rows: Words, room: usize) -> CAnswer {
        let (answer, found) = plain::typeinfo::read_type_info(from_raw_parts(s, m), room);
        write::<SLIP>(found.as_flattened(), rows, room);
        CAnswer::of(answer)
    }

    #[test]
    fn slips_of_a_library_are_seen() {
        let agrees = |read_blob, read_type_info| cases_agree(&Library { read_blob, read_type_info }, &Judge::new(), 2_000, 3).is_ok();
        assert!(agrees(blob::<0>, type_info::<0>));
        assert!(!agrees(blob::<1>, type_info::<0>));
        assert!(!agrees(blob::<0>, type_info::<1>));
    }
}
