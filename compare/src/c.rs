//! What the C programs beside the library call: streams, jetdb's reading of them, and the judgement of rows. c/compare.h declares it.

use crate::cases::Kind;
use crate::form::{BlobProperty, ControlInfo, ControlProperties};
use crate::{blob_texts, differ, file::FileError, form, form2000, large, oracle, paired, pairs, panels, rewrites, sheets, speed, totals};

/// A stream, as C sees it.
#[repr(C)]
pub struct Stream {
    name: *const u8,
    name_length: usize,
    kind: u32,
    bytes: *const u8,
    length: usize,
}

/// What jetdb made of a stream.
pub enum Reading {
    Access2000(Option<(Vec<BlobProperty>, Vec<ControlProperties>)>),
    Later(form::Parsed),
    TypeInfo(Result<Vec<ControlInfo>, FileError>),
}

/// C lends sixteen words for a reading.
const _: () = assert!(size_of::<Reading>() <= 128 && align_of::<Reading>() <= 8);

fn hand_out(found: Option<speed::Stream>, out: &mut Stream) -> bool {
    let Some(found) = found else { return false };
    let (kind, bytes) = (found.kind as u32, Box::leak(found.bytes.into_boxed_slice()));
    *out = Stream { name: found.name.as_ptr(), name_length: found.name.len(), kind, bytes: bytes.as_ptr(), length: bytes.len() };
    true
}

/// Stream `n` of those that are timed; false behind the last.
#[no_mangle]
pub extern "C" fn compare_stream(n: usize, out: &mut Stream) -> bool {
    hand_out(speed::stream(n), out)
}

/// Stream `n` of those whose growth is timed, of so many MiB; false behind the last.
#[no_mangle]
pub extern "C" fn compare_grown(n: usize, mib: usize, out: &mut Stream) -> bool {
    hand_out(speed::grown(n, mib), out)
}

/// Gives a stream's bytes back.
///
/// # Safety
/// The stream was handed out here, and is given back once.
#[no_mangle]
pub unsafe extern "C" fn compare_give_back(stream: &Stream) {
    drop(Box::from_raw(std::ptr::slice_from_raw_parts_mut(stream.bytes.cast_mut(), stream.length)));
}

/// jetdb's code table; it stays.
#[no_mangle]
pub extern "C" fn compare_table(length: &mut usize) -> *const u8 {
    let table = oracle::codes().bytes().leak();
    *length = table.len();
    table.as_ptr()
}

/// jetdb reads a stream by its own function for it: `form2000::read`, `parse_blob` or `parse_type_info`.
///
/// # Safety
/// `out` has room for a reading.
#[no_mangle]
pub unsafe extern "C" fn compare_jetdb(stream: &Stream, out: *mut Reading) {
    let bytes = std::slice::from_raw_parts(stream.bytes, stream.length);
    out.write(if stream.kind == Kind::TypeInfo as u32 {
        Reading::TypeInfo(form::type_info_of(bytes))
    } else if oracle::is_2000(bytes) {
        Reading::Access2000(form2000::read(bytes))
    } else {
        Reading::Later(form::blob_of(bytes))
    });
}

/// Drops a reading.
///
/// # Safety
/// `compare_jetdb` wrote it, and it is dropped once.
#[no_mangle]
pub unsafe extern "C" fn compare_drop(reading: *mut Reading) {
    reading.drop_in_place();
}

/// Compares long streams through the library's functions; false where one differs.
#[no_mangle]
pub extern "C" fn compare_large(read_blob: large::ReadBlob, read_type_info: large::ReadTypeInfo) -> bool {
    large::compare(&large::Library { read_blob, read_type_info })
}

/// Compares fresh cases and the streams that are timed through the library's functions; false where one differs.
#[no_mangle]
pub extern "C" fn compare_timed(read_blob: large::ReadBlob, read_type_info: large::ReadTypeInfo, count: usize, seed: u64) -> bool {
    speed::compare(&large::Library { read_blob, read_type_info }, count, seed)
}

/// Joins random pairs of code tables by the library's function; false where one differs.
#[no_mangle]
pub extern "C" fn compare_join(join: pairs::Join, count: usize, seed: u64) -> bool {
    pairs::compare(join, count, seed)
}

/// Pairs random controls with TypeInfo by the library's function; false where one differs.
#[no_mangle]
pub extern "C" fn compare_pair(pair: paired::Pair, count: usize, seed: u64) -> bool {
    paired::compare(pair, count, seed)
}

/// Times the library's function against `merge_controls`.
#[no_mangle]
pub extern "C" fn compare_pair_bench(pair: paired::Pair) {
    paired::bench(pair);
}

/// Rewrites random streams by the library's function; false where one differs.
#[no_mangle]
pub extern "C" fn compare_rewrite(rewrite: rewrites::Rewrite, count: usize, seed: u64) -> bool {
    rewrites::compare(Some(rewrite), count, seed)
}

/// Reads random comma-separated texts by the library's function, and writes those that are read to a file; false where one differs.
///
/// # Safety
/// `file` is the file's name, with a zero after it.
#[no_mangle]
pub unsafe extern "C" fn compare_csv(read_csv: sheets::ReadCsv, count: usize, seed: u64, file: *const std::ffi::c_char) -> bool {
    let name = std::ffi::CStr::from_ptr(file).to_string_lossy().into_owned();
    let run = || {
        let mut taken = std::io::BufWriter::new(std::fs::File::create(&name)?);
        sheets::compare(read_csv, count, seed, &mut taken)
    };
    run().unwrap_or_else(|why| {
        println!("{name}: {why}");
        false
    })
}
/// Lists the differences of random triples of two tables and a stream by the library; false where one differs.
#[no_mangle]
pub extern "C" fn compare_differ(differences: differ::Differences, count: usize, seed: u64) -> bool {
    differ::compare(differences, count, seed)
}

/// Judges random streams by the library's panel rules; false where one differs.
#[no_mangle]
pub extern "C" fn compare_panel(check: large::ReadBlob, count: usize, seed: u64) -> bool {
    panels::compare(check, count, seed)
}

/// Times the library's panel rules beside its reading.
#[no_mangle]
pub extern "C" fn compare_panel_bench(read: large::ReadBlob, check: large::ReadBlob) {
    panels::bench(read, check);
}

/// Writes random Blobs as comma-separated text by the library's function, and what is written to a file; false where one differs.
///
/// # Safety
/// `file` is the file's name, with a zero after it.
#[no_mangle]
pub unsafe extern "C" fn compare_write_csv(
    write_csv: blob_texts::WriteCsv,
    count: usize,
    seed: u64,
    file: *const std::ffi::c_char,
) -> bool {
    let name = std::ffi::CStr::from_ptr(file).to_string_lossy().into_owned();
    let run = || {
        let mut taken = std::io::BufWriter::new(std::fs::File::create(&name)?);
        blob_texts::compare(write_csv, count, seed, &mut taken)
    };
    run().unwrap_or_else(|why| {
        println!("{name}: {why}");
        false
    })
}

/// Times the writer of comma-separated text beside the reading.
#[no_mangle]
pub extern "C" fn compare_write_csv_bench(read: large::ReadBlob, write_csv: blob_texts::WriteCsv) {
    blob_texts::bench(read, write_csv);
}

/// Counts random streams by the library's function into records of totals; false where one differs.
#[no_mangle]
pub extern "C" fn compare_totals(count: totals::Count, n: usize, seed: u64) -> bool {
    totals::compare(count, n, seed)
}
