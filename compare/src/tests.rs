//! Tests of the program itself: the code table, document 01's examples, the batch file, and a small comparison.

use crate::batch;
use crate::cases::build::*;
use crate::cases::rng::Rng;
use crate::cases::{join, worked, Case, Kind};
use crate::expect::Judge;
use crate::plain::codes::Codes;
use crate::plain::{self, value, Name, Shape};
use crate::program::Run;
use crate::{listing, long, oracle, speed};

// ---- what is proved of the definitions

#[test]
fn every_worked_stream_is_taken() {
    let (all, left) = worked::claims();
    // Left out are two code tables that a function makes, of 64 and of 65 scopes, a claim over a number, and a law.
    assert!(all > 100 && left.len() == 4, "{all} claims, left out {left:#?}");
}

#[test]
fn name_tables_have_the_numbers_that_are_proved() {
    let proved = include_str!("../../crates/rules/proofs/WorkedNames.antt");
    for (name, table) in ["text_names", "number_names", "bytes_names", "control_type_names"].iter().zip(crate::form::name_tables()) {
        let letters = table.iter().flat_map(|(id, name)| [*id as u64].into_iter().chain(name.bytes().map(u64::from)).chain([0]));
        let digest = letters.fold(0, |so_far, x| (so_far * 257 + x) % 2_147_483_647);
        assert!(proved.contains(&format!("digest 0 (letters {name}) ≡ {digest}\n")), "{name} {digest}");
    }
}

// ---- the code table

#[test]
fn code_table_is_as_document_01_says() {
    let codes = oracle::codes();
    let bytes = codes.bytes();
    assert_eq!(bytes.len(), 2560);
    assert_eq!((codes.layout, &codes.header[..], codes.scopes.len()), (0x13, &[0x0099, 0x009A][..], 24));
    assert!(codes.scopes.windows(2).all(|w| (w[0].kind, w[0].code) < (w[1].kind, w[1].code)));
    for scope in &codes.scopes {
        assert!(scope.rows.windows(2).all(|w| w[0].id < w[1].id), "scope {} {}", scope.kind, scope.code);
        assert!(scope.rows.iter().all(|r| r.id <= 0xFC && r.target < 0x8000 && r.kind <= 4));
    }
    assert_eq!(Codes::parse(&bytes), Some(codes));
}

#[test]
fn code_table_file_is_the_one_made() {
    let path = concat!(env!("CARGO_MANIFEST_DIR"), "/../data/access2000.codes");
    assert_eq!(std::fs::read(path).unwrap(), oracle::codes().bytes());
}

#[test]
fn code_tables_that_are_not_well_formed() {
    let good = [0x2A, 2, 2, 0, 5, 0, 6, 0, 1, 0, 0, 0, 0, 2, 0, 0, 2, 0, 0x10, 1, 0, 0, 0xFC, 0xFF, 0x7F, 4];
    assert!(Codes::parse(&good).is_some());
    // header order, count, kind, code of a kind 1, order of scopes, id order, id, target, kind, a count over the end
    for (place, byte) in [(6, 5), (1, 5), (8, 3), (9, 1), (8, 2), (18, 0xFC), (22, 0xFD), (24, 0x80), (25, 5), (16, 3)] {
        let mut bad = good;
        bad[place] = byte;
        assert_eq!(Codes::parse(&bad), None, "byte {place}");
    }
    for end in 0..good.len() {
        assert_eq!(Codes::parse(&good[..end]), None);
    }
    assert_eq!(Codes::parse(&[&good[..], &[0]].concat()), None);
    assert!(Codes::parse(&[0, 0, 0, 0]).is_some());
}

// ---- document 01's examples

const K1_TABLE: [u8; 17] = [0x2A, 0, 1, 0, 2, 0x64, 0, 2, 0, 0x60, 0x36, 0, 0, 0xDC, 0x14, 0, 1];

fn k1_input() -> Vec<u8> {
    let tail = [0x31, 5, 0xFE, 0x98, 0, 0xFE, 0x64, 0, 0x60, 0xFF, 0xFF, 0xDC, 2, 0x41, 0, 0xFD];
    [&[0x11, 0, 0, 0][..], &K1_TABLE, &[0x2A], &[0; 9], &tail].concat()
}

#[test]
fn k1_prints_what_document_01_prints() {
    let lines = "answer 0 2 3 1\nC 0 0098 Detail - 1 0 0 -\nC 1 0064 Label 1 1 2 1 0\n\
                 P 0 8031 - short 5\nP 1 0036 Left short -1\nP 2 0014 Name text 1\n";
    assert_eq!(Judge::new().listing(&k1_input()).unwrap().text, lines);
}

#[test]
fn inputs_that_are_framed_wrongly() {
    let long = vec![0; listing::BUFFER + 1];
    assert_eq!(listing::listing(&long), "answer 5 0 0 0\n");
    for input in [&[][..], &[0, 0, 0], &[1, 0, 0, 0], &[0xFF; 4], &k1_input()[..20]] {
        assert_eq!(listing::listing(input), "answer 8 0 0 0\n");
    }
}

/// The value of one property of the object in a later stream.
fn later_value(kind: u32, bytes: &[u8]) -> plain::Value {
    let stream = [head_later(), property_later(0x11, kind, bytes, 253)].concat();
    let found = crate::judge::blob(&oracle::codes(), &stream).unwrap().unwrap();
    found.own[0].value
}

#[test]
fn k2_to_k5_and_k12_values() {
    assert_eq!(later_value(2, &[0xFF, 0x7F, 0, 0]), value::short(32767));
    assert_eq!(later_value(2, &[0, 0x80, 0, 0]), value::BINARY);
    assert_eq!(later_value(2, &[0xFF]), value::short(255));
    assert_eq!(later_value(1, &[1, 0]), value::long(1));
    assert_eq!(later_value(1, &[]), value::NOT_DEFAULT);
    assert_eq!(later_value(6, &[0, 0, 0xC0, 0x3F]), value::double(0x3FF8_0000_0000_0000));
}

fn blob(stream: Vec<u8>) -> Option<plain::Reading> {
    crate::judge::blob(&oracle::codes(), &stream).unwrap()
}

#[test]
fn k6_lengths() {
    for (spelling, length) in [(vec![0xFD], 253), (vec![0xFE], 254), (vec![0xFF, 5, 0], 5)] {
        let stream = [head2000(0x96), vec![0xEA], spelling, vec![0x41; length], vec![0xFF, 0, 0]].concat();
        assert_eq!(blob(stream).unwrap().own[0].length, length);
    }
}

#[test]
fn k7_and_k8_empty_lists() {
    let controls = |tail: &[u8]| blob([&head2000(0x96)[..], tail].concat()).unwrap().controls.len();
    assert_eq!((controls(&[0xFE, 0x64, 0, 0xFD]), controls(&[0xFE, 0x64, 0, 0xFF, 0, 0])), (0, 1));
    let node = [node_later(0x64), property_later(0x14, 0x0A, b"A\0", 255), vec![0, 0]].concat();
    let found = blob([head_later(), property_later(0x11, 1, &[], 254), node].concat()).unwrap();
    assert_eq!((found.shape, found.controls.len()), (Shape::Tree, 0));
}

#[test]
fn k9_type_info() {
    let number = |s: &[u8]| crate::judge::type_info(s).unwrap().err();
    let mut s = type_info_head(1);
    s.resize(40, 0);
    assert_eq!((number(&s[..31]), number(&s)), (Some(1), None));
    s[12] = 2;
    assert_eq!(number(&s), Some(3));
    s[0] = 0;
    assert_eq!(number(&s), Some(2));
}

#[test]
fn k10_utf16_and_k11_guid() {
    assert!(value::is_utf16(&[0x3D, 0xD8, 0x00, 0xDE]) && !value::is_utf16(&[0x3D, 0xD8]));
    assert_eq!(value::characters(&[0x41, 0, 0x3D, 0xD8, 0x00, 0xDE, 0xFF, 0xFF]), 3);
    let bytes: Vec<u8> = (0..16).collect();
    assert_eq!(value::guid_text(&bytes), "{03020100-0504-0706-0809-0A0B0C0D0E0F}");
    assert_eq!(crate::data::format_guid(&bytes), value::guid_text(&bytes));
}

// ---- depths and refusals

/// A chain of so many entries, the last with an empty list.
fn chain2000(depth: usize) -> Vec<u8> {
    [head2000(0x96), [0xFE, 0x64, 0].repeat(depth), vec![0xFF, 0, 0]].concat()
}

fn chain_later(depth: usize) -> Vec<u8> {
    let mut s = [head_later(), property_later(0x11, 1, &[], 254)].concat();
    for n in 1..=depth {
        s.extend(node_later(0x64));
        s.extend(property_later(0x14, 0x0A, b"A\0", if n < depth { 254 } else { 253 }));
    }
    s
}

#[test]
fn depths() {
    assert_eq!(blob(chain2000(256)).unwrap().controls.len(), 256);
    assert!(blob(chain2000(257)).is_none());
    assert_eq!(blob(chain_later(256)).unwrap().shape, Shape::Tree);
    let scanned = blob(chain_later(257)).unwrap();
    assert_eq!((scanned.shape, scanned.controls.len()), (Shape::Scan, 257));
}

#[test]
fn answers_come_in_order() {
    let table = oracle::codes().bytes();
    let number = |table: &[u8], s: &[u8], words: [usize; 2]| plain::read_blob(table, s, words[0], words[1]).answer.number;
    let long = vec![0x13; plain::LONGEST + 1];
    assert_eq!(number(&[], &long, [0, 0]), 5);
    assert_eq!(number(&table, &long[..plain::LONGEST], [0, 0]), 4);
    assert_eq!(number(&[], &[0x13], [0, 0]), 8);
    assert_eq!(number(&table, &[0x13], [0, 0]), 4);
    let s = [head2000(0x96), vec![0x01, 0xFE, 0x98, 0, 0xFD]].concat();
    assert_eq!([[7, 5], [8, 5], [15, 6]].map(|words| number(&table, &s, words)), [6, 7, 0]);
    assert_eq!(plain::typeinfo::read_type_info(&long, 0).0.number, 5);
}

#[test]
fn readers_of_one_layout_answer_in_order() {
    let table = Judge::new().table;
    let (old, later, long) = (chain2000(2), chain_later(2), vec![0; plain::LONGEST + 1]);
    let own = u32::from(table[0]);
    let by_2000 = |table: &[u8], s: &[u8], words| plain::readers::read_2000(table, s, [words; 2]).answer.number;
    assert_eq!([&long[..], &old, &later, &[]].map(|s| by_2000(&table[1..], s, 0)), [5, 8, 8, 8]);
    assert_eq!([&long[..], &old[..9], &old, &later, &[]].map(|s| by_2000(&table, s, 0)), [5, 4, 6, 15, 15]);
    let by_later = |layout, s: &[u8], words| plain::readers::read_later(layout, s, [words; 2]).answer.number;
    assert_eq!([&long[..], &old, &later, &[]].map(|s| by_later(own, s, 0)), [5, 15, 6, 0]);
    assert_eq!([0, 256, own + 256].map(|layout| by_later(layout, &long[1..], 0)), [15, 7, 7]);
    assert_eq!(by_later(own + 256, &old, 16), 0);
}

#[test]
fn scan_starts_behind_the_objects_rows() {
    let own = property_later(0x14, 0x0A, b"A\0", 1);
    let found = blob([head_later(), own.clone(), vec![0xEE], own].concat()).unwrap();
    assert_eq!((found.shape, found.own.len(), found.controls.len()), (Shape::Scan, 1, 1));
    assert_eq!(found.controls[0].name, Name::Text { start: 49, length: 2 });
}

// ---- singles

#[test]
fn singles_are_widened_exactly() {
    (0..1 << 16).for_each(|n: u32| same_single(n.wrapping_mul(0x0001_0003)));
    (0..23).for_each(|bit| same_single(1 << bit));
}

/// Every single there is; it takes a while, so it is run by name (`cargo test --release -- --ignored`).
#[test]
#[ignore]
fn all_singles_are_widened_exactly() {
    (0..=u32::MAX).for_each(same_single);
}

/// Rust doesn't fix the bits of a widened NaN, so this speaks of the machine that it is run on.
#[test]
#[ignore]
fn nan_singles_have_document_01s_bits_here() {
    for fraction in 1..1 << 23 {
        for bits in [0x7F80_0000 | fraction, 0xFF80_0000 | fraction] {
            let single = f64::from(std::hint::black_box(f32::from_bits(bits)));
            assert_eq!(single.to_bits(), value::widened(bits), "{bits:08X}");
        }
    }
}

fn same_single(bits: u32) {
    let single = f64::from(f32::from_bits(bits));
    let ours = value::widened(bits);
    assert!(ours == single.to_bits() || single.is_nan() && f64::from_bits(ours).is_nan(), "{bits:08X}");
}

// ---- batch files

/// The frames of the cases, and all that must be printed for them.
fn written(judge: &Judge, cases: &[Case]) -> (Vec<u8>, String) {
    let (frames, expected) = batch::written(judge, cases).unwrap();
    (frames, expected.into_iter().map(|e| e.text).collect())
}

#[test]
fn batch_files_are_read_back() {
    let judge = Judge::new();
    let cases = batch::select(3, 6000, 4096);
    let (frames, text) = written(&judge, &cases);
    assert_eq!(batch::judge(&judge, &frames, &text), Ok(cases.len()));
    let back = batch::read(&frames).unwrap();
    assert!(cases.iter().zip(&back).all(|(a, b)| (a.kind, a.numbers, &a.bytes) == (b.kind, b.numbers, &b.bytes)));
}

#[test]
fn batch_files_lend_what_the_readme_says() {
    for case in batch::select(6, 20_000, 32_768) {
        let [first, second] = case.numbers.map(|n| n as usize);
        assert!(case.bytes.len() <= 32_768);
        assert!(match case.kind {
            Kind::Blob | Kind::Read2000 | Kind::ReadLater => first <= 8 * 256 && second <= 6 * 1024,
            Kind::TypeInfo => first <= crate::listing::TYPE_INFO_WORDS,
            Kind::Guid | Kind::Label => first <= 64,
            Kind::Join => first <= 32_768 && second <= case.bytes.len(),
            _ => true,
        });
    }
}

#[test]
fn a_wrong_print_is_found() {
    let judge = Judge::new();
    let cases = [Case::blob("", chain2000(2)), Case::type_info("", vec![0; 32])];
    let (frames, text) = written(&judge, &cases);
    let wrong = text.replacen("A 2", "A 3", 1);
    let why = batch::judge(&judge, &frames, &wrong).unwrap_err();
    assert!(why.starts_with("case 1\nTypeInfo"), "{why}");
    assert!(batch::judge(&judge, &frames, &(text + "A 0 0 0 0\n")).is_err());
}

// ---- cases through a program

/// What must be printed for the frames, with every `from` turned into `to`.
fn printed(judge: &Judge, frames: &[u8], from: &str, to: &str) -> Result<String, String> {
    let text = |case: &Case| judge.expected(case).map(|e| e.text.replace(from, to));
    batch::read(frames).ok_or("broken frames")?.iter().map(text).collect()
}

#[test]
fn a_program_that_prints_what_it_must_agrees() {
    let judge = Judge::new();
    let prints = |frames: &[u8]| printed(&judge, frames, "", "");
    let mut run = Run::new(&judge, &prints);
    assert_eq!(run.compare(8, 7_000, 32_768, batch::drawn), Ok(()));
    assert!(run.figures.summary().contains("answers: 0: "));
}

#[test]
fn a_difference_is_made_small() {
    let judge = Judge::new();
    let prints = |frames: &[u8]| printed(&judge, frames, "P 32768 ", "P 32769 ");
    let why = Run::new(&judge, &prints).compare(8, 7_000, 32_768, batch::drawn).unwrap_err();
    // An object with the one flag 0x00 and an empty list.
    assert!(why.contains("bytes 13 ") && why.contains("P 32769 "), "{why}");
    let bytes = why.lines().find(|line| line.starts_with("bytes")).unwrap();
    assert!(bytes.split(' ').count() <= 15, "{why}");
}

#[test]
fn a_pair_is_made_small() {
    let judge = Judge::new();
    let prints = |frames: &[u8]| printed(&judge, frames, "A 16 0 0 0", "A 17 0 0 0");
    let why = Run::new(&judge, &prints).compare(8, 7_000, 32_768, batch::joins).unwrap_err();
    // Two tables of a head each, and one has a header code or another layout byte.
    let bytes = why.lines().find(|line| line.starts_with("bytes")).unwrap();
    assert!(bytes.split(' ').count() <= 1 + 4 + 6, "{why}");
}

#[test]
fn a_program_that_prints_less_or_more_is_found() {
    let judge = Judge::new();
    let nothing = |_: &[u8]| Ok(String::new());
    assert!(Run::new(&judge, &nothing).compare(8, 100, 32_768, batch::drawn).is_err());
    let more = |frames: &[u8]| printed(&judge, frames, "", "").map(|text| text + "A 0 0 0 0\n");
    assert!(Run::new(&judge, &more).compare(8, 100, 32_768, batch::drawn).unwrap_err().starts_with("more was printed"));
}

#[test]
fn nan_is_taken_as_nan() {
    let nan = "P 8 4 1 2146959360 28 4\n";
    assert_eq!(batch::strip_text("P 8 4 7 4294443008 28 4\nA", nan), Some("A"));
    assert_eq!(batch::strip_text("P 8 4 7 4294443008 29 4\nA", nan), None);
    assert_eq!(batch::strip_text("P 8 4 1 0 28 4\nA", nan), None);
    let listed = "P 0 0008 - double 7FF8000020000000\n";
    assert_eq!(batch::strip_text("P 0 0008 - double FFF8000020000001\n", listed), Some(""));
    assert_eq!(batch::strip_text("P 0 0008 - double 7FF0000000000000\n", listed), None);
}

#[test]
fn seeds_give_the_same_cases() {
    assert_eq!(Rng::new(1).next(), 0x910A_2DEC_8902_5CC1);
    let cases = |seed| batch::select(seed, 5000, 4096).iter().map(|c| c.bytes.clone()).collect::<Vec<_>>();
    assert_eq!(cases(4), cases(4));
    assert_ne!(cases(4), cases(5));
}

// ---- long streams

#[test]
fn long_streams_are_what_their_names_say() {
    for bytes in [200_000, 200_001] {
        let shape = |s: Vec<u8>| {
            assert_eq!(s.len(), bytes);
            blob(s).map(|found| found.shape)
        };
        assert_eq!(shape(long::filled(bytes, long::form2000)), Some(Shape::Access2000));
        assert_eq!(shape(long::filled(bytes, long::values2000)), Some(Shape::Access2000));
        assert_eq!(shape(long::filled(bytes, long::tree)), Some(Shape::Tree));
        assert_eq!(shape(long::scan(bytes, 40)), Some(Shape::Scan));
        assert_eq!(crate::judge::type_info(&long::filled(bytes, long::type_info)).unwrap().map(|all| all.len() > 6000), Ok(true));
    }
}

#[test]
fn timed_streams_are_refused_where_they_say_so() {
    let table = oracle::codes().bytes();
    for stream in (0..).map_while(speed::stream).filter(|stream| stream.bytes.len() < 2 * speed::MIB) {
        let number = match stream.kind {
            Kind::TypeInfo => plain::typeinfo::read_type_info(&stream.bytes, usize::MAX).0.number,
            _ => plain::read_blob(&table, &stream.bytes, usize::MAX, usize::MAX).answer.number,
        };
        assert_eq!(number != 0, stream.name.starts_with("refused"), "{}: {number}", stream.name);
    }
}

// ---- the comparison

#[test]
fn jetdb_agrees_on_some_random_cases() {
    let judge = Judge::new();
    let mut rng = Rng::new(2);
    for _ in 0..20_000 {
        let case = batch::chance(&mut rng);
        if let Err(why) = judge.expected(&case) {
            panic!("{why}\n{}", batch::shown(&case));
        }
    }
}

#[test]
fn dump_has_the_words_of_the_rows() {
    let stream = [head2000(0x97), vec![0x01, 0xFE, 0x99, 0, 0xDF, 2, 0x41, 0, 0xFD]].concat();
    let text = Judge::new().expected(&Case::blob("", stream)).unwrap().text;
    assert_eq!(text, "A 0 1 2 1\nC 6553 0 16 2 1 1 0 4294967295\nP 32769 1 0 0 11 0\nP 20 6 0 0 16 2\n");
}

#[test]
fn small_functions() {
    let text = |kind, numbers, bytes: &[u8]| Judge::new().expected(&Case::other("", kind, numbers, bytes.to_vec())).unwrap().text;
    assert_eq!(text(Kind::Label, [9, 7], &[]), "A 0 9 0 0\nB 43 6F 6E 74 72 6F 6C 5F 37\n");
    assert_eq!(text(Kind::Label, [9, 10], &[]), "A 9 0 0 0\nB\n");
    assert_eq!(text(Kind::Guid, [0, 0], &[0; 15]), "A 10 0 0 0\nB\n");
    assert_eq!(text(Kind::Names, [0x63, 0], &[]), "B\nB\nB 4F 62 6A 65 63 74 50 61 6C 65 74 74 65\nB\n");
    assert_eq!(text(Kind::NamePart, [1, 2], &[9, 0, 0, 0, 1, 0, 0, 0, 0xA0, 0xA1, 0x50]), "B A0\n");
    assert_eq!(text(Kind::NamePart, [0, 2], &[0, 0, 0, 0, 1, 0, 0, 0, 0xA0, 0xA1, 0x50]), "B 50\n");
}

// ---- code tables joined

/// Document 02 is read in two ways, which agree on each pair; every answer comes often, and most pairs share rows.
#[test]
fn pairs_of_tables_are_joined_as_document_02_says() {
    let (judge, mut rng, mut sharing) = (Judge::new(), Rng::new(7), 0);
    let mut answers = std::collections::BTreeMap::new();
    for _ in 0..4_000 {
        let case = join::random(&mut rng);
        let number = judge.expected(&case).unwrap_or_else(|why| panic!("{why}\n{}", batch::shown(&case))).number();
        *answers.entry(number.unwrap()).or_insert(0) += 1;
        let (one, other) = case.pair();
        if let (Some(one), Some(other)) = (Codes::parse(one), Codes::parse(other)) {
            let has = |s: &plain::codes::Scope| s.rows.iter().any(|r| other.row(s.kind, s.code, r.id) == Some(r));
            sharing += one.scopes.iter().any(has) as usize;
        }
    }
    assert_eq!(Vec::from_iter(answers.keys().copied()), [0, 8, 9, 16, 17, 18]);
    assert!(answers.values().all(|&count| count > 200) && sharing > 2_000, "{answers:?}, {sharing} share rows");
}

#[test]
fn a_joined_pair_is_printed_with_what_stays() {
    let (one, other) = (join::table(0x13, &[], &[(0, 0, &[])]).bytes(), join::table(0x13, &[], &[(2, 0x64, &[(0xDC, 0x14, 1)])]).bytes());
    let text = |other: &[u8], room| Judge::new().expected(&Case::join("", &one, other, room)).unwrap().text;
    assert_eq!(text(&other, 20), "A 0 18 0 0\nB 13 00 02 00 00 00 00 00 00 02 64 00 01 00 DC 14 00 01\nK 2\n");
    assert_eq!(text(&other, 17), "A 9 0 0 0\nB\nK 17\n");
    assert_eq!(text(&other[1..], 0), "A 8 0 0 0\nB\nK 0\n");
}

// ---- the example streams

fn example(name: &str) -> Vec<u8> {
    std::fs::read(format!("{}/../examples/{name}", env!("CARGO_MANIFEST_DIR"))).unwrap()
}

#[test]
fn examples_are_listed_as_their_files_say() {
    let judge = Judge::new();
    let shapes =
        [("form-2000", Shape::Access2000), ("report-2000", Shape::Access2000), ("later-tree", Shape::Tree), ("later-scan", Shape::Scan)];
    for (name, shape) in shapes {
        let found = judge.listing(&example(&format!("{name}.input"))).unwrap();
        assert_eq!(found.text.as_bytes(), example(&format!("{name}.list")), "{name}");
        assert_eq!(found.shape, Some(shape), "{name}");
    }
    for name in ["form", "cut"] {
        let rows = crate::type_info(&judge, example(&format!("{name}.typeinfo"))).unwrap();
        assert_eq!(rows.as_bytes(), example(&format!("{name}.typeinfo.rows")));
    }
}

/// The fields of each record, one `|` between two, or `-`.
fn read(text: &str) -> String {
    let shown = |record: &Vec<Vec<u8>>| record.iter().map(|field| String::from_utf8_lossy(field)).collect::<Vec<_>>().join("|");
    plain::csv::records(text.as_bytes()).map_or("-".to_string(), |records| records.iter().map(shown).collect::<Vec<_>>().join(" "))
}

#[test]
fn sheets_are_read_as_rfc_4180_says() {
    assert_eq!(read("a,b,c,d,e\r\nf,g,h,i,\r\n"), "a|b|c|d|e f|g|h|i|");
    assert_eq!(read("\"a\"\"\",\"\",\",\",d,\"\r\n\""), "a\"||,|d|\r\n");
    for bad in ["", "\r\n", "a,b,c,d", "a,b,c,d,e,f", "a,b,c,d,e\n", "a,b,c,d,e\r\n\r\n", "a,b,c,d,\"e", "a,b,c,d,\"e\"f", "a,b,c,d,e\""] {
        assert_eq!(read(bad), "-", "{bad:?}");
    }
}
