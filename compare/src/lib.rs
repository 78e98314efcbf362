//! jetdb's readers against document 01. README.md says what is compared and how.

// jetdb's files name their neighbours by `crate::`, so their modules stand at the root.
include!(concat!(env!("OUT_DIR"), "/jetdb.rs"));

mod batch;
mod blob_texts;
pub mod c;
mod cases;
mod differ;
mod expect;
mod judge;
mod large;
mod listing;
mod long;
mod oracle;
mod paired;
mod pairs;
mod panels;
mod plain;
mod program;
mod rewrites;
mod run;
mod sheets;
mod small;
mod speed;
mod stubs;
#[cfg(test)]
mod tests;
mod totals;

use cases::rng::Rng;
use cases::{fixed, join, leaves, readers, Case};
use expect::Judge;
use std::io::{Read, Write};
use std::process::ExitCode;
use stubs::{file, format, storage};

const USAGE: &str = "\
compare codes FILE                         writes jetdb's code table
compare list < INPUT                       what formlist prints for an input
compare rows < BLOB                        all rows of a Blob under jetdb's table, as words
compare typeinfo < STREAM                  all rows of a TypeInfo stream, each with the bytes of its name
compare all LONGEST                        every exhaustive case, of so many parts
compare random SEED COUNT                  random cases
compare batch SEED COUNT NAME [LONGEST]    writes NAME.cases and NAME.expected, no case over LONGEST bytes (32768)
compare judge NAME.cases PRINTED           holds what a program printed against what must be printed
compare run COUNT SEED PROGRAM ..          fresh cases through a program that reads batch files; stops at the first difference
compare rewrites COUNT SEED                streams rewritten by document 02 read plainly, and read again by the plain reader and by jetdb
compare joins COUNT SEED [PROGRAM ..]      pairs of code tables alone; without a program document 02 is read in two ways
compare readers COUNT SEED [PROGRAM ..]    Blobs for the reader of one layout alone, in the same way
compare pairings COUNT SEED [PROGRAM ..]   TypeInfo with a later Blob alone, paired, in the same way
compare listings COUNT SEED [PROGRAM ..]   inputs of formlist alone, in the same way
compare names COUNT SEED PROGRAM ..        the names of the first COUNT ids (65536: all), in the same way; SEED has no part in it
";

/// The program's main function.
pub fn main() -> ExitCode {
    let words: Vec<String> = std::env::args().skip(1).collect();
    let words: Vec<&str> = words.iter().map(String::as_str).collect();
    match command(&words) {
        Ok(true) => ExitCode::SUCCESS,
        Ok(false) => ExitCode::FAILURE,
        Err(why) => {
            eprintln!("{why}");
            ExitCode::FAILURE
        }
    }
}

fn command(words: &[&str]) -> Result<bool, String> {
    let judge = Judge::new();
    match *words {
        ["codes", file] => save(file, &judge.table),
        ["list"] => print(&judge.listing(&input()?)?.text),
        ["rows"] => {
            let words = [plain::CONTROL_WORDS.max(plain::PROPERTY_WORDS) as u32 * plain::LONGEST as u32; 2];
            print(&judge.expected(&Case { numbers: words, ..Case::blob("", input()?) })?.text)
        }
        ["typeinfo"] => print(&type_info(&judge, input()?)?),
        ["all", longest] => Ok(all(&judge, number(longest)? as usize)),
        ["random", seed, count] => Ok(random(&judge, number(seed)?, number(count)?)),
        ["batch", seed, count, name] => write_batch(&judge, number(seed)?, number(count)?, name, listing::BUFFER as u64),
        ["batch", seed, count, name, longest] => write_batch(&judge, number(seed)?, number(count)?, name, number(longest)?),
        ["judge", cases, printed] => {
            let printed = String::from_utf8(load(printed)?).map_err(|e| e.to_string())?;
            let agreed = batch::judge(&judge, &load(cases)?, &printed)?;
            print(&format!("{agreed} cases agree\n"))
        }
        ["run", count, seed, ref program @ ..] if !program.is_empty() => {
            through(&judge, number(count)? as usize, number(seed)?, program, batch::drawn)
        }
        ["rewrites", count, seed] => Ok(rewrites::compare(None, number(count)? as usize, number(seed)?)),
        ["joins", count, seed] => Ok(alone(&judge, number(seed)?, number(count)?, join::random)),
        ["readers", count, seed] => Ok(alone(&judge, number(seed)?, number(count)?, readers::random)),
        ["readers", count, seed, ref program @ ..] if !program.is_empty() => {
            through(&judge, number(count)? as usize, number(seed)?, program, batch::readers)
        }
        ["pairings", count, seed] => Ok(alone(&judge, number(seed)?, number(count)?, paired::random)),
        ["pairings", count, seed, ref program @ ..] if !program.is_empty() => {
            through(&judge, number(count)? as usize, number(seed)?, program, batch::pairings)
        }
        ["listings", count, seed] => Ok(alone(&judge, number(seed)?, number(count)?, cases::random::input)),
        ["listings", count, seed, ref program @ ..] if !program.is_empty() => {
            through(&judge, number(count)? as usize, number(seed)?, program, batch::listings)
        }
        ["names", count, seed, ref program @ ..] if !program.is_empty() => {
            through(&judge, number(count)? as usize, number(seed)?, program, batch::names)
        }
        ["joins", count, seed, ref program @ ..] if !program.is_empty() => {
            through(&judge, number(count)? as usize, number(seed)?, program, batch::joins)
        }
        _ => Err(USAGE.to_string()),
    }
}

fn number(word: &str) -> Result<u64, String> {
    word.parse().map_err(|e| format!("{word}: {e}"))
}

fn input() -> Result<Vec<u8>, String> {
    let mut bytes = Vec::new();
    std::io::stdin().read_to_end(&mut bytes).map_err(|e| e.to_string())?;
    Ok(bytes)
}

fn load(path: &str) -> Result<Vec<u8>, String> {
    std::fs::read(path).map_err(|e| format!("{path}: {e}"))
}

fn save(path: &str, bytes: &[u8]) -> Result<bool, String> {
    std::fs::write(path, bytes).map(|_| true).map_err(|e| format!("{path}: {e}"))
}

fn print(text: &str) -> Result<bool, String> {
    std::io::stdout().write_all(text.as_bytes()).map(|_| true).map_err(|e| e.to_string())
}

/// The rows of TypeInfo, each with a B line for the bytes of its name.
fn type_info(judge: &Judge, stream: Vec<u8>) -> Result<String, String> {
    let case = Case { numbers: [(plain::typeinfo::WORDS * plain::LONGEST) as u32, 0], ..Case::type_info("", stream) };
    let text = judge.expected(&case)?.text;
    let names = oracle::type_info(&case.bytes).unwrap_or_default();
    let mut names = names.iter().map(|entry| listing::bytes_line(&oracle::name_bytes(&entry.name)));
    let with_name = |line: &str| format!("{line}\n{}", if line.starts_with('T') { names.next().unwrap() } else { String::new() });
    Ok(text.lines().map(with_name).collect())
}

fn all(judge: &Judge, longest: usize) -> bool {
    let mut figures = run::Figures::default();
    let mut add = |case: Case| figures.add(judge, &case);
    let mut rng = Rng::new(1);
    fixed::telling(&mut add);
    batch::exhaustive(longest, &mut add);
    leaves::guids(&mut rng, &mut add);
    leaves::labels(&mut add);
    leaves::names(&mut rng, &mut add);
    leaves::name_parts(&mut add);
    join::telling(&mut add);
    readers::telling(&mut add);
    paired::telling(&mut add);
    figures.print();
    figures.is_clean()
}

fn random(judge: &Judge, seed: u64, count: u64) -> bool {
    let mut figures = run::Figures::default();
    let mut rng = Rng::new(seed);
    for _ in 0..count {
        figures.add(judge, &batch::chance(&mut rng));
    }
    figures.print();
    figures.is_clean()
}

/// Random cases of one kind alone.
fn alone(judge: &Judge, seed: u64, count: u64, one: fn(&mut Rng) -> Case) -> bool {
    let mut figures = run::Figures::default();
    let mut rng = Rng::new(seed);
    (0..count).for_each(|_| figures.add(judge, &one(&mut rng)));
    figures.print();
    figures.is_clean()
}

fn through(judge: &Judge, count: usize, seed: u64, words: &[&str], draw: batch::Draw) -> Result<bool, String> {
    let program = program::Program { words };
    let prints = |frames: &[u8]| program.prints(frames);
    let mut run = program::Run::new(judge, &prints);
    match run.compare(seed, count, listing::BUFFER, draw) {
        Ok(()) => print(&format!("{count} cases of seed {seed}: no difference\n{}", run.figures.summary())),
        Err(why) => Err(format!("seed {seed}: a difference\n{why}")),
    }
}

fn write_batch(judge: &Judge, seed: u64, count: u64, name: &str, longest: u64) -> Result<bool, String> {
    let cases = batch::select(seed, count as usize, longest as usize);
    let (frames, expected) = batch::written(judge, &cases)?;
    let text: String = expected.into_iter().map(|e| e.text).collect();
    save(&format!("{name}.cases"), &frames)?;
    save(&format!("{name}.expected"), text.as_bytes())?;
    print(&format!("{} cases, {} bytes of frames, {} bytes of text\n", cases.len(), frames.len(), text.len()))
}
