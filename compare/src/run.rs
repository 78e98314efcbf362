//! Comparison at scale: figures by family, by layout and by answer; the first difference, made small.

use crate::cases::{Case, Kind};
use crate::expect::{Expected, Judge};
use crate::plain::Shape;
use crate::small::smallest;
use std::collections::BTreeMap;

#[derive(Default)]
pub struct Figures {
    by_jetdb: usize,
    by_document: usize,
    families: BTreeMap<(Kind, &'static str), usize>,
    outcomes: BTreeMap<(Kind, Option<Shape>, Option<u32>), usize>,
    /// The first differences; the others are only counted.
    differences: Vec<String>,
    more: usize,
}

impl Figures {
    pub fn add(&mut self, judge: &Judge, case: &Case) {
        match judge.expected(case) {
            Ok(expected) => self.note(case, &expected),
            Err(why) if self.differences.len() < 5 => {
                let differs = |case: &Case| judge.expected(case).err().map(|why| (case.clone(), why));
                self.differences.push(smallest(case, why, &mut |cases| cases.iter().find_map(differs)));
            }
            Err(_) => self.more += 1,
        }
    }

    /// Counts a case that agreed.
    pub fn note(&mut self, case: &Case, expected: &Expected) {
        *if expected.by_jetdb { &mut self.by_jetdb } else { &mut self.by_document } += 1;
        *self.families.entry((case.kind, case.family)).or_default() += 1;
        *self.outcomes.entry((case.kind, expected.shape, expected.number())).or_default() += 1;
    }

    /// How many cases agreed, in a line each: by what was read, and by the answer.
    pub fn summary(&self) -> String {
        let mut read: BTreeMap<String, usize> = BTreeMap::new();
        let mut answers: BTreeMap<u32, usize> = BTreeMap::new();
        for (&(kind, shape, number), count) in &self.outcomes {
            *read.entry(what_was_read(kind, shape, number)).or_default() += count;
            if let Some(number) = number {
                *answers.entry(number).or_default() += count;
            }
        }
        let of = |(what, count): (&dyn std::fmt::Display, &usize)| format!("{what}: {count}");
        let read: Vec<String> = read.iter().map(|(what, count)| of((what, count))).collect();
        let answers: Vec<String> = answers.iter().map(|(number, count)| of((number, count))).collect();
        format!(
            "by jetdb {}, by document 01 alone {}\nread: {}\nanswers: {}\n",
            self.by_jetdb,
            self.by_document,
            read.join(", "),
            answers.join(", ")
        )
    }

    pub fn print(&self) {
        println!("jetdb agreed on {} cases; document 01 alone judged {}", self.by_jetdb, self.by_document);
        for ((kind, family), count) in &self.families {
            println!("family  {kind:?} {family}: {count}");
        }
        for ((kind, shape, number), count) in &self.outcomes {
            let shape = shape.map_or("-".to_string(), |s| format!("{s:?}"));
            let number = number.map_or("-".to_string(), |n| n.to_string());
            println!("outcome {kind:?} {shape} answer {number}: {count}");
        }
        println!("differences: {}", self.differences.len() + self.more);
        for difference in &self.differences {
            println!("{difference}\n");
        }
    }

    pub fn is_clean(&self) -> bool {
        self.differences.is_empty()
    }
}

/// The layout of a Blob, or another kind; a Blob without a reading is of the Access 2000 layout, or its code table is refused.
fn what_was_read(kind: Kind, shape: Option<Shape>, number: Option<u32>) -> String {
    match (kind, shape, number) {
        (Kind::Blob, Some(shape), _) => format!("Blob {shape:?}"),
        (Kind::Blob, None, Some(4)) => format!("Blob {:?}", Shape::Access2000),
        (Kind::Blob, None, _) => "Blob with a refused table".to_string(),
        _ => format!("{kind:?}"),
    }
}
