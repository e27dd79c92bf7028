//! The comparison that the tests share, and the count of what they met.

use std::collections::BTreeMap;
use std::fmt::Debug;

use crate::archive;
use crate::case::{BatchCase, Case, Seen};
use crate::model::{self, At};
use crate::random::Random;

pub const GATHERED: [&str; 6] =
    ["0 kind 1", "0 kind 2", "0 kind 3", "0 kind 4", "0 kind 5", "0 kind 6"];
pub const SPACE: [&str; 3] = ["7 place 1", "7 place 2", "7 place 3"];

/// How often each answer was met, by number: 0 and 6 by kind, 7 by place; those of a batch by the
/// column that they are of.
#[derive(Default)]
pub struct Tally(BTreeMap<String, u64>);

/// How many answers of the Rust, by kind, have other bytes than zeros below a null row.
#[derive(Default)]
pub struct Zeroed([u64; 7]);

/// Seeds of one test, apart from those of the others.
pub fn randoms(test: u64, count: u64) -> impl Iterator<Item = Random> {
    (0..count).map(move |i| Random::new(test << 32 | i))
}

/// Compares everything that a call tells with the model: by the raw entry, and by `take`.
pub fn check(seed: u64, case: &Case) -> Seen {
    let expected = model::gather(case);
    agree(seed, case, &archive::gather(case), &expected);
    if let Some(seen) = archive::gather_safely(case) {
        agree(seed, case, &seen, &expected);
    }
    expected
}

/// The same of a batch, by the raw entry and by `take_arrays`.
pub fn check_batch(seed: u64, case: &BatchCase) -> (Seen, Option<At>) {
    let (expected, at) = model::gather_batch(case);
    agree(seed, case, &archive::gather_batch(case), &expected);
    if let Some(seen) = archive::gather_batch_safely(case) {
        agree(seed, case, &seen, &expected);
    }
    (expected, at)
}

/// Fails with all that is needed to replay the case.
#[track_caller]
pub fn agree(seed: u64, case: &impl Debug, seen: &Seen, expected: &Seen) {
    assert!(seen == expected, "seed {seed:#x}\n{case:#?}\nseen {seen:#?}\nexpected {expected:#?}");
}

impl Tally {
    pub fn add(&mut self, case: &Case, seen: &Seen) {
        self.count(match (seen.returned, seen.place()) {
            (number @ (0 | 6), _) => format!("{number} kind {}", case.table.kind),
            (7, Some(place)) => format!("7 place {place}"),
            (7, None) => "7 short answer".to_string(),
            (number, _) => number.to_string(),
        });
    }

    pub fn add_batch(&mut self, (seen, at): &(Seen, Option<At>)) {
        let number = seen.returned;
        self.count(match (at, seen.place()) {
            (None, _) => number.to_string(),
            (Some(At::Batch), _) => format!("{number} batch"),
            (Some(At::Column(0)), _) => format!("{number} first"),
            (Some(At::Column(_)), _) => format!("{number} later"),
            (Some(At::Space), place) => format!("{number} place {}", place.unwrap_or_default()),
        });
    }

    fn count(&mut self, met: String) {
        *self.0.entry(met).or_default() += 1;
    }

    /// Asserts that an answer was not met.
    pub fn never(&self, answer: &str) {
        assert_eq!(self.0.get(answer), None, "answer {answer}");
    }

    /// Prints the counts, and asserts that each of `answers` was met at least that often.
    pub fn expect(&self, test: &str, least: u64, answers: &[&str]) {
        println!("{test}: {} cases, {:?}", self.0.values().sum::<u64>(), self.0);
        for answer in answers {
            let met = self.0.get(*answer).copied().unwrap_or_default();
            assert!(met >= least, "{test}: answer {answer} met {met} times");
        }
    }
}

impl Zeroed {
    pub fn add(&mut self, kind: u64, zeroed: bool) {
        self.0[kind as usize] += u64::from(zeroed);
    }

    /// Prints the counts, and asserts that kinds 1, 2, 5 and 6 have at least that many, and kinds 3
    /// and 4 none.
    pub fn expect(&self, test: &str, least: u64) {
        let [_, kinds @ ..] = self.0;
        println!("{test}: zeroed below null rows, by kind: {kinds:?}");
        for (kind, zeroed) in (1..).zip(kinds) {
            let fit = if matches!(kind, 3 | 4) { zeroed == 0 } else { zeroed >= least };
            assert!(fit, "{test}: {zeroed} of kind {kind} were zeroed");
        }
    }
}
