//! The best of several runs of each side. All cases are gone through more than once, so that a time
//! in which the machine is slow does not hit every run of one case.

use std::hint::black_box;
use std::time::{Duration, Instant};

use crate::batch::{BatchCase, BatchInput};
use crate::case::Case;
use crate::input::Input;
use crate::range::{RangeCase, RangeInput};

/// How often all cases are gone through.
const ROUNDS: usize = 2;

/// Runs of each side of a case in a round, the two sides in turn.
const RUNS: usize = 9;

/// A run repeats its call for at least this long.
const RUN: Duration = Duration::from_micros(100);

/// The best times of both sides, in nanoseconds a call.
#[derive(Clone, Copy)]
pub struct Times {
    pub ours: f64,
    pub rust: f64,
}

/// The same of a batch, and of a call of ours for each column.
#[derive(Clone, Copy)]
pub struct BatchTimes {
    pub ours: f64,
    pub in_turn: f64,
    pub rust: f64,
}

type Results = (Vec<(Case, Times)>, Vec<(BatchCase, BatchTimes)>, Vec<(RangeCase, Times)>);

pub fn measure(cases: &[Case], batches: &[BatchCase], ranges: &[RangeCase]) -> Results {
    let most = f64::INFINITY;
    let none = Times { ours: most, rust: most };
    let none_of_batch = BatchTimes { ours: most, in_turn: most, rust: most };
    let mut results: Vec<_> = cases.iter().map(|case| (*case, none)).collect();
    let mut batch_results: Vec<_> = batches.iter().map(|case| (*case, none_of_batch)).collect();
    let mut range_results: Vec<_> = ranges.iter().map(|case| (*case, none)).collect();
    for round in 1..=ROUNDS {
        let all = cases.len() + batches.len() + ranges.len();
        eprintln!("round {round} of {ROUNDS}, {all} cases");
        for (case, best) in &mut results {
            time(*case, best);
        }
        for (case, best) in &mut batch_results {
            time_batch(*case, best);
        }
        for (case, best) in &mut range_results {
            time_range(*case, best);
        }
    }
    (results, batch_results, range_results)
}

fn time(case: Case, best: &mut Times) {
    let mut input = Input::new(case);
    input.compare();
    let calls = calls(nanoseconds(3, || input.ours().take()));
    for _ in 0..RUNS {
        let mut ours = input.ours();
        best.ours = best.ours.min(nanoseconds(calls, || ours.take()));
        let rust = input.rust();
        best.rust = best.rust.min(nanoseconds(calls, || rust.take()));
    }
}

fn time_batch(case: BatchCase, best: &mut BatchTimes) {
    let mut input = BatchInput::new(case);
    input.compare();
    let calls = calls(nanoseconds(3, || input.ours().take()));
    for _ in 0..RUNS {
        let mut ours = input.ours();
        best.ours = best.ours.min(nanoseconds(calls, || ours.take()));
        let mut in_turn = input.in_turn();
        best.in_turn = best.in_turn.min(nanoseconds(calls, || in_turn.take()));
        let rust = input.rust();
        best.rust = best.rust.min(nanoseconds(calls, || rust.take()));
    }
}

fn time_range(case: RangeCase, best: &mut Times) {
    let input = RangeInput::new(case);
    input.compare();
    let calls = calls(nanoseconds(3, || input.ours().test()));
    for _ in 0..RUNS {
        let mut ours = input.ours();
        best.ours = best.ours.min(nanoseconds(calls, || ours.test()));
        let rust = input.rust();
        best.rust = best.rust.min(nanoseconds(calls, || rust.test()));
    }
}

/// How often a call of so many nanoseconds is repeated in a run.
fn calls(once: f64) -> u32 {
    (RUN.as_nanos() as f64 / once).ceil() as u32
}

fn nanoseconds<T>(calls: u32, mut call: impl FnMut() -> T) -> f64 {
    let start = Instant::now();
    for _ in 0..calls {
        black_box(call());
    }
    start.elapsed().as_nanos() as f64 / f64::from(calls)
}
