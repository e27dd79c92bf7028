//! `hoglidra_take` against the loops of `take.rs`, on the same buffers in one process,
//! `hoglidra_take_arrays` against both, and the range test alone against `check_bounds`.
//!
//! `cargo bench --offline` times every case; words after `--` choose the cases whose names hold
//! them all, `columns` the batches, `range` the range test. `cargo bench --offline --
//! --instructions` counts instructions under callgrind instead, of gathers for indices of 4 bytes
//! in random order; of 1 and 2 bytes only where a word names their width. Ours writes into lent
//! buffers; the Rust side allocates its outputs and frees them. docs/BENCHMARKS.md has the results.

mod arrow;
mod batch;
mod case;
mod input;
mod instructions;
mod range;
mod reference;
mod report;
mod timing;
mod written;

use std::env;

use batch::BatchCase;
use case::Case;
use range::RangeCase;

fn main() {
    let (flags, words): (Vec<String>, Vec<String>) =
        env::args().skip(1).partition(|word| word.starts_with("--"));
    let named = |name: String| words.iter().all(|word| name.contains(word.as_str()));
    let mut cases: Vec<Case> = case::cases();
    cases.retain(|case| named(case.to_string()));
    let mut batches: Vec<BatchCase> = batch::cases();
    batches.retain(|case| named(case.to_string()));
    let mut ranges: Vec<RangeCase> = range::cases();
    ranges.retain(|case| named(case.to_string()));
    let has = |flag| flags.iter().any(|word| word == flag);
    if has("--counted") {
        let cases = instructions::counted(&cases, &words);
        instructions::run(&cases, &batches, &instructions::counted_ranges(&ranges));
    } else if has("--instructions") {
        let cases = instructions::counted(&cases, &words);
        let ranges = instructions::counted_ranges(&ranges);
        instructions::print(&cases, &batches, &ranges, &words);
    } else {
        let (results, batch_results, range_results) = timing::measure(&cases, &batches, &ranges);
        if !results.is_empty() {
            report::print(&results);
        }
        if !batch_results.is_empty() {
            report::print_batches(&batch_results);
        }
        if !range_results.is_empty() {
            report::print_ranges(&range_results);
        }
    }
}
