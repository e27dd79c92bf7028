//! The results of timing: a line a case, a table by layout and size, and one line over all; then the
//! same of batches, by their number of columns, and of the range test, by what is outside.

use crate::batch::{self, BatchCase};
use crate::case::{self, Case, SIZES, SMALL};
use crate::range::{self, RangeCase};
use crate::timing::{BatchTimes, Times};

pub fn print(results: &[(Case, Times)]) {
    let ratios: Vec<(Case, f64)> =
        results.iter().map(|(case, times)| (*case, times.ours / times.rust)).collect();
    for ((case, times), (_, ratio)) in results.iter().zip(&ratios) {
        let rows = case.count as f64;
        let (ours, rust) = (times.ours / rows, times.rust / rows);
        println!("{case}: {ours:.2} and {rust:.2} ns a row, ratio {ratio:.2}");
    }
    println!();
    println!("| ours / Rust: mean (worst) | 1,000,000 | 65,536 by 100,000 | 4,096 by 40 |");
    println!("|---|---|---|---|");
    for layout in case::layouts() {
        let cell = |size| summary(&ratios, |case| case.layout == layout && case.size == size);
        println!("| {layout} | {} |", SIZES.map(cell).join(" | "));
    }
    for nulls in case::NULLS {
        let cell = |size| summary(&ratios, |case| case.nulls == nulls && case.size == size);
        println!("| {nulls} | {} |", SIZES.map(cell).join(" | "));
    }
    println!();
    println!("4,096 by 40: {}", summary(&ratios, |case| case.size == SMALL));
    let (mean, worst) = mean_and_worst(ratios.iter().map(|(_, ratio)| *ratio));
    println!("{} cases: geometric mean {mean:.2}, worst {worst:.2}", ratios.len());
}

pub fn print_batches(results: &[(BatchCase, BatchTimes)]) {
    let ratios = |other: fn(&BatchTimes) -> f64| -> Vec<(BatchCase, f64)> {
        results.iter().map(|(case, times)| (*case, times.ours / other(times))).collect()
    };
    let sides =
        [("separate calls", ratios(|times| times.in_turn)), ("Rust", ratios(|times| times.rust))];
    println!();
    for (i, (case, times)) in results.iter().enumerate() {
        let rows = (case.size.count * case.columns) as f64;
        let [ours, in_turn, rust] = [times.ours, times.in_turn, times.rust].map(|time| time / rows);
        let [(_, to_calls), (_, to_rust)] = sides.each_ref().map(|(_, ratios)| ratios[i]);
        println!(
            "{case}: {ours:.2}, {in_turn:.2} and {rust:.2} ns a row of a column, \
             ratio {to_calls:.2} to separate calls, {to_rust:.2} to Rust"
        );
    }
    println!();
    println!("| take_arrays: mean (worst) | 65,536 by 100,000 | 4,096 by 40 |");
    println!("|---|---|---|");
    for (side, ratios) in &sides {
        for columns in batch::COLUMNS {
            let cell = |size| summary(ratios, |case| case.columns == columns && case.size == size);
            println!("| {columns} columns / {side} | {} |", batch::SIZES.map(cell).join(" | "));
        }
    }
    println!();
    for (side, ratios) in &sides {
        let (mean, worst) = mean_and_worst(ratios.iter().map(|(_, ratio)| *ratio));
        let batches = ratios.len();
        println!("{batches} batches / {side}: geometric mean {mean:.2}, worst {worst:.2}");
    }
}

pub fn print_ranges(results: &[(RangeCase, Times)]) {
    let ratios: Vec<(RangeCase, f64)> =
        results.iter().map(|(case, times)| (*case, times.ours / times.rust)).collect();
    println!();
    for ((case, Times { ours, rust }), (_, ratio)) in results.iter().zip(&ratios) {
        println!("{case}: {ours:.0} and {rust:.0} ns a call, ratio {ratio:.2}");
    }
    println!();
    println!("| range test, ours / Rust: mean (worst) | 1,000,000 | 100,000 | 40 |");
    println!("|---|---|---|---|");
    for outside in range::OUTSIDE {
        let cell = |count| summary(&ratios, |case| case.outside == outside && case.count == count);
        println!("| {outside} | {} |", range::COUNTS.map(cell).join(" | "));
    }
    println!();
    let (mean, worst) = mean_and_worst(ratios.iter().map(|(_, ratio)| *ratio));
    println!("{} range tests: geometric mean {mean:.2}, worst {worst:.2}", ratios.len());
}

fn summary<C>(ratios: &[(C, f64)], chosen: impl Fn(&C) -> bool) -> String {
    let of = ratios.iter().filter(|(case, _)| chosen(case)).map(|(_, ratio)| *ratio);
    let (mean, worst) = mean_and_worst(of);
    if worst == 0.0 {
        return "-".into();
    }
    format!("{mean:.2} ({worst:.2})")
}

/// The geometric mean and the largest.
fn mean_and_worst(ratios: impl Iterator<Item = f64>) -> (f64, f64) {
    let (mut logarithms, mut count, mut worst) = (0.0, 0, 0.0f64);
    for ratio in ratios {
        logarithms += ratio.ln();
        count += 1;
        worst = worst.max(ratio);
    }
    ((logarithms / f64::from(count)).exp(), worst)
}
