//! Instructions a row, or a call of the range test, by valgrind's callgrind, which do not depend on
//! what else the machine does.
//!
//! The benchmark runs itself under callgrind with `--counted`: there each side of each case is
//! called once, by one function that callgrind zeroes its counts before and writes them down after,
//! into files that it numbers from 1 on. It has to be one: of several functions callgrind 3.19 zeroes
//! before the first alone.

use std::env;
use std::fs;
use std::hint::black_box;
use std::path::Path;
use std::process::Command;

use hoglidra::Kind;

use crate::batch::{BatchCase, BatchInput};
use crate::case::{Case, Order, LARGE, MIDDLE};
use crate::input::Input;
use crate::range::{self, RangeCase, RangeInput};

const COUNTED: &str = "hoglidra_counted";

#[no_mangle]
#[inline(never)]
fn hoglidra_counted(call: &mut dyn FnMut()) {
    call();
}

fn count<T>(mut call: impl FnMut() -> T) {
    hoglidra_counted(&mut || drop(black_box(call())));
}

/// Of the cases those by random indices of 4 bytes, at the two sizes that do not take minutes. Where
/// a word names an index width, also one layout by indices of 1 and 2 bytes, at the row count that
/// neither can hold.
pub fn counted(cases: &[Case], words: &[String]) -> Vec<Case> {
    let width_named = words.iter().any(|word| word.contains("index width"));
    let chosen = |case: &&Case| {
        let usual = case.index_width == 4 && case.size != LARGE;
        case.order == Order::Random && (usual || width_named && is_narrow(case))
    };
    cases.iter().filter(chosen).copied().collect()
}

fn is_narrow(case: &Case) -> bool {
    case.index_width < 4 && case.size == MIDDLE && case.layout.kind == Kind::Primitive { width: 4 }
}

pub fn counted_ranges(cases: &[RangeCase]) -> Vec<RangeCase> {
    cases.iter().filter(|case| case.count < range::MOST).copied().collect()
}

/// What runs under callgrind.
pub fn run(cases: &[Case], batches: &[BatchCase], ranges: &[RangeCase]) {
    for case in cases {
        let mut input = Input::new(*case);
        input.compare();
        let mut ours = input.ours();
        count(|| ours.take());
        let rust = input.rust();
        count(|| rust.take());
    }
    for case in batches {
        let mut input = BatchInput::new(*case);
        input.compare();
        let mut ours = input.ours();
        count(|| ours.take());
        let mut in_turn = input.in_turn();
        count(|| in_turn.take());
        let rust = input.rust();
        count(|| rust.take());
    }
    for case in ranges {
        let input = RangeInput::new(*case);
        input.compare();
        let mut ours = input.ours();
        count(|| ours.test());
        let rust = input.rust();
        count(|| rust.test());
    }
}

/// Runs the benchmark under callgrind and prints a line a case.
pub fn print(cases: &[Case], batches: &[BatchCase], ranges: &[RangeCase], words: &[String]) {
    let directory = Path::new(env!("CARGO_MANIFEST_DIR")).join("../target/callgrind");
    let _ = fs::remove_dir_all(&directory);
    fs::create_dir_all(&directory).expect("a directory for the counts");
    let counts = directory.join("counts");
    let mut valgrind = Command::new("valgrind");
    valgrind.args(["--quiet", "--tool=callgrind"]);
    valgrind.arg(format!("--callgrind-out-file={}", counts.display()));
    valgrind.arg(format!("--zero-before={COUNTED}"));
    valgrind.arg(format!("--dump-after={COUNTED}"));
    valgrind.arg(env::current_exe().expect("this program")).arg("--counted").args(words);
    assert!(valgrind.status().expect("valgrind").success(), "the counted run failed");

    let mut files = 1..;
    let mut next = || {
        let file = directory.join(format!("counts.{}", files.next().expect("a number")));
        total(&fs::read_to_string(&file).expect("a file of counts"))
    };
    if !cases.is_empty() {
        println!("| instructions a row | ours | Rust | ratio |");
        println!("|---|---|---|---|");
    }
    let mut ratios = Ratios::default();
    for case in cases {
        let [ours, rust] = [next(), next()].map(|count| count / case.count as f64);
        let ratio = ratios.add(ours, rust);
        println!("| {case} | {ours:.1} | {rust:.1} | {ratio:.2} |");
    }
    ratios.print("cases");
    if !batches.is_empty() {
        println!("| instructions a row of a column | ours | separate calls | Rust | ratios |");
        println!("|---|---|---|---|---|");
    }
    let [mut to_calls, mut to_rust] = [Ratios::default(), Ratios::default()];
    for case in batches {
        let rows = (case.size.count * case.columns) as f64;
        let [ours, in_turn, rust] = [next(), next(), next()].map(|count| count / rows);
        let ratios = [to_calls.add(ours, in_turn), to_rust.add(ours, rust)];
        let [calls, loops] = ratios.map(|ratio| format!("{ratio:.2}"));
        println!("| {case} | {ours:.1} | {in_turn:.1} | {rust:.1} | {calls}, {loops} |");
    }
    to_calls.print("batches / separate calls");
    to_rust.print("batches / Rust");
    if !ranges.is_empty() {
        println!("| instructions a call | ours | Rust | ratio |");
        println!("|---|---|---|---|");
    }
    let mut ratios = Ratios::default();
    for case in ranges {
        let [ours, rust] = [next(), next()];
        let ratio = ratios.add(ours, rust);
        println!("| {case} | {ours:.0} | {rust:.0} | {ratio:.2} |");
    }
    ratios.print("range tests");
}

/// Their geometric mean and the worst.
#[derive(Default)]
struct Ratios {
    count: usize,
    logarithms: f64,
    worst: f64,
}

impl Ratios {
    fn add(&mut self, ours: f64, other: f64) -> f64 {
        let ratio = ours / other;
        self.count += 1;
        self.logarithms += ratio.ln();
        self.worst = self.worst.max(ratio);
        ratio
    }

    fn print(&self, of: &str) {
        let Ratios { count, logarithms, worst } = *self;
        if count > 0 {
            let mean = (logarithms / count as f64).exp();
            println!("{count} {of}: geometric mean {mean:.2}, worst {worst:.2}");
        }
    }
}

/// The sum that a file of counts ends with.
fn total(counts: &str) -> f64 {
    let line = counts.lines().find_map(|line| line.strip_prefix("totals: "));
    line.and_then(|line| line.trim().parse().ok()).expect("a line of totals")
}
