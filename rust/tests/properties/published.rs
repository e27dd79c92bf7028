//! The cases of the text files that the Rattle program `vectors` runs: the paper's trials, refusals,
//! published examples, and answers of the published kernels. They hold the model to what others
//! wrote, and the archive with it.

use std::fs;

use crate::archive;
use crate::case::{Bytes, Case, IndexColumn, Lent, Seen, Table};
use crate::check::{agree, check, Zeroed};
use crate::written;

const DIRECTORY: &str = concat!(env!("CARGO_MANIFEST_DIR"), "/../crates/vectors/data/");

/// The fields of a line, in the order that the files' heads name.
struct Fields<'a>(std::str::Split<'a, char>);

impl Fields<'_> {
    fn text(&mut self) -> &str {
        self.0.next().expect("a field")
    }

    fn number(&mut self) -> u64 {
        self.text().parse().expect("a number")
    }

    /// Bytes in hexadecimal, a hyphen for none.
    fn bytes(&mut self) -> Bytes {
        let digits = self.text().trim_start_matches('-').as_bytes();
        let byte = |pair: &[u8]| {
            let digit = |digit: u8| char::from(digit).to_digit(16).expect("a digit");
            (digit(pair[0]) * 16 + digit(pair[1])) as u8
        };
        Bytes(digits.chunks(2).map(byte).collect())
    }

    fn table(&mut self) -> Table {
        Table {
            kind: self.number(),
            width: self.number(),
            size: self.number(),
            offset_width: self.number(),
            rows: self.number(),
            data_bit: self.number(),
            validity_bit: self.number(),
            data: self.bytes(),
            offsets: self.bytes(),
            validity: self.bytes(),
        }
    }

    fn indices(&mut self) -> IndexColumn {
        IndexColumn {
            width: self.number(),
            count: self.number(),
            validity_bit: self.number(),
            data: self.bytes(),
            validity: self.bytes(),
        }
    }
}

/// A call, and what is published of its outcome.
struct Line {
    table: Table,
    indices: IndexColumn,
    numbers: [u64; 4],
    written: Lent,
}

impl Line {
    fn new(line: &str) -> Self {
        let mut fields = Fields(line.split(' '));
        let (table, indices) = (fields.table(), fields.indices());
        assert_eq!(fields.text(), "=");
        let numbers = [fields.number(), fields.number(), fields.number(), fields.number()];
        let written =
            Lent { validity: fields.bytes(), offsets: fields.bytes(), data: fields.bytes() };
        assert_eq!(fields.0.next(), None);
        Line { table, indices, numbers, written }
    }

    /// Makes what was written below null rows zeros, and tells whether it was not. Nothing is zeroed
    /// in kinds 3 and 4: it fails if a null row there has bytes.
    fn zero_below_nulls(&mut self) -> bool {
        if self.numbers[0] != 0 {
            return false;
        }
        let kind = archive::kind(&self.table).expect("a known kind");
        let count = self.indices.count as usize;
        let Lent { validity, offsets, data } = &mut self.written;
        let published = data.clone();
        written::zero_below_nulls(kind, count, validity, offsets, data);
        *data != published
    }

    /// Runs it with outputs that have just the room needed, and with longer ones.
    fn runs(&self) {
        for more in [0, 9] {
            let longer = |bytes: &Bytes| Bytes([&bytes[..], &vec![0xEE; more]].concat());
            let filled = |bytes: &Bytes| Bytes(vec![0xEE; bytes.len() + more]);
            let each = |make: &dyn Fn(&Bytes) -> Bytes| Lent {
                validity: make(&self.written.validity),
                offsets: make(&self.written.offsets),
                data: make(&self.written.data),
            };
            let (table, indices) = (self.table.clone(), self.indices.clone());
            let case =
                Case { table, indices, lent: each(&filled), answer: filled(&Bytes(vec![0; 32])) };
            let expected = Seen::new(&case.answer, self.numbers, each(&longer));
            agree(0, &case, &check(0, &case), &expected);
        }
    }
}

fn lines(file: &str, cases: usize) -> Vec<Line> {
    let text = fs::read_to_string([DIRECTORY, file].concat()).expect(file);
    let lines = text.lines().filter(|line| !line.is_empty() && !line.starts_with('#'));
    let lines: Vec<Line> = lines.map(Line::new).collect();
    assert_eq!(lines.len(), cases);
    lines
}

fn runs_all(file: &str, cases: usize) {
    lines(file, cases).iter().for_each(Line::runs);
}

#[test]
fn trials_and_refusals_of_the_paper() {
    runs_all("trials.txt", 39);
    runs_all("refusals.txt", 36);
}

#[test]
fn null_rows_of_every_size() {
    runs_all("null-rows.txt", 116);
}

#[test]
fn examples_of_the_format_and_of_the_rust() {
    runs_all("columnar-format.txt", 12);
    runs_all("take-docs.txt", 11);
}

/// Byte for byte as they were published, save below null rows of kinds 1, 2, 5 and 6: the Rust has
/// there what its kernels find, and zeros are asked for.
#[test]
fn answers_of_the_published_kernels() {
    let mut zeroed = Zeroed::default();
    let mut empty_nulls = 0;
    for mut line in lines("take-kernels.txt", 600) {
        zeroed.add(line.table.kind, line.zero_below_nulls());
        empty_nulls += u64::from(matches!(line.table.kind, 3 | 4) && line.numbers[3] > 0);
        line.runs();
    }
    zeroed.expect("the published kernels", 10);
    assert!(empty_nulls >= 100, "{empty_nulls} of kinds 3 and 4 have null rows");
}

/// "a", and a null row whose "b" is copied.
fn copied_null(kind: u64) -> Line {
    let call = "1 0 4 2 0 0 6162 000000000100000002000000 01 2 2 0 00000100 -";
    Line::new(&format!("{kind} {call} = 0 0 2 1 01 000000000100000002000000 6162"))
}

#[test]
#[should_panic(expected = "null row 1 is not empty")]
fn bytes_of_kind_3_are_not_zeroed() {
    copied_null(3).zero_below_nulls();
}

#[test]
#[should_panic(expected = "null row 1 is not empty")]
fn bytes_of_kind_4_are_not_zeroed() {
    copied_null(4).zero_below_nulls();
}
