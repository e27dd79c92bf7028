//! Rows that no valid index names, what lies below null rows, numbers under null indices, and bytes
//! that no row has leave no trace in anything that is seen.

use crate::archive;
use crate::case::{Bytes, Case, IndexColumn, Seen, Table};
use crate::check::{check, randoms, Tally, GATHERED, SPACE};
use crate::damage::damage_indices;
use crate::generate::{self, encode, lay_out, lay_out_indices, Row};
use crate::model;
use crate::overflow;
use crate::random::Random;

/// Makes another call of which as much must be seen as of the given one.
type Twin = fn(&mut Random, &Case) -> Case;

/// A gather as a function of all that it is given.
type Gather = fn(&Case) -> Seen;

/// A well-formed table, an index column that may be damaged, and any output.
fn case(random: &mut Random) -> Case {
    let mut case = generate::case(random);
    if random.once_in(4) {
        damage_indices(random, &mut case.indices, case.table.rows);
    }
    case
}

/// The paper's blanked table.
fn blanked(_: &mut Random, case: &Case) -> Case {
    Case { table: model::blanked(&case.table, &case.indices), ..case.clone() }
}

/// Other unreached rows: validity, values, and lengths where rows have their own. Reached rows that
/// are null stay null, over other values and lengths.
fn refilled(random: &mut Random, case: &Case) -> Case {
    Case { table: refilled_table(random, &case.table, &case.indices), ..case.clone() }
}

pub fn refilled_table(random: &mut Random, table: &Table, indices: &IndexColumn) -> Table {
    let reached = model::reached(table, indices);
    let mut rows = owned_rows(table);
    for (row, reached) in rows.iter_mut().zip(reached) {
        if !(reached && row.valid) {
            let valid = !reached && random.once_in(2);
            *row = generate::row(random, table, valid);
        }
    }
    lay_out(random, table, &rows)
}

/// Other numbers under null indices.
fn renumbered(random: &mut Random, case: &Case) -> Case {
    let rows = case.table.rows;
    Case { indices: renumbered_indices(random, &case.indices, rows), ..case.clone() }
}

/// Numbers of rows, of which there are so many, and of none.
pub fn renumbered_indices(random: &mut Random, indices: &IndexColumn, rows: u64) -> IndexColumn {
    let mut renumbered = indices.clone();
    if model::index_refused(indices) {
        return renumbered;
    }
    let width = indices.width as usize;
    for i in 0..indices.count {
        if let (false, _) = model::index(indices, i) {
            let number = match random.below(3) {
                0 => random.below(rows.max(1)),
                1 => random.edge(),
                _ => random.number(),
            };
            let bytes = &mut renumbered.data[i as usize * width..][..width];
            bytes.copy_from_slice(&encode(&[number], indices.width));
        }
    }
    renumbered
}

/// The same rows and indices amid other slack and spare bits, at other bit offsets and offsets.
fn laid_out_again(random: &mut Random, case: &Case) -> Case {
    let indices = if model::index_refused(&case.indices) {
        case.indices.clone()
    } else {
        let indices: Vec<(bool, u64)> =
            (0..case.indices.count).map(|i| model::index(&case.indices, i)).collect();
        lay_out_indices(random, case.indices.width, &indices)
    };
    Case { table: lay_out(random, &case.table, &owned_rows(&case.table)), indices, ..case.clone() }
}

fn owned_rows(table: &Table) -> Vec<Row> {
    let rows = model::rows(table)
        .into_iter()
        .map(|row| Row { valid: row.valid, bytes: Bytes(row.bytes.to_vec()) });
    rows.collect()
}

/// The comparison itself: whether anything that is seen differs.
fn tells_apart(gather: Gather, case: &Case, twin: &Case) -> bool {
    gather(case) != gather(twin)
}

/// The archive tells nothing apart, and on both calls it does what the model does.
fn no_trace(seed: u64, case: &Case, twin: &Case) -> Seen {
    assert!(
        !model::table_refused(&twin.table) && !tells_apart(archive::gather, case, twin),
        "seed {seed:#x}\n{case:#?}\ntwin {twin:#?}"
    );
    check(seed, twin);
    check(seed, case)
}

fn leaves_no_trace(test: u64, name: &str, twin: Twin) {
    let mut tally = Tally::default();
    for mut random in randoms(test, 40_000) {
        let case = case(&mut random);
        let twin = twin(&mut random, &case);
        tally.add(&case, &no_trace(random.seed, &case, &twin));
    }
    let answers = [&GATHERED[..], &["1", "2", "3", "5"], &SPACE].concat();
    tally.expect(name, 300, &answers);
}

/// Four rows, the second null, by 2, 1, null over 0, null over 9: the third alone stays.
#[test]
fn a_row_stays_if_it_is_valid_and_a_valid_index_names_it() {
    let mut random = Random::new(50 << 32);
    let indices = lay_out_indices(&mut random, 2, &[(true, 2), (true, 1), (false, 0), (false, 9)]);
    let column = |kind, data: &[u8]| Table {
        kind,
        width: 1,
        size: 2,
        offset_width: 4,
        rows: 4,
        data: Bytes(data.to_vec()),
        offsets: encode(&[0, 2, 4, 6, 8], 4),
        validity: Bytes(vec![0b1101]),
        ..Table::default()
    };
    for (kind, data, blank) in [
        (1, &b"abcd"[..], &b"\0\0c\0"[..]),
        (2, &[0b1111], &[0b0100]),
        (3, b"aabbccdd", b"cc"),
        (4, b"aabbccdd", b"cc"),
        (5, b"aabbccdd", b"\0\0\0\0cc\0\0"),
        (6, b"aabbccdd", b"\0\0\0\0cc\0\0"),
    ] {
        let blanked = model::blanked(&column(kind, data), &indices);
        assert_eq!(blanked.data[..], *blank, "kind {kind}");
        assert_eq!(blanked.validity[..], [0b0100], "kind {kind}");
        if matches!(kind, 3 | 4) {
            assert_eq!(blanked.offsets, encode(&[0, 0, 0, 2, 2], 4), "kind {kind}");
        }
    }
}

#[test]
fn blanking_unreached_rows_changes_nothing() {
    leaves_no_trace(7, "blanked", blanked);
}

#[test]
fn refilling_unreached_and_null_rows_changes_nothing() {
    leaves_no_trace(8, "refilled", refilled);
}

#[test]
fn numbers_under_null_indices_change_nothing() {
    leaves_no_trace(48, "renumbered", renumbered);
}

#[test]
fn bytes_and_bits_of_no_row_change_nothing() {
    leaves_no_trace(9, "laid out again", laid_out_again);
}

#[test]
fn blanking_changes_no_overflow() {
    let mut tally = Tally::default();
    for mut random in randoms(10, 40) {
        let case = overflow::case(&mut random);
        let twin = blanked(&mut random, &case);
        tally.add(&case, &no_trace(random.seed, &case, &twin));
    }
    tally.expect("blanked long rows", 3, &["6 kind 3", "6 kind 4"]);
}

/// Gathers that leak, each with a twin that must give it away.
const LEAKS: [(&str, Gather, Twin); 10] = [
    ("a row under a null index, blanked", follows_null_indices, blanked),
    ("a row under a null index, refilled", follows_null_indices, refilled),
    ("a row under a null index, renumbered", follows_null_indices, renumbered),
    ("what lies below a null row, blanked", copies_null_rows, blanked),
    ("what lies below a null row, refilled", copies_null_rows, refilled),
    ("the length of a null row, blanked", tells_null_lengths, blanked),
    ("the length of a null row, refilled", tells_null_lengths, refilled),
    ("the column's nulls, refilled", tells_source_nulls, refilled),
    ("the data's length, refilled", tells_data_length, refilled),
    ("a byte of no row, laid out again", writes_slack, laid_out_again),
];

#[test]
fn leaks_would_be_seen() {
    for (name, leak, twin) in LEAKS {
        let mut told = 0;
        for mut random in randoms(11, 5000) {
            let case = case(&mut random);
            let twin = twin(&mut random, &case);
            told += u64::from(tells_apart(leak, &case, &twin));
        }
        println!("leak of {name}: seen in {told} of 5000 cases");
        assert!(told >= 100, "{name}: seen in {told} cases");
    }
}

/// Copies a valid row whose number stands under a null index.
fn follows_null_indices(case: &Case) -> Seen {
    copies_below_nulls(case, false)
}

/// Copies what lies below a null row that a valid index names.
fn copies_null_rows(case: &Case) -> Seen {
    copies_below_nulls(case, true)
}

fn copies_below_nulls(case: &Case, by_valid: bool) -> Seen {
    let mut seen = model::gather(case);
    if seen.returned == 0 {
        copy_below_nulls(&case.table, &case.indices, by_valid, &mut seen.lent.data);
    }
    seen
}

/// Writes below null rows of a gathered column, in kinds whose rows have one length: the null rows
/// that valid indices name, or the valid rows whose numbers stand under null ones.
pub fn copy_below_nulls(table: &Table, indices: &IndexColumn, by_valid: bool, data: &mut [u8]) {
    let rows = model::rows(table);
    for i in 0..indices.count as usize {
        let (valid, number) = model::index(indices, i as u64);
        let copied = |row: &&model::Row| valid == by_valid && row.valid != by_valid;
        let Some(row) = rows.get(number as usize).filter(copied) else {
            continue;
        };
        let length = row.bytes.len();
        match table.kind {
            2 => data[i / 8] |= row.bytes[0] << (i % 8),
            3 | 4 => (),
            _ => data[i * length..][..length].copy_from_slice(row.bytes),
        }
    }
}

/// Counts into the total what lies below null rows that valid indices name, in kinds 3 and 4.
fn tells_null_lengths(case: &Case) -> Seen {
    let mut seen = model::gather(case);
    if seen.returned != 0 || !matches!(case.table.kind, 3 | 4) {
        return seen;
    }
    let rows = model::rows(&case.table);
    let named = (0..case.indices.count).filter_map(|i| match model::index(&case.indices, i) {
        (true, number) => Some(rows[number as usize].bytes.len()),
        (false, _) => None,
    });
    seen.answer[16..24].copy_from_slice(&named.sum::<usize>().to_le_bytes());
    seen
}

/// Counts the nulls of the column and not of the output.
fn tells_source_nulls(case: &Case) -> Seen {
    let mut seen = model::gather(case);
    if seen.returned == 0 {
        let nulls = model::rows(&case.table).iter().filter(|row| !row.valid).count();
        seen.answer[24..32].copy_from_slice(&nulls.to_le_bytes());
    }
    seen
}

/// Tells the length of the data in the total of a refusal.
fn tells_data_length(case: &Case) -> Seen {
    let mut seen = model::gather(case);
    if seen.returned == 5 {
        seen.answer[16..24].copy_from_slice(&case.table.data.len().to_le_bytes());
    }
    seen
}

/// Ends the output with the last byte of the data, which may lie behind the rows.
fn writes_slack(case: &Case) -> Seen {
    let mut seen = model::gather(case);
    if seen.returned != 0 {
        return seen;
    }
    if let (Some(byte), Some(last)) = (case.table.data.last(), seen.lent.data.last_mut()) {
        *last = *byte;
    }
    seen
}
