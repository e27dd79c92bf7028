//! Rows of a well-formed column that no valid index names, what lies below its null rows, numbers
//! under null indices, bytes of the body that no column needs, and what follows the records leave no
//! trace, whatever the columns beside it are.

use hoglidra::raw::Record;

use super::generate::{any_indices, batch, call, extents, lay_out, tables};
use super::overflow;
use crate::archive;
use crate::case::{BatchCase, Bytes, Descriptions, IndexColumn, Seen, Table};
use crate::check::{check_batch, randoms, Tally};
use crate::damage::{damage_indices, damage_table};
use crate::model;
use crate::privacy::{copy_below_nulls, refilled_table, renumbered_indices};
use crate::random::Random;

/// Makes another call of which as much must be seen as of the given one.
type Twin = fn(&mut Random, &BatchCase) -> BatchCase;

/// The same of a column, which is well-formed.
type ColumnTwin = fn(&mut Random, &Table, &IndexColumn) -> Table;

/// A gather as a function of all that it is given.
type Gather = fn(&BatchCase) -> Seen;

/// Columns and an index column of which some may be damaged, and any output.
fn case(random: &mut Random) -> BatchCase {
    let mut tables = tables(random);
    let mut indices = any_indices(random, tables[0].rows);
    for table in &mut tables {
        if random.once_in(12) {
            damage_table(random, table);
        }
    }
    if random.once_in(6) {
        damage_indices(random, &mut indices, tables[0].rows);
    }
    let (mut records, body) = batch(random, &tables);
    for record in &mut records {
        if random.once_in(20) {
            // Cut, or not.
            let which = random.below(3) as usize;
            let about = body.len() as u64 + random.below(3);
            let extent = &mut extents(record)[which];
            extent.start = about.saturating_sub(extent.len);
        }
    }
    call(random, &records, body, indices)
}

/// The batch with each well-formed column's twin in its place, with buffers of its own. The others
/// keep their bytes and lie as far from the body's end as before; every other byte is another.
fn column_twins(random: &mut Random, case: &BatchCase, twin: ColumnTwin) -> BatchCase {
    if case.columns > case.descriptions.whole() as u64 {
        return case.clone();
    }
    let columns = model::columns(case);
    let fit: Vec<bool> =
        columns.iter().map(|(table, stated)| !model::malformed(table, stated)).collect();
    let twins: Vec<Table> = columns
        .iter()
        .zip(&fit)
        .filter(|(_, fit)| **fit)
        .map(|((table, _), _)| twin(random, table, &case.indices))
        .collect();
    let (twin_records, mut body) = lay_out(random, &twins);
    let before = body.len();
    body.extend(random.bytes(case.body.len()).iter());
    let mut twin_records = twin_records.into_iter();
    let mut records = Vec::new();
    for (k, fit) in fit.iter().enumerate() {
        records.push(if *fit {
            twin_records.next().expect("a record a twin")
        } else {
            moved(case.descriptions.get(k), &case.body, &mut body, before)
        });
    }
    let mut descriptions = Descriptions::new(&records);
    descriptions.0.extend(random.slack().iter());
    BatchCase { descriptions, body, ..case.clone() }
}

fn blanked(random: &mut Random, case: &BatchCase) -> BatchCase {
    column_twins(random, case, |_, table, indices| model::blanked(table, indices))
}

fn refilled(random: &mut Random, case: &BatchCase) -> BatchCase {
    column_twins(random, case, refilled_table)
}

/// Other numbers under null indices.
fn renumbered(random: &mut Random, case: &BatchCase) -> BatchCase {
    let rows = case.descriptions.get(0).rows;
    BatchCase { indices: renumbered_indices(random, &case.indices, rows), ..case.clone() }
}

/// A record whose extents lie `before` bytes later, and the bytes of the body that they hold.
fn moved(mut record: Record, old: &Bytes, body: &mut Bytes, before: usize) -> Record {
    for extent in extents(&mut record) {
        let end = extent.start.saturating_add(extent.len).min(old.len() as u64);
        let held = extent.start.min(end) as usize..end as usize;
        body[before..][held.clone()].copy_from_slice(&old[held]);
        extent.start = extent.start.saturating_add(before as u64);
    }
    record
}

/// The archive tells nothing apart, and on both calls it does what the model does.
fn leaves_no_trace(test: u64, name: &str, twin: Twin) {
    let mut tally = Tally::default();
    for mut random in randoms(test, 20_000) {
        let case = case(&mut random);
        let twin = twin(&mut random, &case);
        let same = archive::gather_batch(&case) == archive::gather_batch(&twin);
        assert!(same, "seed {:#x}\n{case:#?}\ntwin {twin:#?}", random.seed);
        check_batch(random.seed, &twin);
        tally.add_batch(&check_batch(random.seed, &case));
    }
    let answers = [
        "0",
        "1 first",
        "1 later",
        "2 first",
        "2 later",
        "3 first",
        "3 later",
        "4 later",
        "5 first",
        "7 place 1",
        "7 place 2",
        "7 place 3",
        "8 batch",
    ];
    tally.expect(name, 50, &answers);
}

#[test]
fn blanking_unreached_rows_of_each_column_changes_nothing() {
    leaves_no_trace(41, "blanked batches", blanked);
}

#[test]
fn refilling_unreached_and_null_rows_of_each_column_changes_nothing() {
    leaves_no_trace(42, "refilled batches", refilled);
}

#[test]
fn numbers_under_null_indices_change_nothing() {
    leaves_no_trace(49, "renumbered batches", renumbered);
}

#[test]
fn blanking_changes_no_overflow() {
    let mut tally = Tally::default();
    for mut random in randoms(43, 60) {
        let case = overflow::case(&mut random);
        let blank = blanked(&mut random, &case);
        assert!(archive::gather_batch(&case) == archive::gather_batch(&blank));
        check_batch(random.seed, &blank);
        tally.add_batch(&check_batch(random.seed, &case));
    }
    tally.expect("blanked batches of long rows", 3, &["6 first", "6 later"]);
}

/// Gathers that leak, each with a twin that must give it away.
const LEAKS: [(&str, Gather, Twin); 8] = [
    ("the body's length", tells_body_length, refilled),
    ("a null of a column that is refused after it", tells_first_nulls, refilled),
    ("a byte of the neighbour", writes_neighbour, refilled),
    ("a row under a null index, blanked", follows_null_indices, blanked),
    ("a row under a null index, refilled", follows_null_indices, refilled),
    ("a row under a null index, renumbered", follows_null_indices, renumbered),
    ("what lies below a null row, blanked", copies_null_rows, blanked),
    ("what lies below a null row, refilled", copies_null_rows, refilled),
];

fn tells_body_length(case: &BatchCase) -> Seen {
    let (mut seen, _) = model::gather_batch(case);
    if matches!(seen.returned, 5 | 7) {
        seen.answer[24..32].copy_from_slice(&case.body.len().to_le_bytes());
    }
    seen
}

fn tells_first_nulls(case: &BatchCase) -> Seen {
    let (mut seen, at) = model::gather_batch(case);
    if let Some(model::At::Column(1..)) = at {
        let (first, _) = &model::columns(case)[0];
        let nulls = model::rows(first).iter().filter(|row| !row.valid).count();
        seen.answer[24..32].copy_from_slice(&nulls.to_le_bytes());
    }
    seen
}

fn writes_neighbour(case: &BatchCase) -> Seen {
    let (mut seen, at) = model::gather_batch(case);
    if let (None, [.., (last, _)]) = (at, model::columns(case).as_slice()) {
        if let (Some(byte), Some(first)) = (last.data.first(), seen.lent.data.first_mut()) {
            *first = *byte;
        }
    }
    seen
}

/// Copies a valid row of the first column whose number stands under a null index.
fn follows_null_indices(case: &BatchCase) -> Seen {
    copies_below_nulls(case, false)
}

/// Copies what lies below a null row of the first column that a valid index names.
fn copies_null_rows(case: &BatchCase) -> Seen {
    copies_below_nulls(case, true)
}

fn copies_below_nulls(case: &BatchCase, by_valid: bool) -> Seen {
    let (mut seen, at) = model::gather_batch(case);
    if at.is_none() {
        let (first, _) = &model::columns(case)[0];
        copy_below_nulls(first, &case.indices, by_valid, &mut seen.lent.data);
    }
    seen
}

#[test]
fn leaks_would_be_seen() {
    for (name, leak, twin) in LEAKS {
        let mut told = 0;
        for mut random in randoms(44, 3000) {
            let case = case(&mut random);
            let twin = twin(&mut random, &case);
            told += u64::from(leak(&case) != leak(&twin));
        }
        println!("leak of {name}: seen in {told} of 3000 batches");
        assert!(told >= 60, "{name}: seen in {told} batches");
    }
}
