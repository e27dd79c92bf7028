//! Batches that are damaged in one place, in two or in none: in a column before it is laid out, in
//! its record, in the body, in the indices or in what is lent.

use hoglidra::raw::Record;
use hoglidra::Extent;

use super::generate::{any_indices, batch, call, extents, tables};
use super::overflow;
use crate::case::BatchCase;
use crate::check::{check_batch, randoms, Tally};
use crate::damage::{damage_indices, damage_output, damage_table, wreck_length, wreck_number};
use crate::random::Random;

const LAID_OUT: [fn(&mut Random, &mut BatchCase); 9] = [
    |random, case| {
        wreck_number(random, &mut case.columns);
        case.columns = random.pick(&[0, 33, case.columns, case.columns]);
    },
    |random, case| {
        let missing = if random.once_in(2) { 1 } else { random.below(120) };
        let length = case.descriptions.whole() as u64 * 104;
        case.descriptions.0.truncate(length.saturating_sub(missing) as usize);
    },
    |random, case| {
        let k = random.below(case.columns.max(1)) as usize;
        wreck_record(case, k, |record| wreck_number(random, &mut record.rows));
    },
    |random, case| {
        let mut rows = 0;
        wreck_record(case, 0, |record| {
            wreck_number(random, &mut record.rows);
            rows = record.rows;
        });
        for k in 1..case.descriptions.whole() {
            wreck_record(case, k, |record| record.rows = rows);
        }
    },
    // Twice, for there are six numbers here.
    |random, case| wreck_extent(random, case, wreck_either),
    |random, case| wreck_extent(random, case, wreck_either),
    |random, case| wreck_extent(random, case, wreck_end),
    |random, case| wreck_length(random, &mut case.body),
    |random, case| damage_output(random, &mut case.lent),
];

/// Changes a record, unless an earlier damage leaves none there.
fn wreck_record(case: &mut BatchCase, k: usize, wreck: impl FnOnce(&mut Record)) {
    if k < case.descriptions.whole() {
        let mut record = case.descriptions.get(k);
        wreck(&mut record);
        case.descriptions.set(k, &record);
    }
}

/// Another extent, of a body of that length.
type Wreck = fn(&mut Random, &mut Extent, u64);

fn wreck_extent(random: &mut Random, case: &mut BatchCase, wreck: Wreck) {
    let body = case.body.len() as u64;
    let k = random.below(case.columns.max(1)) as usize;
    wreck_record(case, k, |record| {
        let which = random.below(3) as usize;
        wreck(random, extents(record)[which], body);
    });
}

fn wreck_either(random: &mut Random, extent: &mut Extent, _: u64) {
    match random.below(4) {
        0 => wreck_number(random, &mut extent.start),
        1 => wreck_number(random, &mut extent.len),
        2 => extent.start = u64::MAX - random.below(40),
        _ => extent.len = 16_777_216 + random.below(2),
    }
}

/// Brings the extent's end to the body's, or about it, by its start or by its length.
fn wreck_end(random: &mut Random, extent: &mut Extent, body: u64) {
    let end = (body + random.below(4)).saturating_sub(1);
    if random.once_in(2) {
        extent.start = end.wrapping_sub(extent.len);
    } else {
        extent.len = end.saturating_sub(extent.start);
    }
}

/// A batch with up to two damages, or one of long rows.
pub fn case(random: &mut Random) -> BatchCase {
    if random.once_in(200) {
        return overflow::case(random);
    }
    let mut tables = tables(random);
    let mut indices = any_indices(random, tables[0].rows);
    let damages: Vec<u64> = (0..random.below(3)).map(|_| random.below(20)).collect();
    for damage in &damages {
        match damage {
            0..8 => {
                let k = random.below(tables.len() as u64) as usize;
                damage_table(random, &mut tables[k]);
            }
            8..11 => damage_indices(random, &mut indices, tables[0].rows),
            _ => (),
        }
    }
    let (records, body) = batch(random, &tables);
    let mut case = call(random, &records, body, indices);
    for damage in damages {
        if let Some(wreck) = LAID_OUT.get((damage as usize).wrapping_sub(11)) {
            wreck(random, &mut case);
        }
    }
    case
}

/// Every number, and each that a later column can be refused with also there. It cannot with 5: the
/// first column has as many rows, and is refused before it.
#[test]
fn damaged_batches_are_refused_as_the_model_refuses() {
    let mut tally = Tally::default();
    for mut random in randoms(21, 150_000) {
        let case = case(&mut random);
        tally.add_batch(&check_batch(random.seed, &case));
    }
    let answers = [
        "0",
        "1 first",
        "1 later",
        "2 batch",
        "2 first",
        "2 later",
        "3 batch",
        "3 first",
        "3 later",
        "4 first",
        "4 later",
        "5 first",
        "6 first",
        "6 later",
        "7 place 1",
        "7 place 2",
        "7 place 3",
        "8 batch",
    ];
    tally.expect("damaged batches", 50, &answers);
    tally.never("5 later");
}
