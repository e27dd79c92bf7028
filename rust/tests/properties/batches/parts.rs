//! A batch against gathers of its columns one by one, and the helpers that find a column again in
//! the joined outputs.

use hoglidra::{Batch, Column, Part};

use super::generate;
use crate::archive::{self, descriptions};
use crate::case::{BatchCase, Bytes, Case, Lent, Table};
use crate::check::{agree, randoms};
use crate::damage::damage_any;
use crate::model;

/// The gather of a column by itself, with the same output as lent to the batch.
fn alone(case: &BatchCase, table: Table) -> Case {
    Case {
        table,
        indices: case.indices.clone(),
        lent: case.lent.clone(),
        answer: case.answer.clone(),
    }
}

/// A column's part of the joined outputs.
pub fn own(joined: &Lent, part: &Part) -> Lent {
    let Part { validity, offsets, data } = part.clone();
    Lent {
        validity: Bytes(joined.validity[validity].to_vec()),
        offsets: Bytes(joined.offsets[offsets].to_vec()),
        data: Bytes(joined.data[data].to_vec()),
    }
}

/// Sums, and each part the bytes of the column's own gather.
#[test]
fn parts_are_what_separate_gathers_write() {
    let mut gathered = 0;
    for mut random in randoms(38, 8000) {
        let case = generate::case(&mut random);
        let seen = archive::gather_batch(&case);
        if seen.returned != 0 {
            continue;
        }
        gathered += 1;
        let columns = descriptions(&case).expect("known kinds");
        let batch = Batch { columns: &columns, body: &case.body };
        let count = case.indices.count as usize;
        let parts: Vec<_> = batch.parts(count, &seen.lent.offsets).collect();
        assert_eq!(parts.len(), columns.len());
        let (mut total, mut nulls) = (0, 0);
        let mut ends = [0; 3];
        for (k, (table, _)) in model::columns(&case).into_iter().enumerate() {
            let part = &parts[k];
            assert_eq!(ends, [part.validity.start, part.offsets.start, part.data.start]);
            ends = [part.validity.end, part.offsets.end, part.data.end];
            let own = own(&seen.lent, part);
            // Lent exactly as many bytes, it writes them all.
            let mut alone = alone(&case, table);
            alone.lent = Lent {
                validity: random.bytes(own.validity.len()),
                offsets: random.bytes(own.offsets.len()),
                data: random.bytes(own.data.len()),
            };
            let taken = archive::gather(&alone);
            let [number, _, taken_total, taken_nulls] = taken.numbers().expect("a whole answer");
            assert_eq!((number, taken_total), (0, own.data.len() as u64), "{alone:#?}");
            assert_eq!(taken.lent, own, "seed {:#x}, column {k}\n{case:#?}", random.seed);
            (total, nulls) = (total + taken_total, nulls + taken_nulls);
            assert_eq!(batch.column(k), column(&alone.table));
        }
        assert_eq!(seen.numbers(), Some([0, 0, total, nulls]));
    }
    assert!(gathered >= 1000, "{gathered} batches were gathered");
}

/// The column that a batch should hand out.
fn column(table: &Table) -> Option<Column<'_>> {
    let column = archive::column(table)?;
    let validity = column.validity.filter(|bits| !bits.bytes.is_empty());
    Some(Column { validity, ..column })
}

/// Answer and all, also where it is refused.
#[test]
fn a_batch_of_one_column_is_that_column() {
    let mut met = [0; 8];
    for mut random in randoms(39, 30_000) {
        let mut single = crate::generate::case(&mut random);
        if random.once_in(2) {
            damage_any(&mut random, &mut single);
        }
        let tables = [single.table.clone()];
        let (records, body) = generate::lay_out(&mut random, &tables);
        let mut case = generate::unlent(&mut random, &records, body, single.indices.clone());
        (case.lent, case.answer) = (single.lent.clone(), single.answer.clone());
        let seen = archive::gather(&single);
        agree(random.seed, &case, &archive::gather_batch(&case), &seen);
        met[seen.returned as usize] += 1;
    }
    println!("batches of one column, by number: {met:?}");
    for number in [0, 1, 2, 3, 4, 5, 7] {
        assert!(met[number] >= 300, "number {number} met {} times", met[number]);
    }
}
