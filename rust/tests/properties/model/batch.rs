//! A batch: the columns that its records describe, their refusals, and the joined outputs.

use super::refusals::{refused_before_space, sizes, space, Stated};
use super::{gathered, made};
use crate::case::{BatchCase, Bytes, Lent, Seen, Table};

const MOST_COLUMNS: u64 = 32;
const RECORD: u64 = 104;

/// What a refusal is of.
#[derive(Clone, Copy, Debug, PartialEq)]
pub enum At {
    /// The number of columns, their records, or their row counts.
    Batch,
    Column(usize),
    /// The joined outputs.
    Space,
}

/// The exported entry, and what its refusal is of: a short answer slice gets 7 before every other
/// test, and nothing is written.
pub fn gather_batch(case: &BatchCase) -> (Seen, Option<At>) {
    if case.answer.len() < 32 {
        let (answer, lent) = (case.answer.clone(), case.lent.clone());
        return (Seen { returned: 7, answer, lent }, Some(At::Batch));
    }
    if let Some((at, numbers)) = refused(case) {
        return (Seen::new(&case.answer, numbers, case.lent.clone()), Some(at));
    }
    let mut joined = Lent::default();
    let mut nulls = 0;
    for (table, _) in columns(case) {
        let (column, column_nulls) = made(&table, &case.indices);
        joined.validity.extend(column.validity.iter());
        joined.offsets.extend(column.offsets.iter());
        joined.data.extend(column.data.iter());
        nulls += column_nulls;
    }
    (gathered(&case.answer, &case.lent, &joined, nulls), None)
}

/// The first refusal that is met, of what, and its four numbers.
fn refused(case: &BatchCase) -> Option<(At, [u64; 4])> {
    match refused_or_needed(case) {
        Ok(needed) => space(&case.lent, needed).map(|numbers| (At::Space, numbers)),
        Err(refusal) => Some(refusal),
    }
}

/// The bytes that each joined output needs, if nothing is refused before space.
pub fn batch_needed(case: &BatchCase) -> Option<[u64; 3]> {
    refused_or_needed(case).ok()
}

fn refused_or_needed(case: &BatchCase) -> Result<[u64; 3], (At, [u64; 4])> {
    if case.columns < 1 || case.columns > MOST_COLUMNS {
        return Err((At::Batch, [2, 0, 0, 0]));
    }
    if (case.descriptions.0.len() as u64) < case.columns * RECORD {
        return Err((At::Batch, [3, 0, 0, 0]));
    }
    let columns = columns(case);
    if columns.iter().any(|(table, _)| table.rows != columns[0].0.rows) {
        return Err((At::Batch, [8, 0, 0, 0]));
    }
    let mut joined = [0; 3];
    for (k, (table, stated)) in columns.iter().enumerate() {
        if let Some(numbers) = refused_before_space(table, stated, &case.indices) {
            return Err((At::Column(k), numbers));
        }
        let needed = sizes(table, &case.indices);
        joined = [0, 1, 2].map(|i| joined[i] + needed[i]);
    }
    Ok(joined)
}

/// The columns, each with buffers of its own, and what their records state. There must be that many
/// records.
pub fn columns(case: &BatchCase) -> Vec<(Table, Stated)> {
    let records = case.descriptions.0.chunks(RECORD as usize).take(case.columns as usize);
    records.map(|record| column(record, &case.body)).collect()
}

/// The words of a record are little-endian and stand in this order.
fn column(record: &[u8], body: &[u8]) -> (Table, Stated) {
    let words = record.chunks(8).map(|word| u64::from_le_bytes(word.try_into().unwrap()));
    let words: Vec<u64> = words.collect();
    let &[kind, width, size, offset_width, rows, data_bit, validity_bit, ref extents @ ..] =
        words.as_slice()
    else {
        unreachable!("a record has 13 words");
    };
    let &[data_start, data, offsets_start, offsets, validity_start, validity] = extents else {
        unreachable!("a record has three extents");
    };
    let uses_offsets = matches!(kind, 3 | 4);
    let cut = is_cut(data_start, data, body)
        || uses_offsets && is_cut(offsets_start, offsets, body)
        || is_cut(validity_start, validity, body);
    let table = Table {
        kind,
        width,
        size,
        offset_width,
        rows,
        data_bit,
        validity_bit,
        data: bytes(data_start, data, body),
        offsets: bytes(offsets_start, if uses_offsets { offsets } else { 0 }, body),
        validity: bytes(validity_start, validity, body),
    };
    (table, Stated { data, offsets, validity, cut })
}

/// Whether an extent ends past the body, if it is not empty.
fn is_cut(start: u64, length: u64, body: &[u8]) -> bool {
    length > 0 && u128::from(start) + u128::from(length) > body.len() as u128
}

/// The bytes of an extent; none where it is cut.
fn bytes(start: u64, length: u64, body: &[u8]) -> Bytes {
    if length == 0 || is_cut(start, length, body) {
        return Bytes::default();
    }
    Bytes(body[start as usize..][..length as usize].to_vec())
}
