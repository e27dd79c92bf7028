//! The gather as the paper and its requests define it, plain and slow.
//!
//! It was written from these and the readings in docs/DECISIONS.md, without sight of the Rattle, so
//! that it errs in other places than the archive does.

mod batch;
mod blank;
mod refusals;
mod rows;

pub use batch::{batch_needed, columns, gather_batch, At};
pub use blank::{blanked, reached};
pub use refusals::{index_refused, malformed, needed, table_refused};
pub use rows::{index, rows, Row};

use crate::case::{Bytes, Case, IndexColumn, Lent, Seen, Table};

/// The exported entry: a short answer slice gets 7 before every other test, and nothing is written.
pub fn gather(case: &Case) -> Seen {
    if case.answer.len() < 32 {
        return Seen { returned: 7, answer: case.answer.clone(), lent: case.lent.clone() };
    }
    match refusals::refused(&case.table, &case.indices, &case.lent) {
        Some(numbers) => Seen::new(&case.answer, numbers, case.lent.clone()),
        None => {
            let (made, nulls) = made(&case.table, &case.indices);
            gathered(&case.answer, &case.lent, &made, nulls)
        }
    }
}

/// The bytes that a gather makes which no refusal meets, and its null rows.
fn made(table: &Table, indices: &IndexColumn) -> (Lent, u64) {
    let taken = rows::taken(table, indices);
    let made = Lent {
        validity: Bytes(packed(taken.iter().map(|row| row.valid))),
        offsets: match table.kind {
            3 | 4 => Bytes(offsets(table, &taken)),
            _ => Bytes::default(),
        },
        data: Bytes(match table.kind {
            2 => packed(taken.iter().map(|row| row.bytes[0] == 1)),
            _ => taken.iter().flat_map(|row| row.bytes).copied().collect(),
        }),
    };
    (made, taken.iter().filter(|row| !row.valid).count() as u64)
}

/// What is seen of a gather that made these bytes.
fn gathered(answer: &Bytes, lent: &Lent, made: &Lent, nulls: u64) -> Seen {
    let lent = Lent {
        validity: over(&lent.validity, &made.validity),
        offsets: over(&lent.offsets, &made.offsets),
        data: over(&lent.data, &made.data),
    };
    Seen::new(answer, [0, 0, made.data.len() as u64, nulls], lent)
}

/// Offsets of rows that lie one after another from 0 on.
fn offsets(table: &Table, rows: &[Row]) -> Vec<u8> {
    let mut total = 0;
    let mut offsets = vec![total];
    for row in rows {
        total += rows::entries(table, row);
        offsets.push(total);
    }
    let width = table.offset_width as usize;
    let bytes = offsets.iter().flat_map(|offset| {
        let bytes = offset.to_le_bytes();
        bytes.into_iter().take(width)
    });
    bytes.collect()
}

/// Bits from bit offset 0 on, spare bits 0.
fn packed(bits: impl Iterator<Item = bool>) -> Vec<u8> {
    let mut bytes = Vec::new();
    for (i, bit) in bits.enumerate() {
        if i % 8 == 0 {
            bytes.push(0);
        }
        bytes[i / 8] |= u8::from(bit) << (i % 8);
    }
    bytes
}

/// The buffer with `used` at its start; the bytes after it are unchanged.
fn over(buffer: &Bytes, used: &[u8]) -> Bytes {
    let mut buffer = buffer.clone();
    buffer[..used.len()].copy_from_slice(used);
    buffer
}
