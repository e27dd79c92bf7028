//! The paper's refusals 1 to 7, in their order. Each test may rely on those before it.

use super::rows::{entries, entry_width, index, offset, taken, Row};
use crate::case::{IndexColumn, Lent, Table};

const MOST_ROWS: u64 = 1_048_576;
const MOST_SIZE: u64 = 65_536;
const MOST_BIT: u64 = 7;
const MOST_BYTES: u64 = 16_777_216;
const MOST_OFFSET: u64 = 2_147_483_647;

/// What is stated of a table's buffers: their lengths, and whether one that the kind uses ends past
/// the bytes that were lent. The buffers of a cut one are empty, and never looked into.
pub struct Stated {
    pub data: u64,
    pub offsets: u64,
    pub validity: u64,
    pub cut: bool,
}

impl Stated {
    /// Of a table with buffers of its own.
    fn own(table: &Table) -> Self {
        Stated {
            data: table.data.len() as u64,
            offsets: table.offsets.len() as u64,
            validity: table.validity.len() as u64,
            cut: false,
        }
    }
}

/// The four numbers of the first refusal that is met.
pub fn refused(table: &Table, indices: &IndexColumn, lent: &Lent) -> Option<[u64; 4]> {
    refused_before_space(table, &Stated::own(table), indices)
        .or_else(|| space(lent, sizes(table, indices)))
}

/// The bytes that each output needs, if none of refusals 1 to 6 is met.
pub fn needed(table: &Table, indices: &IndexColumn) -> Option<[u64; 3]> {
    let refused = refused_before_space(table, &Stated::own(table), indices).is_some();
    (!refused).then(|| sizes(table, indices))
}

/// Whether one of refusals 1 to 4 meets the table by itself.
pub fn table_refused(table: &Table) -> bool {
    malformed(table, &Stated::own(table))
}

/// The same of a table of which so much is stated.
pub fn malformed(table: &Table, stated: &Stated) -> bool {
    kind(table) || limit(table, stated) || short(table, stated) || bad_offset(table).is_some()
}

/// Whether the index column is refused before the range test.
pub fn index_refused(indices: &IndexColumn) -> bool {
    index_kind(indices) || index_limit(indices) || index_short(indices)
}

/// Refusals 1 to 6: all that does not depend on what is lent.
pub fn refused_before_space(
    table: &Table,
    stated: &Stated,
    indices: &IndexColumn,
) -> Option<[u64; 4]> {
    if kind(table) || index_kind(indices) {
        return Some([1, 0, 0, 0]);
    }
    if limit(table, stated) || index_limit(indices) {
        return Some([2, 0, 0, 0]);
    }
    if short(table, stated) || index_short(indices) {
        return Some([3, 0, 0, 0]);
    }
    if let Some(place) = bad_offset(table) {
        return Some([4, place, 0, 0]);
    }
    if let Some(place) = out_of_range(table, indices) {
        return Some([5, place, 0, 0]);
    }
    let (place, total) = overflow(table, &taken(table, indices))?;
    Some([6, place, total, 0])
}

fn kind(table: &Table) -> bool {
    let width = !matches!(table.width, 1 | 2 | 4 | 8 | 16 | 32);
    let offset_width = !matches!(table.offset_width, 4 | 8);
    match table.kind {
        1 | 5 => width,
        2 | 6 => false,
        3 => offset_width,
        4 => width || offset_width,
        _ => true,
    }
}

fn index_kind(indices: &IndexColumn) -> bool {
    !matches!(indices.width, 1 | 2 | 4 | 8)
}

fn limit(table: &Table, stated: &Stated) -> bool {
    table.rows > MOST_ROWS
        || stated.data > MOST_BYTES
        || validity_limit(stated.validity, table.validity_bit)
        || match table.kind {
            2 => table.data_bit > MOST_BIT,
            3 | 4 => stated.offsets > MOST_BYTES,
            5 | 6 => table.size > MOST_SIZE,
            _ => false,
        }
}

fn index_limit(indices: &IndexColumn) -> bool {
    indices.count > MOST_ROWS
        || indices.data.len() as u64 > MOST_BYTES
        || validity_limit(indices.validity.len() as u64, indices.validity_bit)
}

fn validity_limit(length: u64, bit_offset: u64) -> bool {
    length > MOST_BYTES || length > 0 && bit_offset > MOST_BIT
}

fn short(table: &Table, stated: &Stated) -> bool {
    let rows = table.rows;
    let data = match table.kind {
        1 => rows * table.width,
        2 => (table.data_bit + rows).div_ceil(8),
        5 => rows * table.size * table.width,
        6 => rows * table.size,
        _ => 0,
    };
    let offsets = match table.kind {
        3 | 4 => (rows + 1) * table.offset_width,
        _ => 0,
    };
    stated.cut
        || data > stated.data
        || offsets > stated.offsets
        || validity_short(stated.validity, table.validity_bit, rows)
}

fn index_short(indices: &IndexColumn) -> bool {
    indices.count * indices.width > indices.data.len() as u64
        || validity_short(indices.validity.len() as u64, indices.validity_bit, indices.count)
}

fn validity_short(length: u64, bit_offset: u64, rows: u64) -> bool {
    length > 0 && (bit_offset + rows).div_ceil(8) > length
}

/// The first offset below 0, below the one before, or above the entries that the data holds.
fn bad_offset(table: &Table) -> Option<u64> {
    if !matches!(table.kind, 3 | 4) {
        return None;
    }
    let held = (table.data.len() as u64 / entry_width(table)) as i64;
    (0..=table.rows).find(|&i| {
        let this = offset(table, i);
        this < 0 || this > held || i > 0 && this < offset(table, i - 1)
    })
}

/// The first valid index at or above the row count.
fn out_of_range(table: &Table, indices: &IndexColumn) -> Option<u64> {
    (0..indices.count).find(|&i| {
        let (valid, number) = index(indices, i);
        valid && number >= table.rows
    })
}

/// The index at which the running total leaves an offset of 4 bytes, and the total that is told.
fn overflow(table: &Table, taken: &[Row]) -> Option<(u64, u64)> {
    if !matches!((table.kind, table.offset_width), (3 | 4, 4)) {
        return None;
    }
    let mut before = 0;
    for (place, row) in taken.iter().enumerate() {
        let total = before + entries(table, row);
        if total > MOST_OFFSET {
            let told = if table.kind == 3 { total } else { before };
            return Some((place as u64, told));
        }
        before = total;
    }
    None
}

/// The bytes of validity, offsets and data that the taken rows need.
pub fn sizes(table: &Table, indices: &IndexColumn) -> [u64; 3] {
    let taken = taken(table, indices);
    let count = taken.len() as u64;
    let offsets = match table.kind {
        3 | 4 => (count + 1) * table.offset_width,
        _ => 0,
    };
    let data = match table.kind {
        2 => count.div_ceil(8),
        _ => taken.iter().map(|row| row.bytes.len() as u64).sum(),
    };
    [count.div_ceil(8), offsets, data]
}

/// Refusal 7 of the first output that is shorter than it needs to be.
pub fn space(lent: &Lent, needed: [u64; 3]) -> Option<[u64; 4]> {
    let lengths = [&lent.validity, &lent.offsets, &lent.data].map(|buffer| buffer.len() as u64);
    let place = (0..3).find(|&i| needed[i] > lengths[i])?;
    Some([7, place as u64 + 1, needed[place], 0])
}
