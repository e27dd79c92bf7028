//! What buffers mean: bits, numbers, rows, and the rows that indices take.

use crate::case::{IndexColumn, Table};

/// A row as valid or null, and its bytes. A boolean's are one byte, 0 or 1.
#[derive(Clone, Copy)]
pub struct Row<'a> {
    pub valid: bool,
    pub bytes: &'a [u8],
}

/// As many zeros as the longest row of a fixed length has: 65,536 values of 32 bytes.
static ZEROS: [u8; 65_536 * 32] = [0; 65_536 * 32];

/// Bit j of a packed buffer with bit offset b is bit (b+j) mod 8, lowest first, of byte (b+j)
/// div 8.
fn bit(bytes: &[u8], bit_offset: u64, at: u64) -> bool {
    let at = bit_offset + at;
    bytes[(at / 8) as usize] >> (at % 8) & 1 == 1
}

/// A validity buffer of length 0 means that all rows are valid; its bit offset is then ignored.
fn valid(validity: &[u8], bit_offset: u64, at: u64) -> bool {
    validity.is_empty() || bit(validity, bit_offset, at)
}

/// Number `at` of a buffer of little-endian numbers, unsigned.
fn unsigned(bytes: &[u8], width: u64, at: u64) -> u64 {
    let start = (at * width) as usize;
    let number = bytes[start..start + width as usize].iter();
    number.rfold(0, |high, byte| high << 8 | u64::from(*byte))
}

/// Offset `at`, signed and little-endian.
pub fn offset(table: &Table, at: u64) -> i64 {
    let number = unsigned(&table.offsets, table.offset_width, at);
    match table.offset_width {
        4 => i64::from(number as u32 as i32),
        _ => number as i64,
    }
}

/// Whether index `at` is valid, and its number, which is there also under a null.
pub fn index(indices: &IndexColumn, at: u64) -> (bool, u64) {
    let valid = valid(&indices.validity, indices.validity_bit, at);
    (valid, unsigned(&indices.data, indices.width, at))
}

/// Bytes of one entry of kinds 3 and 4, in which offsets count.
pub fn entry_width(table: &Table) -> u64 {
    match table.kind {
        3 => 1,
        _ => table.width,
    }
}

pub fn entries(table: &Table, row: &Row) -> u64 {
    row.bytes.len() as u64 / entry_width(table)
}

/// The length in bytes of every row, of kinds whose rows have one length.
pub fn row_length(table: &Table) -> u64 {
    match table.kind {
        1 => table.width,
        2 => 1,
        5 => table.size * table.width,
        6 => table.size,
        _ => unreachable!("rows of kind {} have lengths of their own", table.kind),
    }
}

/// The rows of a well-formed table.
pub fn rows(table: &Table) -> Vec<Row<'_>> {
    let row = |i| Row {
        valid: valid(&table.validity, table.validity_bit, i),
        bytes: row_bytes(table, i),
    };
    (0..table.rows).map(row).collect()
}

fn row_bytes(table: &Table, i: u64) -> &[u8] {
    let (start, end) = match table.kind {
        2 => {
            let bit = bit(&table.data, table.data_bit, i);
            return if bit { &[1] } else { &[0] };
        }
        3 | 4 => {
            let byte = |at| offset(table, at) as u64 * entry_width(table);
            (byte(i), byte(i + 1))
        }
        _ => (i * row_length(table), (i + 1) * row_length(table)),
    };
    &table.data[start as usize..end as usize]
}

/// The output row of each index, of a gather that none of refusals 1 to 5 meets: null if its index is
/// null or the row that it names is. Nothing is copied.
pub fn taken<'a>(table: &'a Table, indices: &IndexColumn) -> Vec<Row<'a>> {
    let rows = rows(table);
    let take = |i| match index(indices, i) {
        (true, number) if rows[number as usize].valid => rows[number as usize],
        _ => null_row(table),
    };
    (0..indices.count).map(take).collect()
}

/// A null row of an output: empty in kinds 3 and 4, zeros in the others.
fn null_row(table: &Table) -> Row<'static> {
    let length = match table.kind {
        3 | 4 => 0,
        _ => row_length(table),
    };
    Row { valid: false, bytes: &ZEROS[..length as usize] }
}
