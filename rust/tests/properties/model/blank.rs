//! The blanked table: each row that is unreached or null is null, and empty or zero.

use super::rows::{index, row_length, rows};
use super::{index_refused, offsets, packed};
use crate::case::{Bytes, IndexColumn, Table};

/// Which rows of a well-formed table a non-null index names.
pub fn reached(table: &Table, indices: &IndexColumn) -> Vec<bool> {
    let mut reached = vec![false; table.rows as usize];
    if index_refused(indices) {
        return reached;
    }
    for i in 0..indices.count {
        let (valid, number) = index(indices, i);
        if valid && number < table.rows {
            reached[number as usize] = true;
        }
    }
    reached
}

/// A well-formed table in which a row stays only if it is reached and valid.
pub fn blanked(table: &Table, indices: &IndexColumn) -> Table {
    let stays: Vec<bool> = reached(table, indices)
        .into_iter()
        .zip(rows(table))
        .map(|(reached, row)| reached && row.valid)
        .collect();
    let mut blank = present_validity(table);
    for i in (0..table.rows).filter(|&i| !stays[i as usize]) {
        clear_bit(&mut blank.validity, blank.validity_bit, i);
        match table.kind {
            2 => clear_bit(&mut blank.data, table.data_bit, i),
            3 | 4 => (),
            _ => {
                let length = row_length(table) as usize;
                blank.data[i as usize * length..][..length].fill(0);
            }
        }
    }
    if matches!(table.kind, 3 | 4) {
        keep(table, &stays, &mut blank);
    }
    blank
}

/// The same table; an absent validity becomes a buffer at bit offset 0, all valid.
fn present_validity(table: &Table) -> Table {
    let mut table = table.clone();
    if table.validity.is_empty() {
        table.validity = Bytes(packed((0..table.rows).map(|_| true)));
        table.validity_bit = 0;
    }
    table
}

/// Offsets from 0 on, and the data of the rows that stay, in row order.
fn keep(table: &Table, stays: &[bool], blank: &mut Table) {
    let mut rows = rows(table);
    for (row, stays) in rows.iter_mut().zip(stays) {
        if !stays {
            row.bytes = &[];
        }
    }
    blank.offsets = Bytes(offsets(table, &rows));
    blank.data = Bytes(rows.iter().flat_map(|row| row.bytes).copied().collect());
}

fn clear_bit(bytes: &mut Bytes, bit_offset: u64, at: u64) {
    let at = bit_offset + at;
    bytes[(at / 8) as usize] &= !(1 << (at % 8));
}
