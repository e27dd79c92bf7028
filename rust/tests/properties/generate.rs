//! Random well-formed columns, index columns over them, and outputs to lend.
//!
//! A column is made in two steps, its rows and then its buffers, so that the same rows can be laid
//! out again with other slack, spare bits and bit offsets.

use crate::case::{Bytes, Case, IndexColumn, Lent, Table};
use crate::model;
use crate::random::Random;

/// A row before it is laid out. A boolean's bytes are one byte, 0 or 1.
pub struct Row {
    pub valid: bool,
    pub bytes: Bytes,
}

const WIDTHS: [u64; 6] = [1, 2, 4, 8, 16, 32];
const SIZES: [u64; 17] = [0, 1, 2, 3, 4, 5, 7, 8, 12, 15, 16, 17, 31, 32, 33, 64, 100];
/// Longer outputs than this are not lent, to keep the tests quick.
const MOST_LENT: u64 = 1 << 23;

/// A call on well-formed columns, with any output.
pub fn case(random: &mut Random) -> Case {
    let table = table(random);
    let most = most_rows(random);
    let indices = indices(random, table.rows, most);
    let slack = random.slack().len();
    let needed = model::needed(&table, &indices);
    Case { lent: lent(random, needed), table, indices, answer: random.bytes(32 + slack) }
}

fn table(random: &mut Random) -> Table {
    let shape = shape(random);
    let most = match shape.kind {
        5 | 6 if shape.size == 65_536 => 3,
        _ => most_rows(random),
    };
    let count = random.below(most + 1);
    fill(random, &shape, count)
}

/// A column of the shape, with so many rows.
pub fn fill(random: &mut Random, shape: &Table, count: u64) -> Table {
    let rows: Vec<Row> =
        validity(random, count).into_iter().map(|valid| row(random, shape, valid)).collect();
    lay_out(random, shape, &rows)
}

fn most_rows(random: &mut Random) -> u64 {
    if random.once_in(1000) {
        5000
    } else {
        70
    }
}

/// A kind with its numbers, no row yet. Fields that the kind does not use are anything.
pub fn shape(random: &mut Random) -> Table {
    let kind = 1 + random.below(6);
    let size = match kind {
        5 | 6 if random.once_in(1000) => 65_536,
        5 | 6 => random.pick(&SIZES),
        _ => random.edge(),
    };
    let width = match kind {
        1 | 4 | 5 => random.pick(&WIDTHS),
        _ => random.edge(),
    };
    let offset_width = match kind {
        3 | 4 => random.pick(&[4, 8]),
        _ => random.edge(),
    };
    Table { kind, width, size, offset_width, ..Table::default() }
}

/// All valid, all null, or mixed.
fn validity(random: &mut Random, count: u64) -> Vec<bool> {
    let nulls_in_six = random.pick(&[0, 0, 1, 3, 6]);
    let valid = (0..count).map(|_| random.below(6) >= nulls_in_six);
    valid.collect()
}

/// A row of the kind; in kinds 3 and 4 of any length, also where it is null.
pub fn row(random: &mut Random, shape: &Table, valid: bool) -> Row {
    let most = match random.below(2000) {
        0 => 5000,
        1..=20 => 200,
        _ => 12,
    };
    let entries = random.below(most + 6).saturating_sub(5);
    let length = match shape.kind {
        1 => shape.width,
        2 => 1,
        3 => entries,
        4 => entries * shape.width,
        5 => shape.size * shape.width,
        _ => shape.size,
    };
    let mut bytes = random.bytes(length as usize);
    if shape.kind == 2 {
        bytes[0] %= 2;
    }
    Row { valid, bytes }
}

/// The rows as a well-formed column, with any bytes and bits where no row lies.
pub fn lay_out(random: &mut Random, shape: &Table, rows: &[Row]) -> Table {
    let valid: Vec<bool> = rows.iter().map(|row| row.valid).collect();
    let (validity, validity_bit) = lay_out_validity(random, &valid);
    let mut table = Table {
        rows: rows.len() as u64,
        data_bit: random.edge(),
        validity_bit,
        validity,
        offsets: random.slack(),
        ..shape.clone()
    };
    match table.kind {
        2 => {
            table.data_bit = random.below(8);
            let bits: Vec<bool> = rows.iter().map(|row| row.bytes[0] == 1).collect();
            table.data = lay_out_bits(random, &bits, table.data_bit);
        }
        3 => lay_out_runs(random, &mut table, rows, 1),
        4 => lay_out_runs(random, &mut table, rows, shape.width as usize),
        _ => {
            let bytes = rows.iter().flat_map(|row| row.bytes.iter()).copied();
            table.data = Bytes(bytes.collect());
            table.data.extend(random.slack().iter());
        }
    }
    table
}

/// Offsets and data of rows that lie one after another behind a few entries that no row has.
fn lay_out_runs(random: &mut Random, table: &mut Table, rows: &[Row], width: usize) {
    let mut at = random.below(8).saturating_sub(4);
    let mut offsets = vec![at];
    table.data = random.bytes(at as usize * width);
    for row in rows {
        at += (row.bytes.len() / width) as u64;
        offsets.push(at);
        table.data.extend(row.bytes.iter());
    }
    table.data.extend(random.slack().iter());
    table.offsets = encode(&offsets, table.offset_width);
    table.offsets.extend(random.slack().iter());
}

/// The low bytes of each number, little-endian.
pub fn encode(numbers: &[u64], width: u64) -> Bytes {
    let mut bytes = Vec::new();
    for number in numbers {
        bytes.extend(&number.to_le_bytes()[..width as usize]);
    }
    Bytes(bytes)
}

/// The bits of a validity and its bit offset; or none, where all are valid.
pub fn lay_out_validity(random: &mut Random, valid: &[bool]) -> (Bytes, u64) {
    if valid.iter().all(|valid| *valid) && random.once_in(2) {
        return (Bytes::default(), random.edge());
    }
    let bit_offset = random.below(8);
    (lay_out_bits(random, valid, bit_offset), bit_offset)
}

pub fn lay_out_bits(random: &mut Random, bits: &[bool], bit_offset: u64) -> Bytes {
    let bit_offset = bit_offset as usize;
    let mut bytes = random.bytes((bit_offset + bits.len()).div_ceil(8));
    for (i, bit) in bits.iter().enumerate() {
        let (byte, place) = ((bit_offset + i) / 8, (bit_offset + i) % 8);
        bytes[byte] = bytes[byte] & !(1 << place) | u8::from(*bit) << place;
    }
    bytes.extend(random.slack().iter());
    bytes
}

/// Indices below `rows`, a few others, and anything under nulls.
pub fn indices(random: &mut Random, rows: u64, most: u64) -> IndexColumn {
    let count = random.below(most + 1);
    let strays = random.once_in(10);
    let indices: Vec<(bool, u64)> = validity(random, count)
        .into_iter()
        .map(|valid| {
            let stray = if valid { strays && random.once_in(20) } else { random.once_in(2) };
            let number = match rows {
                0 => random.edge(),
                _ if !stray => random.below(rows),
                _ => random.edge().max(rows),
            };
            (valid, number)
        })
        .collect();
    let width = random.pick(&[1, 2, 4, 8]);
    lay_out_indices(random, width, &indices)
}

/// Indices, as valid or null and a number, as a column of that width.
pub fn lay_out_indices(random: &mut Random, width: u64, indices: &[(bool, u64)]) -> IndexColumn {
    let (valid, numbers): (Vec<bool>, Vec<u64>) = indices.iter().copied().unzip();
    let (validity, validity_bit) = lay_out_validity(random, &valid);
    let mut data = encode(&numbers, width);
    data.extend(random.slack().iter());
    IndexColumn { width, count: indices.len() as u64, validity_bit, data, validity }
}

/// Outputs of the needed lengths, one short, empty or long, filled with anything.
pub fn lent(random: &mut Random, needed: Option<[u64; 3]>) -> Lent {
    let needed = needed.unwrap_or([4, 40, 40]);
    let mut lengths = needed.map(|length| length.min(MOST_LENT));
    let one = &mut lengths[random.below(3) as usize];
    match random.below(10) {
        0 => *one = one.saturating_sub(1),
        1 => *one = 0,
        2 => *one = random.below(*one + 1),
        3 | 4 => lengths = lengths.map(|length| length + random.below(20)),
        _ => (),
    }
    let [validity, offsets, data] = lengths.map(|length| random.bytes(length as usize));
    Lent { validity, offsets, data }
}
