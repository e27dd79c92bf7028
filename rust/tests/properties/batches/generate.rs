//! Random batches: well-formed columns of equally many rows, laid out in one body.

use hoglidra::raw::Record;
use hoglidra::Extent;

use crate::case::{BatchCase, Bytes, Descriptions, IndexColumn, Lent, Table};
use crate::generate::{fill, indices, lent, shape};
use crate::model;
use crate::random::Random;

/// Most indices, and most rows save now and then.
const MOST: u64 = 40;

/// A call on a batch of well-formed columns, with any output.
pub fn case(random: &mut Random) -> BatchCase {
    let tables = tables(random);
    let indices = any_indices(random, tables[0].rows);
    let (records, body) = batch(random, &tables);
    call(random, &records, body, indices)
}

pub fn tables(random: &mut Random) -> Vec<Table> {
    let columns = match random.below(100) {
        0 => 32,
        1..=3 => 1 + random.below(32),
        _ => 1 + random.below(5),
    };
    let most = if random.once_in(300) { 1000 } else { MOST };
    let rows = random.below(most + 1);
    let mut tables = Vec::<Table>::new();
    for _ in 0..columns {
        let again = !tables.is_empty() && random.once_in(8);
        tables.push(if again {
            tables[random.below(tables.len() as u64) as usize].clone()
        } else {
            table(random, rows)
        });
    }
    tables
}

fn table(random: &mut Random, rows: u64) -> Table {
    let mut shape = shape(random);
    if matches!(shape.kind, 5 | 6) && rows > 3 {
        shape.size %= 65_536;
    }
    fill(random, &shape, rows)
}

pub fn any_indices(random: &mut Random, rows: u64) -> IndexColumn {
    indices(random, rows, MOST)
}

/// The columns' records and their body; now and then also a column over any bytes of it.
pub fn batch(random: &mut Random, tables: &[Table]) -> (Vec<Record>, Bytes) {
    let (mut records, body) = lay_out(random, tables);
    if records.len() < 32 && random.once_in(4) {
        let rows = records[0].rows;
        if let Some(record) = overlay(random, rows, body.len() as u64) {
            records.insert(random.below(records.len() as u64 + 1) as usize, record);
        }
    }
    (records, body)
}

/// The call of these records, with any bytes after them and any output.
pub fn call(
    random: &mut Random,
    records: &[Record],
    body: Bytes,
    indices: IndexColumn,
) -> BatchCase {
    let case = unlent(random, records, body, indices);
    let needed = model::batch_needed(&case);
    BatchCase { lent: lent(random, needed), ..case }
}

/// The same, to which no output is lent yet.
pub fn unlent(
    random: &mut Random,
    records: &[Record],
    body: Bytes,
    indices: IndexColumn,
) -> BatchCase {
    let mut descriptions = Descriptions::new(records);
    descriptions.0.extend(random.slack().iter());
    let slack = random.slack().len();
    BatchCase {
        columns: records.len() as u64,
        descriptions,
        body,
        indices,
        lent: Lent::default(),
        answer: random.bytes(32 + slack),
    }
}

/// The columns' buffers in one body, in any order, with and without gaps.
pub fn lay_out(random: &mut Random, tables: &[Table]) -> (Vec<Record>, Bytes) {
    let mut body = random.slack();
    let mut records: Vec<Record> = tables.iter().map(record).collect();
    let mut left: Vec<(usize, usize)> =
        (0..tables.len()).flat_map(|k| [(k, 0), (k, 1), (k, 2)]).collect();
    while !left.is_empty() {
        let (k, which) = left.swap_remove(random.below(left.len() as u64) as usize);
        let unused = which == 1 && !matches!(tables[k].kind, 3 | 4);
        *extents(&mut records[k])[which] = if unused && random.once_in(2) {
            Extent { start: random.edge(), len: random.edge() }
        } else {
            place(random, buffers(&tables[k])[which], &mut body)
        };
    }
    (records, body)
}

/// A table's numbers, its buffers nowhere yet.
pub fn record(table: &Table) -> Record {
    let Table { kind, width, size, offset_width, rows, data_bit, validity_bit, .. } = *table;
    Record { kind, width, size, offset_width, rows, data_bit, validity_bit, ..Record::default() }
}

/// Data, offsets, validity.
pub fn buffers(table: &Table) -> [&Bytes; 3] {
    [&table.data, &table.offsets, &table.validity]
}

pub fn extents(record: &mut Record) -> [&mut Extent; 3] {
    [&mut record.data, &mut record.offsets, &mut record.validity]
}

/// At the end of the body, or now and then over equal bytes that are there already.
fn place(random: &mut Random, buffer: &Bytes, body: &mut Bytes) -> Extent {
    let len = buffer.len() as u64;
    if len == 0 {
        return Extent { start: random.edge(), len };
    }
    let equal = if len < 100 && random.once_in(3) {
        body.windows(buffer.len()).take(2000).position(|bytes| bytes == &buffer[..])
    } else {
        None
    };
    let start = equal.unwrap_or_else(|| {
        let end = body.len();
        body.extend(buffer.iter());
        end
    });
    if random.once_in(2) {
        body.extend(random.slack().iter());
    }
    Extent { start: start as u64, len }
}

/// A column of a kind whose rows any bytes are, over any bytes of the body that are enough.
fn overlay(random: &mut Random, rows: u64, body: u64) -> Option<Record> {
    if rows > 8 * body {
        return None;
    }
    let mut record = Record {
        kind: random.pick(&[1, 2, 6]),
        width: random.pick(&[1, 2, 4, 8]),
        size: random.below(6),
        rows,
        data_bit: random.below(8),
        validity_bit: random.below(8),
        ..Record::default()
    };
    let needed = match record.kind {
        1 => rows * record.width,
        2 => (record.data_bit + rows).div_ceil(8),
        _ => rows * record.size,
    };
    record.data = stretch(random, needed, body)?;
    if random.once_in(2) {
        record.validity = stretch(random, (record.validity_bit + rows).div_ceil(8).max(1), body)?;
    }
    Some(record)
}

fn stretch(random: &mut Random, needed: u64, body: u64) -> Option<Extent> {
    let start = random.below(body.checked_sub(needed)? + 1);
    Some(Extent { start, len: needed + random.below(body - needed - start + 1) })
}
