//! Calls of the archive on a case: by the raw entries, and by the safe `take` and `take_arrays`.

use hoglidra::raw::{self, BatchCall, Call, Record};
use hoglidra::{
    take, take_arrays, Batch, Bitmap, Buffer, Column, Description, Gathered, Indices, Kind, Output,
    Refusal,
};

use crate::case::{BatchCase, Bytes, Case, IndexColumn, Lent, Seen, Table};

pub fn gather(case: &Case) -> Seen {
    let (table, indices) = (&case.table, &case.indices);
    let call = Call {
        kind: table.kind,
        width: table.width,
        size: table.size,
        offset_width: table.offset_width,
        rows: table.rows,
        data_bit: table.data_bit,
        validity_bit: table.validity_bit,
        data: &table.data,
        offsets: &table.offsets,
        validity: &table.validity,
        index_width: indices.width,
        count: indices.count,
        index_validity_bit: indices.validity_bit,
        index_data: &indices.data,
        index_validity: &indices.validity,
    };
    let mut lent = case.lent.clone();
    let mut answer = case.answer.clone();
    let returned = raw::take(&call, &mut output(&mut lent), &mut answer);
    Seen { returned, answer, lent }
}

/// The same by `take`, if its types can say the call: a known kind, and a whole answer.
pub fn gather_safely(case: &Case) -> Option<Seen> {
    if case.answer.len() < 32 {
        return None;
    }
    let column = column(&case.table)?;
    let mut lent = case.lent.clone();
    let outcome = take(&column, &indices(&case.indices), &mut output(&mut lent));
    Some(Seen::new(&case.answer, numbers(outcome), lent))
}

pub fn gather_batch(case: &BatchCase) -> Seen {
    let indices = &case.indices;
    let call = BatchCall {
        columns: case.columns,
        descriptions: &case.descriptions.0,
        body: &case.body,
        index_width: indices.width,
        count: indices.count,
        index_validity_bit: indices.validity_bit,
        index_data: &indices.data,
        index_validity: &indices.validity,
    };
    let mut lent = case.lent.clone();
    let mut answer = case.answer.clone();
    let returned = raw::take_arrays(&call, &mut output(&mut lent), &mut answer);
    Seen { returned, answer, lent }
}

/// The same by `take_arrays`, if its types can say the call: a record of a known kind for each
/// column, and a whole answer.
pub fn gather_batch_safely(case: &BatchCase) -> Option<Seen> {
    if case.answer.len() < 32 {
        return None;
    }
    let columns = descriptions(case)?;
    let batch = Batch { columns: &columns, body: &case.body };
    let mut lent = case.lent.clone();
    let outcome = take_arrays(&batch, &indices(&case.indices), &mut output(&mut lent));
    Some(Seen::new(&case.answer, numbers(outcome), lent))
}

/// The columns of a batch in the crate's types, if there is a record of a known kind for each.
pub fn descriptions(case: &BatchCase) -> Option<Vec<Description>> {
    if case.columns > case.descriptions.whole() as u64 {
        return None;
    }
    (0..case.columns as usize).map(|k| description(&case.descriptions.get(k))).collect()
}

fn description(record: &Record) -> Option<Description> {
    let Record { kind, width, size, offset_width, data_bit, .. } = *record;
    Some(Description {
        kind: known_kind(kind, width, size, offset_width, data_bit)?,
        rows: record.rows as usize,
        data: record.data,
        offsets: record.offsets,
        validity: record.validity,
        validity_bit_offset: record.validity_bit as usize,
    })
}

pub fn kind(table: &Table) -> Option<Kind> {
    let Table { kind, width, size, offset_width, data_bit, .. } = *table;
    known_kind(kind, width, size, offset_width, data_bit)
}

fn known_kind(kind: u64, width: u64, size: u64, offset_width: u64, data_bit: u64) -> Option<Kind> {
    let (width, size) = (width as usize, size as usize);
    let (offset_width, bit_offset) = (offset_width as usize, data_bit as usize);
    Some(match kind {
        1 => Kind::Primitive { width },
        2 => Kind::Boolean { bit_offset },
        3 => Kind::Bytes { offset_width },
        4 => Kind::List { width, offset_width },
        5 => Kind::FixedSizeList { width, size },
        6 => Kind::FixedSizeBinary { size },
        _ => return None,
    })
}

pub fn column(table: &Table) -> Option<Column<'_>> {
    Some(Column {
        kind: kind(table)?,
        rows: table.rows as usize,
        data: &table.data,
        offsets: &table.offsets,
        validity: bitmap(&table.validity, table.validity_bit),
    })
}

fn indices(indices: &IndexColumn) -> Indices<'_> {
    Indices {
        width: indices.width as usize,
        count: indices.count as usize,
        data: &indices.data,
        validity: bitmap(&indices.validity, indices.validity_bit),
    }
}

/// An empty validity is said in both ways, by the parity of its ignored bit offset.
fn bitmap(bytes: &Bytes, bit_offset: u64) -> Option<Bitmap<'_>> {
    let present = !bytes.is_empty() || bit_offset % 2 == 1;
    present.then_some(Bitmap { bytes, bit_offset: bit_offset as usize })
}

fn output(lent: &mut Lent) -> Output<'_> {
    Output { validity: &mut lent.validity, offsets: &mut lent.offsets, data: &mut lent.data }
}

/// The paper's four numbers of an outcome.
fn numbers(outcome: Result<Gathered, Refusal>) -> [u64; 4] {
    let refusal = match outcome {
        Ok(Gathered { total, nulls }) => return [0, 0, total as u64, nulls as u64],
        Err(refusal) => refusal,
    };
    let (place, total) = match refusal {
        Refusal::Kind | Refusal::Limit | Refusal::Short | Refusal::Rows => (0, 0),
        Refusal::Offsets { place } | Refusal::Range { place } => (place as u64, 0),
        Refusal::Overflow { place, total } => (place as u64, total),
        Refusal::Space { buffer, needed } => match buffer {
            Buffer::Validity => (1, needed),
            Buffer::Offsets => (2, needed),
            Buffer::Data => (3, needed),
        },
        other => panic!("the paper has no such refusal: {other}"),
    };
    [refusal.number(), place, total, 0]
}
