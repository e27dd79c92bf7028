//! Batches: several columns in one body, gathered by one call of `hoglidra_take_arrays`, by a call of
//! `hoglidra_take` for each, and by the loops of `take.rs` for each.

use std::fmt;
use std::hint::black_box;
use std::mem;

use hoglidra::raw::{self, BatchCall, Call, Record};
use hoglidra::{Batch, Description, Extent, Indices, Kind, Output};

use crate::case::{Layout, Nulls, Order, Size, MIDDLE, SMALL};
use crate::input::{bitmap, counted_nulls, Buffer, Random};
use crate::reference::{self, Array, Error, IndexArray, Taken};
use crate::written;

/// Indices have 4 bytes and are in random order.
const INDEX_WIDTH: usize = 4;

#[derive(Clone, Copy)]
pub struct BatchCase {
    pub columns: usize,
    pub size: Size,
    pub nulls: Nulls,
}

pub const COLUMNS: [usize; 3] = [4, 8, 32];

pub const SIZES: [Size; 2] = [MIDDLE, SMALL];

const NULLS: [Nulls; 2] = [Nulls { rows: 0, indices: 0 }, Nulls { rows: 10, indices: 10 }];

/// The columns of a batch are these in turn: every kind is among eight of them.
const LAYOUTS: [Layout; 8] = [
    Layout { kind: Kind::Primitive { width: 4 }, row_bytes: 4 },
    Layout { kind: Kind::Bytes { offset_width: 4 }, row_bytes: 12 },
    Layout { kind: Kind::Boolean { bit_offset: 0 }, row_bytes: 1 },
    Layout { kind: Kind::FixedSizeBinary { size: 3 }, row_bytes: 3 },
    Layout { kind: Kind::List { width: 4, offset_width: 4 }, row_bytes: 12 },
    Layout { kind: Kind::FixedSizeList { width: 4, size: 3 }, row_bytes: 12 },
    Layout { kind: Kind::Primitive { width: 8 }, row_bytes: 8 },
    Layout { kind: Kind::FixedSizeBinary { size: 16 }, row_bytes: 16 },
];

pub fn cases() -> Vec<BatchCase> {
    let mut cases = Vec::new();
    for columns in COLUMNS {
        for size in SIZES {
            for nulls in NULLS {
                cases.push(BatchCase { columns, size, nulls });
            }
        }
    }
    cases
}

impl fmt::Display for BatchCase {
    fn fmt(&self, f: &mut fmt::Formatter<'_>) -> fmt::Result {
        let BatchCase { columns, size: Size { rows, count }, nulls } = self;
        write!(
            f,
            "{columns} columns; {rows} by {count}, index width {INDEX_WIDTH}, {nulls}, random"
        )
    }
}

/// The outputs that are lent to our sides: joined, also where the calls are separate.
struct Lent {
    validity: Buffer,
    offsets: Buffer,
    data: Buffer,
}

impl Lent {
    fn output(&mut self) -> Output<'_> {
        Output {
            validity: self.validity.bytes_mut(),
            offsets: self.offsets.bytes_mut(),
            data: self.data.bytes_mut(),
        }
    }
}

/// The input of a case, and the outputs that are lent to our sides.
pub struct BatchInput {
    case: BatchCase,
    columns: Vec<Description>,
    descriptions: Vec<u8>,
    body: Buffer,
    index_data: Buffer,
    index_validity: Option<Buffer>,
    joined: Lent,
    separate: Lent,
}

/// Lays out a buffer at the next cache line of the body.
fn append(body: &mut Vec<u8>, buffer: &[u8]) -> Extent {
    body.resize(body.len().next_multiple_of(64), 0);
    let start = body.len() as u64;
    body.extend_from_slice(buffer);
    Extent { start, len: buffer.len() as u64 }
}

/// The first bytes, of which the rest is left.
fn first<'a>(rest: &mut &'a mut [u8], len: usize) -> &'a mut [u8] {
    let (first, after) = mem::take(rest).split_at_mut(len);
    *rest = after;
    first
}

impl BatchInput {
    pub fn new(case: BatchCase) -> Self {
        let Size { rows, count } = case.size;
        let mut random = Random(1);
        let mut body = Vec::new();
        let mut columns = Vec::new();
        for layout in LAYOUTS.iter().cycle().take(case.columns) {
            let (data, offsets) = random.values(*layout, rows);
            let validity = random.validity(rows, case.nulls.rows);
            columns.push(Description {
                kind: layout.kind,
                rows,
                data: append(&mut body, &data),
                offsets: append(&mut body, &offsets),
                validity: validity
                    .map_or(Extent::default(), |bits| append(&mut body, bits.bytes())),
                validity_bit_offset: 0,
            });
        }
        let descriptions = columns.iter().flat_map(|column| Record::new(column).to_bytes());
        let batch = Batch { columns: &columns, body: &[] };
        let lent = |data| Lent {
            validity: Buffer::filled(batch.validity_len(count), 0xAA),
            offsets: Buffer::filled(batch.offsets_len(count), 0xAA),
            data: Buffer::filled(data, 0xAA),
        };
        let mut input = BatchInput {
            case,
            descriptions: descriptions.collect(),
            body: Buffer::new(&body),
            index_data: Buffer::new(&random.indices(rows, count, INDEX_WIDTH, Order::Random)),
            index_validity: random.validity(count, case.nulls.indices),
            joined: lent(0),
            separate: lent(0),
            columns: columns.clone(),
        };
        // Refused for want of space, and so told how many bytes the data needs.
        let [_, _, needed, _] = input.ours().take();
        input.joined = lent(needed as usize);
        input.separate = lent(needed as usize);
        input
    }

    /// What our side is called with.
    pub fn ours(&mut self) -> Ours<'_> {
        let indices = Indices {
            width: INDEX_WIDTH,
            count: self.case.size.count,
            data: self.index_data.bytes(),
            validity: bitmap(&self.index_validity),
        };
        let batch = Batch { columns: &self.columns, body: self.body.bytes() };
        Ours {
            call: BatchCall::new(&self.descriptions, &batch, &indices),
            output: self.joined.output(),
            answer: [0; 32],
        }
    }

    /// A call for each column, each with its part of the other outputs. The parts are told by the
    /// offsets that ours wrote.
    pub fn in_turn(&mut self) -> InTurn<'_> {
        let count = self.case.size.count;
        let indices = Indices {
            width: INDEX_WIDTH,
            count,
            data: self.index_data.bytes(),
            validity: bitmap(&self.index_validity),
        };
        let batch = Batch { columns: &self.columns, body: self.body.bytes() };
        let Output { mut validity, mut offsets, mut data } = self.separate.output();
        let mut calls = Vec::new();
        for (k, part) in batch.parts(count, self.joined.offsets.bytes()).enumerate() {
            let column = batch.column(k).expect("a column within the body");
            let output = Output {
                validity: first(&mut validity, part.validity.len()),
                offsets: first(&mut offsets, part.offsets.len()),
                data: first(&mut data, part.data.len()),
            };
            calls.push((Call::new(&column, &indices), output));
        }
        InTurn { calls, answer: [0; 32] }
    }

    /// What the Rust side is called with.
    pub fn rust(&self) -> Rust<'_> {
        let Size { rows, count } = self.case.size;
        let batch = Batch { columns: &self.columns, body: self.body.bytes() };
        let array = |k| {
            let column = batch.column(k).expect("a column within the body");
            Array {
                kind: column.kind,
                rows,
                data: column.data,
                offsets: column.offsets,
                nulls: column.validity.map(|bits| counted_nulls(bits.bytes, rows)),
            }
        };
        let indices = IndexArray {
            width: INDEX_WIDTH,
            data: self.index_data.bytes(),
            count,
            nulls: self.index_validity.as_ref().map(|bits| counted_nulls(bits.bytes(), count)),
        };
        Rust { arrays: (0..self.columns.len()).map(array).collect(), indices }
    }

    /// Stops unless all three give the same rows, byte for byte, and ours zeros below null rows.
    pub fn compare(&mut self) {
        let case = self.case;
        let [number, _, total, nulls] = self.ours().take();
        assert_eq!(number, 0, "{case}: ours is refused");
        assert_eq!(self.in_turn().take(), [0, 0, total, nulls], "{case}: separate calls");
        let Lent { validity: bits, offsets, data } = &self.joined;
        assert!(bits.bytes() == self.separate.validity.bytes(), "{case}: validity");
        assert!(offsets.bytes() == self.separate.offsets.bytes(), "{case}: offsets");
        assert!(data.bytes() == self.separate.data.bytes(), "{case}: data");

        let rust = self.rust();
        let taken = rust.take().unwrap_or_else(|error| panic!("{case}: {error}"));
        let count = case.size.count;
        let batch = Batch { columns: &self.columns, body: self.body.bytes() };
        let (mut taken_nulls, mut taken_bytes) = (0, 0);
        let parts = self.columns.iter().zip(batch.parts(count, offsets.bytes()));
        for (taken, (column, part)) in taken.iter().zip(parts) {
            let validity = written::validity(taken, count);
            assert!(bits.bytes()[part.validity] == *validity, "{case}: validity");
            assert!(&offsets.bytes()[part.offsets] == taken.offsets.bytes(), "{case}: offsets");
            let written = written::data(taken, column.kind, count);
            assert!(data.bytes()[part.data] == written, "{case}: data");
            taken_nulls += taken.nulls.as_ref().map_or(0, |nulls| nulls.null_count);
            taken_bytes += taken.data.bytes().len();
        }
        assert_eq!((taken.len(), taken_bytes), (case.columns, total as usize), "{case}: total");
        assert_eq!(taken_nulls, nulls as usize, "{case}: nulls");
    }
}

/// A call of `hoglidra_take_arrays`, and the buffers that are lent to it.
pub struct Ours<'a> {
    call: BatchCall<'a>,
    output: Output<'a>,
    answer: [u8; 32],
}

impl Ours<'_> {
    pub fn take(&mut self) -> [u64; 4] {
        raw::take_arrays(black_box(&self.call), black_box(&mut self.output), &mut self.answer);
        raw::numbers(black_box(&self.answer))
    }
}

/// A call of `hoglidra_take` for each column.
pub struct InTurn<'a> {
    calls: Vec<(Call<'a>, Output<'a>)>,
    answer: [u8; 32],
}

impl InTurn<'_> {
    /// Totals and nulls are added up; the first refusal ends it.
    pub fn take(&mut self) -> [u64; 4] {
        let mut sums = [0; 4];
        for (call, output) in &mut self.calls {
            raw::take(black_box(call), black_box(output), &mut self.answer);
            let numbers = raw::numbers(black_box(&self.answer));
            if numbers[0] != 0 {
                return numbers;
            }
            sums = [0, 0, sums[2] + numbers[2], sums[3] + numbers[3]];
        }
        sums
    }
}

/// The Rust side: `take_arrays` of arrow-select, which takes each array and keeps them all.
pub struct Rust<'a> {
    arrays: Vec<Array<'a>>,
    indices: IndexArray<'a>,
}

impl Rust<'_> {
    pub fn take(&self) -> Result<Vec<Taken<'_>>, Error> {
        let indices = black_box(&self.indices);
        black_box(&self.arrays).iter().map(|array| reference::take(array, indices)).collect()
    }
}
