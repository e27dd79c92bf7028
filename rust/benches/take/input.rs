//! A case's buffers, filled from a fixed seed, and both calls on them.

use std::borrow::Cow;
use std::hint::black_box;

use hoglidra::raw::{self, Call};
use hoglidra::{Bitmap, Column, Indices, Kind, Output};

use crate::arrow;
use crate::case::{Case, Layout, Order};
use crate::reference::{self, Array, Error, IndexArray, Taken};
use crate::written;

/// Bytes that start on a cache line, as arrow allocates them.
pub struct Buffer {
    lines: Vec<Line>,
    len: usize,
}

#[derive(Clone, Copy)]
#[repr(C, align(64))]
struct Line([u8; 64]);

impl Buffer {
    pub fn filled(len: usize, byte: u8) -> Self {
        Buffer { lines: vec![Line([byte; 64]); len.div_ceil(64)], len }
    }

    pub fn new(bytes: &[u8]) -> Self {
        let mut buffer = Buffer::filled(bytes.len(), 0);
        buffer.bytes_mut().copy_from_slice(bytes);
        buffer
    }

    pub fn bytes(&self) -> &[u8] {
        // SAFETY: the lines hold at least `len` bytes, one after the other.
        unsafe { std::slice::from_raw_parts(self.lines.as_ptr().cast(), self.len) }
    }

    pub fn bytes_mut(&mut self) -> &mut [u8] {
        // SAFETY: as above.
        unsafe { std::slice::from_raw_parts_mut(self.lines.as_mut_ptr().cast(), self.len) }
    }
}

/// Random numbers (splitmix64).
pub struct Random(pub u64);

impl Random {
    fn number(&mut self) -> u64 {
        self.0 = self.0.wrapping_add(0x9E37_79B9_7F4A_7C15);
        let mut mixed = self.0;
        mixed = (mixed ^ (mixed >> 30)).wrapping_mul(0xBF58_476D_1CE4_E5B9);
        mixed = (mixed ^ (mixed >> 27)).wrapping_mul(0x94D0_49BB_1331_11EB);
        mixed ^ (mixed >> 31)
    }

    fn bytes(&mut self, len: usize) -> Vec<u8> {
        let words = (0..len.div_ceil(8)).flat_map(|_| self.number().to_le_bytes());
        words.take(len).collect()
    }

    /// Data and offsets of a column.
    pub fn values(&mut self, layout: Layout, rows: usize) -> (Vec<u8>, Vec<u8>) {
        match layout.kind {
            Kind::Boolean { .. } => (self.bytes(rows.div_ceil(8)), Vec::new()),
            Kind::Bytes { offset_width } => runs(self, rows, layout.row_bytes, 1, offset_width),
            Kind::List { width, offset_width } => {
                runs(self, rows, layout.row_bytes, width, offset_width)
            }
            _ => (self.bytes(rows * layout.row_bytes), Vec::new()),
        }
    }

    pub fn indices(&mut self, rows: usize, count: usize, width: usize, order: Order) -> Vec<u8> {
        let named = match width {
            1 => rows.min(1 << 8),
            2 => rows.min(1 << 16),
            _ => rows,
        };
        let mut data = Vec::with_capacity(count * width);
        for i in 0..count {
            let row = match order {
                Order::Random => self.number() as usize % named,
                Order::Sequential => i % named,
            };
            data.extend_from_slice(&row.to_le_bytes()[..width]);
        }
        data
    }

    /// Bits of which so many of a hundred are 0; no buffer where none is.
    pub fn validity(&mut self, len: usize, nulls: u64) -> Option<Buffer> {
        let byte = |random: &mut Random, from: usize| {
            let bits = from..len.min(from + 8);
            bits.map(|i| ((random.number() % 100 >= nulls) as u8) << (i - from)).sum()
        };
        let bytes = (0..len).step_by(8).map(|from| byte(self, from)).collect::<Vec<u8>>();
        (nulls > 0).then(|| Buffer::new(&bytes))
    }
}

/// The input of a case, and the outputs that are lent to ours.
pub struct Input {
    case: Case,
    data: Buffer,
    offsets: Buffer,
    validity: Option<Buffer>,
    index_data: Buffer,
    index_validity: Option<Buffer>,
    out_validity: Buffer,
    out_offsets: Buffer,
    out_data: Buffer,
}

impl Input {
    pub fn new(case: Case) -> Self {
        let Case { layout, rows, count, index_width, nulls, order, .. } = case;
        let mut random = Random(1);
        let (data, offsets) = random.values(layout, rows);
        let index_data = random.indices(rows, count, index_width, order);
        let mut input = Input {
            case,
            data: Buffer::new(&data),
            offsets: Buffer::new(&offsets),
            validity: random.validity(rows, nulls.rows),
            index_data: Buffer::new(&index_data),
            index_validity: random.validity(count, nulls.indices),
            out_validity: Buffer::filled(count.div_ceil(8), 0xAA),
            out_offsets: Buffer::filled(Output::offsets_len(layout.kind, count), 0xAA),
            out_data: Buffer::filled(0, 0xAA),
        };
        // Refused for want of space, and so told how many bytes the data needs.
        let [_, _, needed, _] = input.ours().take();
        input.out_data = Buffer::filled(needed as usize, 0xAA);
        input
    }

    /// What our side is called with.
    pub fn ours(&mut self) -> Ours<'_> {
        let column = Column {
            kind: self.case.layout.kind,
            rows: self.case.rows,
            data: self.data.bytes(),
            offsets: self.offsets.bytes(),
            validity: bitmap(&self.validity),
        };
        let indices = Indices {
            width: self.case.index_width,
            count: self.case.count,
            data: self.index_data.bytes(),
            validity: bitmap(&self.index_validity),
        };
        let output = Output {
            validity: self.out_validity.bytes_mut(),
            offsets: self.out_offsets.bytes_mut(),
            data: self.out_data.bytes_mut(),
        };
        Ours { call: Call::new(&column, &indices), output, answer: [0; 32] }
    }

    /// What the Rust side is called with.
    pub fn rust(&self) -> Rust<'_> {
        let Case { layout, rows, count, index_width, .. } = self.case;
        let array = Array {
            kind: layout.kind,
            rows,
            data: self.data.bytes(),
            offsets: self.offsets.bytes(),
            nulls: nulls(&self.validity, rows),
        };
        let indices = IndexArray {
            width: index_width,
            data: self.index_data.bytes(),
            count,
            nulls: nulls(&self.index_validity, count),
        };
        Rust { array, indices }
    }

    /// Stops unless both sides give the same rows, byte for byte, and ours zeros below null rows.
    pub fn compare(&mut self) {
        let case = self.case;
        let [number, _, total, null_count] = self.ours().take();
        assert_eq!(number, 0, "{case}: ours is refused");
        let rust = self.rust();
        let taken = rust.take().unwrap_or_else(|error| panic!("{case}: {error}"));
        if let Kind::Bytes { .. } | Kind::List { .. } = case.layout.kind {
            let size = reference::size(&rust.array, &rust.indices);
            assert_eq!(size.ok(), Some(taken.data.bytes().len()), "{case}: size");
        }
        let validity = written::validity(&taken, case.count);
        assert!(self.out_validity.bytes() == &*validity, "{case}: validity");
        assert!(self.out_offsets.bytes() == taken.offsets.bytes(), "{case}: offsets");
        let data = written::data(&taken, case.layout.kind, case.count);
        assert!(self.out_data.bytes() == data, "{case}: data");
        assert_eq!(total as usize, taken.data.bytes().len(), "{case}: total");
        assert_eq!(null_count as usize, taken.nulls.map_or(0, |nulls| nulls.null_count), "{case}");
    }
}

/// A call of `hoglidra_take`, and the buffers that are lent to it.
pub struct Ours<'a> {
    call: Call<'a>,
    output: Output<'a>,
    answer: [u8; 32],
}

impl Ours<'_> {
    pub fn take(&mut self) -> [u64; 4] {
        raw::take(black_box(&self.call), black_box(&mut self.output), &mut self.answer);
        raw::numbers(black_box(&self.answer))
    }
}

/// A call of the Rust side, which allocates what it returns.
pub struct Rust<'a> {
    array: Array<'a>,
    indices: IndexArray<'a>,
}

impl Rust<'_> {
    pub fn take(&self) -> Result<Taken<'_>, Error> {
        reference::take(black_box(&self.array), black_box(&self.indices))
    }
}

/// Rows of 0 to twice the average, and their offsets.
fn runs(
    random: &mut Random,
    rows: usize,
    row_bytes: usize,
    unit: usize,
    offset_width: usize,
) -> (Vec<u8>, Vec<u8>) {
    let average = row_bytes / unit;
    let mut end = 0u64;
    let mut offsets = vec![0; offset_width];
    // The sum of random lengths may pass the limit of the buffer, which holds the average: the
    // last rows are then empty.
    let most = (rows * average) as u64;
    for _ in 0..rows {
        end = (end + random.number() % (2 * average as u64 + 1)).min(most);
        offsets.extend_from_slice(&end.to_le_bytes()[..offset_width]);
    }
    (random.bytes(end as usize * unit), offsets)
}

pub fn bitmap(validity: &Option<Buffer>) -> Option<Bitmap<'_>> {
    validity.as_ref().map(|bits| Bitmap { bytes: bits.bytes(), bit_offset: 0 })
}

fn nulls(validity: &Option<Buffer>, len: usize) -> Option<arrow::Nulls<'_>> {
    validity.as_ref().map(|bits| counted_nulls(bits.bytes(), len))
}

pub fn counted_nulls(bits: &[u8], len: usize) -> arrow::Nulls<'_> {
    let null_count = len - arrow::count_set_bits(bits, len);
    arrow::Nulls { bits: Cow::Borrowed(bits), len, null_count }
}
