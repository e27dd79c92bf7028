//! The archive's entries as they are: plain numbers, byte slices and a lent answer.
//!
//! [`take`](crate::take) and [`take_arrays`](crate::take_arrays) stand on them. Call them yourself
//! for what the types of the crate's root cannot say, such as a kind that does not exist: every
//! number and every length is accepted, and what does not fit is refused.
//!
//! ```
//! use hoglidra::raw::{numbers, take, Call};
//! use hoglidra::Output;
//!
//! let mut output = Output { validity: &mut [], offsets: &mut [], data: &mut [] };
//! let mut answer = [0xFF; 32];
//! assert_eq!(take(&Call { kind: 7, ..Call::default() }, &mut output, &mut answer), 1);
//! assert_eq!(numbers(&answer), [1, 0, 0, 0]);
//!
//! // An answer that is too short is refused before anything else, and nothing is written to it.
//! assert_eq!(take(&Call::default(), &mut output, &mut answer[..31]), 7);
//! assert_eq!(numbers(&answer), [1, 0, 0, 0]);
//! ```

use core::array;

use crate::{Batch, Bitmap, Column, Description, Extent, Indices, Kind, Output};

/// A column and an index column as plain numbers and slices.
///
/// A number or a slice that the kind does not use is ignored, and so is the bit offset of an empty
/// validity.
#[derive(Clone, Copy, Debug, Default)]
pub struct Call<'a> {
    /// 1 primitive, 2 boolean, 3 variable bytes, 4 list, 5 fixed-size list, 6 fixed-size binary.
    pub kind: u64,
    /// Bytes of a value: 1, 2, 4, 8, 16 or 32 (kinds 1, 4 and 5).
    pub width: u64,
    /// Child elements (kind 5) or bytes (kind 6) of a row.
    pub size: u64,
    /// Bytes of an offset: 4 or 8 (kinds 3 and 4).
    pub offset_width: u64,
    /// Rows of the column.
    pub rows: u64,
    /// Bit offset of the data (kind 2).
    pub data_bit: u64,
    /// Bit offset of the column's validity.
    pub validity_bit: u64,
    /// The column's values.
    pub data: &'a [u8],
    /// The column's offsets (kinds 3 and 4).
    pub offsets: &'a [u8],
    /// The column's validity; an empty one means that every row is valid.
    pub validity: &'a [u8],
    /// Bytes of an index: 1, 2, 4 or 8.
    pub index_width: u64,
    /// Number of indices.
    pub count: u64,
    /// Bit offset of the indices' validity.
    pub index_validity_bit: u64,
    /// The indices, unsigned and little-endian.
    pub index_data: &'a [u8],
    /// The indices' validity; an empty one means that every index is valid.
    pub index_validity: &'a [u8],
}

impl<'a> Call<'a> {
    /// The call that gathers `indices` from `column`; a number that the kind does not use is 0.
    pub fn new(column: &Column<'a>, indices: &Indices<'a>) -> Self {
        let [kind, width, size, offset_width, data_bit] = kind_numbers(column.kind);
        let (validity, validity_bit) = bits(column.validity);
        let (index_validity, index_validity_bit) = bits(indices.validity);
        Call {
            kind,
            width,
            size,
            offset_width,
            rows: column.rows as u64,
            data_bit,
            validity_bit,
            data: column.data,
            offsets: column.offsets,
            validity,
            index_width: indices.width as u64,
            count: indices.count as u64,
            index_validity_bit,
            index_data: indices.data,
            index_validity,
        }
    }
}

/// A column of a batch as plain numbers, which are any numbers.
///
/// A number that the kind does not use is ignored, and so is the bit offset of an empty validity.
#[derive(Clone, Copy, Debug, Default, PartialEq, Eq)]
pub struct Record {
    /// The kind, as in [`Call`].
    pub kind: u64,
    /// Bytes of a value (kinds 1, 4 and 5).
    pub width: u64,
    /// Child elements (kind 5) or bytes (kind 6) of a row.
    pub size: u64,
    /// Bytes of an offset (kinds 3 and 4).
    pub offset_width: u64,
    /// Rows of the column.
    pub rows: u64,
    /// Bit offset of the data (kind 2).
    pub data_bit: u64,
    /// Bit offset of the column's validity.
    pub validity_bit: u64,
    /// Where the values lie in the body.
    pub data: Extent,
    /// Where the offsets lie in the body (kinds 3 and 4).
    pub offsets: Extent,
    /// Where the validity lies in the body; an empty one means that every row is valid.
    pub validity: Extent,
}

impl Record {
    /// Bytes of a record among the descriptions of a batch.
    pub const LEN: usize = 104;

    /// The record of a column; a number that the kind does not use is 0.
    pub fn new(column: &Description) -> Self {
        let [kind, width, size, offset_width, data_bit] = kind_numbers(column.kind);
        Record {
            kind,
            width,
            size,
            offset_width,
            rows: column.rows as u64,
            data_bit,
            validity_bit: column.validity_bit_offset as u64,
            data: column.data,
            offsets: column.offsets,
            validity: column.validity,
        }
    }

    /// The record as the entry reads it: the numbers in their order, a start before its length,
    /// eight bytes each, little-endian.
    #[rustfmt::skip]
    pub fn to_bytes(&self) -> [u8; Record::LEN] {
        let words = [
            self.kind, self.width, self.size, self.offset_width, self.rows,
            self.data_bit, self.validity_bit,
            self.data.start, self.data.len,
            self.offsets.start, self.offsets.len,
            self.validity.start, self.validity.len,
        ];
        array::from_fn(|i| words[i / 8].to_le_bytes()[i % 8])
    }
}

/// A batch and an index column as plain numbers and slices.
#[derive(Clone, Copy, Debug, Default)]
pub struct BatchCall<'a> {
    /// Number of columns: 1 to 32.
    pub columns: u64,
    /// The [`Record`] of each column, one after another; bytes after them are never read.
    pub descriptions: &'a [u8],
    /// The bytes that the extents of the records lie in.
    pub body: &'a [u8],
    /// Bytes of an index: 1, 2, 4 or 8.
    pub index_width: u64,
    /// Number of indices.
    pub count: u64,
    /// Bit offset of the indices' validity.
    pub index_validity_bit: u64,
    /// The indices, unsigned and little-endian.
    pub index_data: &'a [u8],
    /// The indices' validity; an empty one means that every index is valid.
    pub index_validity: &'a [u8],
}

impl<'a> BatchCall<'a> {
    /// The call that gathers `indices` from each column of `batch`, whose records are
    /// `descriptions`.
    pub fn new(descriptions: &'a [u8], batch: &Batch<'a>, indices: &Indices<'a>) -> Self {
        let (index_validity, index_validity_bit) = bits(indices.validity);
        BatchCall {
            columns: batch.columns.len() as u64,
            descriptions,
            body: batch.body,
            index_width: indices.width as u64,
            count: indices.count as u64,
            index_validity_bit,
            index_data: indices.data,
            index_validity,
        }
    }
}

/// Kind, width, size, offset width and bit offset of the data.
fn kind_numbers(kind: Kind) -> [u64; 5] {
    let numbers = match kind {
        Kind::Primitive { width } => [1, width, 0, 0, 0],
        Kind::Boolean { bit_offset } => [2, 0, 0, 0, bit_offset],
        Kind::Bytes { offset_width } => [3, 0, 0, offset_width, 0],
        Kind::List { width, offset_width } => [4, width, 0, offset_width, 0],
        Kind::FixedSizeList { width, size } => [5, width, size, 0, 0],
        Kind::FixedSizeBinary { size } => [6, 0, size, 0, 0],
    };
    numbers.map(|number| number as u64)
}

fn bits(validity: Option<Bitmap<'_>>) -> (&[u8], u64) {
    validity.map_or((&[], 0), |bits| (bits.bytes, bits.bit_offset as u64))
}

// Grouped as in include/hoglidra.h.
#[rustfmt::skip]
extern "C" {
    fn hoglidra_take(
        kind: u64, width: u64, size: u64, offset_width: u64, rows: u64,
        data_bit: u64, validity_bit: u64,
        data: *const u8, data_len: u64,
        offsets: *const u8, offsets_len: u64,
        validity: *const u8, validity_len: u64,
        index_width: u64, count: u64, index_validity_bit: u64,
        index_data: *const u8, index_data_len: u64,
        index_validity: *const u8, index_validity_len: u64,
        out_validity: *mut u8, out_validity_len: u64,
        out_offsets: *mut u8, out_offsets_len: u64,
        out_data: *mut u8, out_data_len: u64,
        answer: *mut u8, answer_len: u64,
    ) -> u64;

    fn hoglidra_take_arrays(
        columns: u64, descriptions: *const u8, descriptions_len: u64,
        body: *const u8, body_len: u64,
        index_width: u64, count: u64, index_validity_bit: u64,
        index_data: *const u8, index_data_len: u64,
        index_validity: *const u8, index_validity_len: u64,
        out_validity: *mut u8, out_validity_len: u64,
        out_offsets: *mut u8, out_offsets_len: u64,
        out_data: *mut u8, out_data_len: u64,
        answer: *mut u8, answer_len: u64,
    ) -> u64;
}

/// Gathers, returns the number (0 gathered, 1 to 7 refused) and writes the four [`numbers`] over
/// the first 32 bytes of `answer`.
///
/// A refusal changes no byte of `output`. With fewer than 32 bytes of `answer` it is 7, and nothing
/// at all is written.
#[rustfmt::skip]
pub fn take(call: &Call, output: &mut Output, answer: &mut [u8]) -> u64 {
    // SAFETY: the header asks for three things. Each pointer comes with the length of the slice
    // that it was taken from, which 64 bits hold on every core, so those bytes may be read, and in
    // the last four slices written, until the call returns; the pointer of an empty slice is not
    // NULL either. The three outputs and the answer are borrowed mutably, so they overlap nothing.
    // Every number, length and content is allowed.
    unsafe {
        hoglidra_take(
            call.kind, call.width, call.size, call.offset_width, call.rows,
            call.data_bit, call.validity_bit,
            call.data.as_ptr(), call.data.len() as u64,
            call.offsets.as_ptr(), call.offsets.len() as u64,
            call.validity.as_ptr(), call.validity.len() as u64,
            call.index_width, call.count, call.index_validity_bit,
            call.index_data.as_ptr(), call.index_data.len() as u64,
            call.index_validity.as_ptr(), call.index_validity.len() as u64,
            output.validity.as_mut_ptr(), output.validity.len() as u64,
            output.offsets.as_mut_ptr(), output.offsets.len() as u64,
            output.data.as_mut_ptr(), output.data.len() as u64,
            answer.as_mut_ptr(), answer.len() as u64,
        )
    }
}

/// Gathers every column of a batch, returns the number (0 gathered, 1 to 8 refused) and writes the
/// four [`numbers`] over the first 32 bytes of `answer`.
///
/// A refusal changes no byte of `output`. With fewer than 32 bytes of `answer` it is 7, and nothing
/// at all is written.
///
/// ```
/// use hoglidra::raw::{numbers, take_arrays, BatchCall, Record};
/// use hoglidra::{Extent, Output};
///
/// // One column, 10, 20, 30, by the index 2.
/// let data = Extent { start: 0, len: 3 };
/// let record = Record { kind: 1, width: 1, rows: 3, data, ..Record::default() };
/// let call = BatchCall {
///     columns: 1,
///     descriptions: &record.to_bytes(),
///     body: &[10, 20, 30],
///     index_width: 2,
///     count: 1,
///     index_data: &[2, 0],
///     ..BatchCall::default()
/// };
/// let (mut validity, mut data) = ([0; 1], [0; 1]);
/// let mut output = Output { validity: &mut validity, offsets: &mut [], data: &mut data };
/// let mut answer = [0xFF; 32];
/// assert_eq!(take_arrays(&call, &mut output, &mut answer), 0);
/// assert_eq!(numbers(&answer), [0, 0, 1, 0]);
/// assert_eq!((validity, data), ([1], [30]));
/// ```
#[rustfmt::skip]
pub fn take_arrays(call: &BatchCall, output: &mut Output, answer: &mut [u8]) -> u64 {
    // SAFETY: as in `take`. The extents are numbers that the entry holds against the body's length.
    unsafe {
        hoglidra_take_arrays(
            call.columns, call.descriptions.as_ptr(), call.descriptions.len() as u64,
            call.body.as_ptr(), call.body.len() as u64,
            call.index_width, call.count, call.index_validity_bit,
            call.index_data.as_ptr(), call.index_data.len() as u64,
            call.index_validity.as_ptr(), call.index_validity.len() as u64,
            output.validity.as_mut_ptr(), output.validity.len() as u64,
            output.offsets.as_mut_ptr(), output.offsets.len() as u64,
            output.data.as_mut_ptr(), output.data.len() as u64,
            answer.as_mut_ptr(), answer.len() as u64,
        )
    }
}

/// The four numbers of an answer: number, place, total, nulls.
pub fn numbers(answer: &[u8; 32]) -> [u64; 4] {
    array::from_fn(|i| u64::from_le_bytes(array::from_fn(|j| answer[8 * i + j])))
}
