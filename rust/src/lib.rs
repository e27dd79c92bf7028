//! Gathers rows of an Arrow column by a nullable index column into lent buffers.
//!
//! It is `take` of arrow-select with `check_bounds`, ported to Rattle, proved, and called here as a
//! static archive. Three things hold for all input: [`take`] returns, and what does not fit is
//! refused with no output byte changed; the result is the one that the Arrow Columnar Format
//! defines, with zeros below every null row; and rows of a well-formed column that no valid index
//! names, what lies below its null rows, and numbers under null indices leave no trace in the answer
//! or in any output byte. They hold of [`take_arrays`] too, which gathers up to 32 columns in one
//! call, all of them or none.
//!
//! A null index gives a null row. A valid index that names no row refuses the whole gather.
//!
//! ```
//! use hoglidra::{take, Bitmap, Column, Gathered, Indices, Kind, Output};
//!
//! // "ab", null, "", "xyz"
//! let column = Column {
//!     kind: Kind::Bytes { offset_width: 4 },
//!     rows: 4,
//!     data: b"abxyz",
//!     offsets: &[0, 0, 0, 0, 2, 0, 0, 0, 2, 0, 0, 0, 2, 0, 0, 0, 5, 0, 0, 0],
//!     validity: Some(Bitmap { bytes: &[0b1101], bit_offset: 0 }),
//! };
//! // 3, 0, null, 1
//! let nullable = Bitmap { bytes: &[0b1011], bit_offset: 0 };
//! let indices = Indices::from_u8(&[3, 0, 9, 1]).with_validity(nullable);
//!
//! let (mut validity, mut offsets, mut data) = ([0; 1], [0; 20], [0; 5]);
//! let mut output = Output { validity: &mut validity, offsets: &mut offsets, data: &mut data };
//! let gathered = take(&column, &indices, &mut output)?;
//!
//! assert_eq!(gathered, Gathered { total: 5, nulls: 2 });
//! assert_eq!(&data, b"xyzab");
//! assert_eq!(offsets, [0, 0, 0, 0, 3, 0, 0, 0, 5, 0, 0, 0, 5, 0, 0, 0, 5, 0, 0, 0]);
//! assert_eq!(validity, [0b0011]);
//! # Ok::<(), hoglidra::Refusal>(())
//! ```

#![no_std]
#![deny(missing_docs)]
#![deny(unsafe_op_in_unsafe_fn)]

mod answer;
mod batch;
mod column;
mod indices;
mod output;
pub mod raw;

pub use answer::{Buffer, Gathered, Refusal};
pub use batch::{Batch, Description, Extent, Part};
pub use column::{Bitmap, Column, Kind};
pub use indices::Indices;
pub use output::Output;

// So that its examples are tested too.
#[cfg(doctest)]
#[doc = include_str!("../README.md")]
struct Readme;

/// Gathers into `output` the rows of `column` that `indices` name, in their order.
///
/// An output row is null if its index is null or the row that it names is null. Every null row is
/// zeros; of a boolean column it is a bit of 0, and of variable bytes and lists it is empty.
///
/// # Errors
/// The first [`Refusal`] that is met, in the order of its cases.
///
/// ```
/// use hoglidra::{take, Bitmap, Column, Indices, Kind, Output};
///
/// // 10, 20, and null over 30
/// let column = Column {
///     kind: Kind::Primitive { width: 1 },
///     rows: 3,
///     data: &[10, 20, 30],
///     offsets: &[],
///     validity: Some(Bitmap { bytes: &[0b011], bit_offset: 0 }),
/// };
/// // 1, 2, null over 0, null over 7
/// let indices = Indices {
///     width: 2,
///     count: 4,
///     data: &[1, 0, 2, 0, 0, 0, 7, 0],
///     validity: Some(Bitmap { bytes: &[0b0011], bit_offset: 0 }),
/// };
/// let (mut validity, mut data) = ([0xAA; 1], [0xAA; 4]);
/// let mut output = Output { validity: &mut validity, offsets: &mut [], data: &mut data };
/// let gathered = take(&column, &indices, &mut output)?;
/// assert_eq!(gathered.nulls, 3);
/// assert_eq!(validity, [0b0001]);
/// assert_eq!(data, [20, 0, 0, 0]);
/// # Ok::<(), hoglidra::Refusal>(())
/// ```
pub fn take(column: &Column, indices: &Indices, output: &mut Output) -> Result<Gathered, Refusal> {
    let mut answer = [0; 32];
    raw::take(&raw::Call::new(column, indices), output, &mut answer);
    answer::outcome(raw::numbers(&answer))
}

/// Gathers into `output` the rows of each column of `batch` that `indices` name, in their order.
///
/// The bytes are those of a [`take`] of each column, joined in column order; [`Batch::parts`] tells
/// where each lies.
///
/// # Errors
/// [`Refusal::Limit`] unless there are 1 to 32 columns, then [`Refusal::Rows`] if they have different
/// numbers of rows. Then the columns are tested one by one, each with the indices: the first refusal
/// up to [`Refusal::Overflow`] is the answer, its place and total those of that column. Last comes
/// [`Refusal::Space`], of the joined lengths.
///
/// ```
/// use hoglidra::{take_arrays, Batch, Description, Extent, Indices, Kind, Output, Refusal};
///
/// let column = Description {
///     kind: Kind::Primitive { width: 1 },
///     rows: 3,
///     data: Extent { start: 0, len: 3 },
///     offsets: Extent::default(),
///     validity: Extent::default(),
///     validity_bit_offset: 0,
/// };
/// let indices = Indices { width: 2, count: 1, data: &[1, 0], validity: None };
/// let mut output = Output { validity: &mut [0; 2], offsets: &mut [], data: &mut [0; 2] };
///
/// // Another number of rows, and a buffer that ends past the body.
/// let fewer = Description { rows: 2, ..column };
/// let columns = [column, fewer];
/// let batch = Batch { columns: &columns, body: &[10, 20, 30] };
/// assert_eq!(take_arrays(&batch, &indices, &mut output), Err(Refusal::Rows));
/// let late = Description { data: Extent { start: 1, len: 3 }, ..column };
/// let columns = [column, late];
/// let batch = Batch { columns: &columns, ..batch };
/// assert_eq!(take_arrays(&batch, &indices, &mut output), Err(Refusal::Short));
/// ```
pub fn take_arrays(
    batch: &Batch,
    indices: &Indices,
    output: &mut Output,
) -> Result<Gathered, Refusal> {
    // More columns are refused for their number, before a record is read.
    let mut descriptions = [0; Batch::MAX_COLUMNS * raw::Record::LEN];
    for (record, column) in descriptions.chunks_exact_mut(raw::Record::LEN).zip(batch.columns) {
        record.copy_from_slice(&raw::Record::new(column).to_bytes());
    }
    let mut answer = [0; 32];
    raw::take_arrays(&raw::BatchCall::new(&descriptions, batch, indices), output, &mut answer);
    answer::outcome(raw::numbers(&answer))
}
