use core::ops::Range;

use crate::{Bitmap, Column, Kind, Output};

/// Where a buffer lies in the body of a [`Batch`], in bytes: the `Buffer` of Arrow IPC.
///
/// Both numbers have 64 bits on every core, so that what a message states is handed on as it is. An
/// empty extent may start anywhere; extents may overlap.
#[derive(Clone, Copy, Debug, Default, PartialEq, Eq)]
pub struct Extent {
    /// Bytes of the body before the buffer.
    pub start: u64,
    /// Bytes of the buffer.
    pub len: u64,
}

/// A column of a [`Batch`]: a [`Column`] whose buffers are told by where they lie.
#[derive(Clone, Copy, Debug, PartialEq, Eq)]
pub struct Description {
    /// The layout of the rows.
    pub kind: Kind,
    /// Number of rows, at most 1,048,576, and the same in every column of the batch.
    pub rows: usize,
    /// The values; of a list, those of the child. At most 16,777,216 bytes, as each buffer here.
    pub data: Extent,
    /// `rows + 1` signed little-endian offsets. Ignored unless the kind has an offset width.
    pub offsets: Extent,
    /// Which rows are valid; if it is empty, all.
    pub validity: Extent,
    /// Bits before the first row's in the validity, 0 to 7.
    pub validity_bit_offset: usize,
}

/// Columns of equally many rows, their buffers in one lent body: the record batch of Arrow IPC.
///
/// Nothing is checked here: [`take_arrays`](crate::take_arrays) refuses what does not fit. The body
/// may have any length, and bytes of it that no column needs are never read.
///
/// The outputs of a batch are those of its columns joined: in each buffer the parts of the columns
/// lie in their order with no gaps, each of whole bytes. The lengths to lend are sums, and
/// [`parts`](Batch::parts) tells the columns apart again.
///
/// ```
/// use hoglidra::{take_arrays, Batch, Description, Extent, Gathered, Indices, Kind, Output};
///
/// let body = [
///     &b"abxyz"[..],                                                  // from byte 0 on
///     &[0b1101, 0, 0],                                                // 5
///     &[0, 0, 0, 0, 2, 0, 0, 0, 2, 0, 0, 0, 2, 0, 0, 0, 5, 0, 0, 0],  // 8
///     &[10, 0, 20, 0, 30, 0, 40, 0],                                  // 28
/// ]
/// .concat();
/// // "ab", null, "", "xyz"
/// let names = Description {
///     kind: Kind::Bytes { offset_width: 4 },
///     rows: 4,
///     data: Extent { start: 0, len: 5 },
///     offsets: Extent { start: 8, len: 20 },
///     validity: Extent { start: 5, len: 1 },
///     validity_bit_offset: 0,
/// };
/// // 10, 20, 30, 40
/// let amounts = Description {
///     kind: Kind::Primitive { width: 2 },
///     rows: 4,
///     data: Extent { start: 28, len: 8 },
///     offsets: Extent::default(),
///     validity: Extent::default(),
///     validity_bit_offset: 0,
/// };
/// let batch = Batch { columns: &[names, amounts], body: &body };
/// let indices = Indices { width: 2, count: 3, data: &[3, 0, 1, 0, 0, 0], validity: None };
///
/// let mut validity = vec![0; batch.validity_len(indices.count)];
/// let mut offsets = vec![0; batch.offsets_len(indices.count)];
/// let mut data = vec![0; 11];
/// let mut output = Output { validity: &mut validity, offsets: &mut offsets, data: &mut data };
/// let gathered = take_arrays(&batch, &indices, &mut output)?;
///
/// assert_eq!(gathered, Gathered { total: 11, nulls: 1 });
/// assert_eq!(data, b"xyzab\x28\0\x14\0\x0A\0");
/// assert_eq!(validity, [0b101, 0b111]);
///
/// let amounts = batch.parts(indices.count, &offsets).nth(1).unwrap();
/// assert_eq!(data[amounts.data], [40, 0, 20, 0, 10, 0]);
/// assert_eq!(validity[amounts.validity], [0b111]);
/// # Ok::<(), hoglidra::Refusal>(())
/// ```
#[derive(Clone, Copy, Debug, PartialEq, Eq)]
pub struct Batch<'a> {
    /// The columns, 1 to [`MAX_COLUMNS`](Batch::MAX_COLUMNS) of them.
    pub columns: &'a [Description],
    /// The bytes that the buffers of all columns lie in.
    pub body: &'a [u8],
}

/// Where a column lies in the outputs of its batch, in bytes.
#[derive(Clone, Debug, PartialEq, Eq)]
pub struct Part {
    /// Its part of the validity.
    pub validity: Range<usize>,
    /// Its part of the offsets; an empty one unless the kind has an offset width.
    pub offsets: Range<usize>,
    /// Its part of the data.
    pub data: Range<usize>,
}

// As in `Output`, a length that no `usize` holds becomes `usize::MAX`.
impl<'a> Batch<'a> {
    /// The most columns that are gathered in one call.
    pub const MAX_COLUMNS: usize = 32;

    /// Column `k` by itself, as [`take`](crate::take) gathers it; `None` if there is no such column,
    /// or one of its buffers ends past the body.
    pub fn column(&self, k: usize) -> Option<Column<'a>> {
        let described = self.columns.get(k)?;
        let validity = self.bytes(described.validity)?;
        Some(Column {
            kind: described.kind,
            rows: described.rows,
            data: self.bytes(described.data)?,
            offsets: match described.kind {
                Kind::Bytes { .. } | Kind::List { .. } => self.bytes(described.offsets)?,
                _ => &[],
            },
            validity: (!validity.is_empty())
                .then_some(Bitmap { bytes: validity, bit_offset: described.validity_bit_offset }),
        })
    }

    fn bytes(&self, extent: Extent) -> Option<&'a [u8]> {
        if extent.len == 0 {
            return Some(&[]);
        }
        let start = usize::try_from(extent.start).ok()?;
        let len = usize::try_from(extent.len).ok()?;
        self.body.get(start..)?.get(..len)
    }

    /// Bytes that the validity of the output needs for `count` indices.
    pub fn validity_len(&self, count: usize) -> usize {
        Output::validity_len(count).saturating_mul(self.columns.len())
    }

    /// Bytes that the offsets of the output need for `count` indices.
    pub fn offsets_len(&self, count: usize) -> usize {
        let lengths = self.columns.iter().map(|column| Output::offsets_len(column.kind, count));
        lengths.fold(0, usize::saturating_add)
    }

    /// Bytes that the data of the output needs for `count` indices, or `None` where it depends on
    /// the rows; there [`Refusal::Space`](crate::Refusal::Space) tells it.
    pub fn data_len(&self, count: usize) -> Option<usize> {
        let mut lengths = self.columns.iter().map(|column| Output::data_len(column.kind, count));
        lengths.try_fold(0, |sum: usize, length| Some(sum.saturating_add(length?)))
    }

    /// Where each column lies in the outputs of a gather by `count` indices, in column order;
    /// `nth(k)` is column `k`.
    ///
    /// `offsets` are those that were written: they tell how long the data is where rows have lengths
    /// of their own. The parts end before a column whose offsets are not there.
    pub fn parts<'b>(
        &self,
        count: usize,
        offsets: &'b [u8],
    ) -> impl Iterator<Item = Part> + use<'a, 'b> {
        let (mut validity_end, mut offsets_end, mut data_end) = (0, 0, 0);
        self.columns.iter().map_while(move |&Description { kind, .. }| {
            let validity = after(&mut validity_end, Output::validity_len(count));
            let places = after(&mut offsets_end, Output::offsets_len(kind, count));
            let length = match Output::data_len(kind, count) {
                Some(length) => length,
                None => written_len(kind, offsets.get(places.clone())?)?,
            };
            Some(Part { validity, offsets: places, data: after(&mut data_end, length) })
        })
    }
}

/// So many bytes from `end` on, which goes to their end.
fn after(end: &mut usize, length: usize) -> Range<usize> {
    let start = *end;
    *end = start.saturating_add(length);
    start..*end
}

/// The bytes of data that a column's written offsets end at.
fn written_len(kind: Kind, offsets: &[u8]) -> Option<usize> {
    let (width, offset_width) = match kind {
        Kind::Bytes { offset_width } => (1, offset_width),
        Kind::List { width, offset_width } => (width, offset_width),
        _ => return None,
    };
    let last = match offset_width {
        4 => u32::from_le_bytes(*offsets.last_chunk()?).into(),
        8 => u64::from_le_bytes(*offsets.last_chunk()?),
        _ => return None,
    };
    usize::try_from(last).ok()?.checked_mul(width)
}

#[cfg(test)]
mod tests {
    use super::*;

    const BYTES: Description = Description {
        kind: Kind::Bytes { offset_width: 4 },
        rows: 1,
        data: Extent { start: 0, len: 2 },
        offsets: Extent { start: 1, len: 8 },
        validity: Extent { start: u64::MAX, len: 0 },
        validity_bit_offset: 0,
    };
    const BINARY: Description = Description {
        kind: Kind::FixedSizeBinary { size: 3 },
        offsets: Extent { start: 2, len: u64::MAX },
        ..BYTES
    };

    #[test]
    fn a_column_has_its_stretches_of_the_body() {
        let body = [0, 1, 2, 3, 4, 5, 6, 7, 8];
        let batch = Batch { columns: &[BYTES, BINARY], body: &body };
        let bytes = batch.column(0).unwrap();
        assert_eq!((bytes.data, bytes.offsets, bytes.validity), (&body[..2], &body[1..], None));
        let binary = batch.column(1).unwrap();
        assert_eq!((binary.data, binary.offsets), (&body[..2], &[][..]));
        assert_eq!(batch.column(2), None);
        assert_eq!(Batch { body: &body[..8], ..batch }.column(0), None);
    }

    #[test]
    fn lengths_of_absurd_numbers_do_not_wrap() {
        let batch = Batch { columns: &[BINARY; 40], body: &[] };
        let most = usize::MAX;
        assert_eq!(batch.validity_len(most), most);
        assert_eq!(batch.data_len(most / 4), Some(most));
        assert_eq!(batch.data_len(2), Some(240));
        assert_eq!(Batch { columns: &[BINARY, BYTES], body: &[] }.data_len(2), None);
        assert_eq!(Batch { columns: &[BYTES; 40], body: &[] }.offsets_len(most), most);
    }

    #[test]
    fn parts_end_where_offsets_are_missing_or_absurd() {
        let columns = [BINARY, BYTES, BINARY];
        let batch = Batch { columns: &columns, body: &[] };
        let offsets = [0, 0, 0, 0, 5, 0, 0, 0];
        let mut parts = batch.parts(1, &offsets);
        assert_eq!(parts.next(), Some(Part { validity: 0..1, offsets: 0..0, data: 0..3 }));
        assert_eq!(parts.next(), Some(Part { validity: 1..2, offsets: 0..8, data: 3..8 }));
        assert_eq!(parts.next(), Some(Part { validity: 2..3, offsets: 8..8, data: 8..11 }));
        assert_eq!(parts.next(), None);
        assert_eq!(batch.parts(1, &offsets[..7]).count(), 1);
        assert_eq!(batch.parts(usize::MAX, &offsets).count(), 1);
        let odd = Description { kind: Kind::Bytes { offset_width: 2 }, ..BYTES };
        assert_eq!(Batch { columns: &[odd], body: &[] }.parts(1, &offsets).count(), 0);
    }
}
