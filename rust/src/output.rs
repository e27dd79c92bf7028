use crate::Kind;

/// The buffers lent to a gather.
///
/// What is written starts at each buffer's first byte; the bytes after it are kept. A refusal keeps
/// them all. The columns of a [`Batch`](crate::Batch) are written one after another.
///
/// The lengths of validity and offsets follow from the number of indices, and so does that of the
/// data, save where rows have lengths of their own. There [`take`](crate::take) tells it: lend no
/// data, and [`Refusal::Space`](crate::Refusal::Space) names the bytes to lend.
///
/// ```
/// use hoglidra::{take, Buffer, Column, Indices, Kind, Output, Refusal};
///
/// let kind = Kind::Bytes { offset_width: 4 };
/// let column = Column {
///     kind,
///     rows: 2,
///     data: b"onethree",
///     offsets: &[0, 0, 0, 0, 3, 0, 0, 0, 8, 0, 0, 0],
///     validity: None,
/// };
/// let indices = Indices::from_u8(&[1, 0, 1]);
/// let mut validity = vec![0; Output::validity_len(indices.count)];
/// let mut offsets = vec![0; Output::offsets_len(kind, indices.count)];
///
/// // Ask.
/// let mut output = Output { validity: &mut validity, offsets: &mut offsets, data: &mut [] };
/// let asked = take(&column, &indices, &mut output);
/// assert_eq!(asked, Err(Refusal::Space { buffer: Buffer::Data, needed: 13 }));
///
/// // Lend, and gather.
/// let mut data = vec![0; 13];
/// output.data = &mut data;
/// let gathered = take(&column, &indices, &mut output)?;
/// assert_eq!(gathered.total, 13);
/// assert_eq!(data, b"threeonethree");
/// # Ok::<(), Refusal>(())
/// ```
#[derive(Debug)]
pub struct Output<'a> {
    /// One bit a row, lowest first, 1 for valid; the spare bits of the last byte become 0.
    pub validity: &'a mut [u8],
    /// One offset more than rows, the first 0. Untouched unless the kind has an offset width.
    pub offsets: &'a mut [u8],
    /// The values of the rows, one after another. A null row is zeros, or a bit of 0; it is empty if
    /// the kind has an offset width.
    pub data: &'a mut [u8],
}

// A length that no `usize` holds becomes `usize::MAX`: no output need have it, since the limits
// refuse such a gather.
impl Output<'_> {
    /// Bytes that `validity` needs for `count` indices.
    pub const fn validity_len(count: usize) -> usize {
        count.div_ceil(8)
    }

    /// Bytes that `offsets` needs for `count` indices: 0 unless the kind has an offset width.
    pub const fn offsets_len(kind: Kind, count: usize) -> usize {
        match kind {
            Kind::Bytes { offset_width } | Kind::List { offset_width, .. } => {
                count.saturating_add(1).saturating_mul(offset_width)
            }
            _ => 0,
        }
    }

    /// Bytes that `data` needs for `count` indices, or `None` where it depends on the rows.
    pub const fn data_len(kind: Kind, count: usize) -> Option<usize> {
        match kind {
            Kind::Primitive { width } => Some(count.saturating_mul(width)),
            Kind::Boolean { .. } => Some(count.div_ceil(8)),
            Kind::Bytes { .. } | Kind::List { .. } => None,
            Kind::FixedSizeList { width, size } => {
                Some(count.saturating_mul(size).saturating_mul(width))
            }
            Kind::FixedSizeBinary { size } => Some(count.saturating_mul(size)),
        }
    }
}

#[cfg(test)]
mod tests {
    use super::*;

    #[test]
    fn lengths_of_absurd_numbers_do_not_wrap() {
        let most = usize::MAX;
        let list = Kind::FixedSizeList { width: 32, size: most };
        assert_eq!(Output::validity_len(most), most / 8 + 1);
        assert_eq!(Output::offsets_len(Kind::Bytes { offset_width: 4 }, most), most);
        assert_eq!(Output::data_len(list, 3), Some(most));
    }
}
