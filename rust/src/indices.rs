use crate::Bitmap;

/// An index column: row numbers, unsigned and little-endian, some of them perhaps null.
///
/// Wider numbers than bytes are lent as the bytes that the format stores:
///
/// ```
/// use hoglidra::{take, Column, Indices, Kind, Output};
///
/// let data: Vec<u8> = [299u16, 0, 1].iter().flat_map(|row| row.to_le_bytes()).collect();
/// let indices = Indices { width: 2, count: 3, data: &data, validity: None };
///
/// let values: Vec<u8> = (0..300).map(|row| (row % 100) as u8).collect();
/// let column = Column {
///     kind: Kind::Primitive { width: 1 },
///     rows: 300,
///     data: &values,
///     offsets: &[],
///     validity: None,
/// };
/// let (mut validity, mut data) = ([0; 1], [0; 3]);
/// let mut output = Output { validity: &mut validity, offsets: &mut [], data: &mut data };
/// take(&column, &indices, &mut output)?;
/// assert_eq!(data, [99, 0, 1]);
/// # Ok::<(), hoglidra::Refusal>(())
/// ```
#[derive(Clone, Copy, Debug, PartialEq, Eq)]
pub struct Indices<'a> {
    /// Bytes of an index: 1, 2, 4 or 8.
    pub width: usize,
    /// Number of indices, at most 1,048,576.
    pub count: usize,
    /// The row numbers, `count * width` bytes, at most 16,777,216.
    pub data: &'a [u8],
    /// Which indices are valid; without it, all. The number under a null one names no row, and is
    /// never out of range.
    pub validity: Option<Bitmap<'a>>,
}

impl<'a> Indices<'a> {
    /// Row numbers of one byte each, none of them null.
    pub fn from_u8(rows: &'a [u8]) -> Self {
        Indices { width: 1, count: rows.len(), data: rows, validity: None }
    }

    /// The same row numbers, those null whose bit is 0.
    pub fn with_validity(self, validity: Bitmap<'a>) -> Self {
        Indices { validity: Some(validity), ..self }
    }
}
