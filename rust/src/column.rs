/// How the rows of a column lie in its buffers: the physical layout, with its numbers.
///
/// A width is the length of a value in bytes: 1, 2, 4, 8, 16 or 32. An offset width is 4 or 8. Any
/// number may be said; [`take`](crate::take) refuses what is not listed.
#[derive(Clone, Copy, Debug, PartialEq, Eq)]
#[non_exhaustive]
pub enum Kind {
    /// Fixed-size primitive: `width` bytes a row.
    Primitive {
        /// Bytes of a value.
        width: usize,
    },
    /// Boolean: one bit a row, lowest bit first, from bit `bit_offset` of the data on.
    Boolean {
        /// Bits before the first row, 0 to 7.
        bit_offset: usize,
    },
    /// Variable-size binary or UTF-8: row i is the bytes from offset i to offset i + 1.
    Bytes {
        /// Bytes of an offset.
        offset_width: usize,
    },
    /// List of fixed-width values without nulls: row i is the values from offset i to offset i + 1.
    List {
        /// Bytes of a child value.
        width: usize,
        /// Bytes of an offset.
        offset_width: usize,
    },
    /// Fixed-size list of fixed-width values without nulls: `size` values a row.
    FixedSizeList {
        /// Bytes of a child value.
        width: usize,
        /// Child values of a row, 0 to 65,536.
        size: usize,
    },
    /// Fixed-size binary: `size` bytes a row.
    FixedSizeBinary {
        /// Bytes of a row, 0 to 65,536.
        size: usize,
    },
}

/// Packed bits, lowest first: bit i is bit `(bit_offset + i) % 8` of byte `(bit_offset + i) / 8`.
///
/// As a validity, 1 means valid. An empty one means that there are no nulls, as `None` does.
#[derive(Clone, Copy, Debug, PartialEq, Eq)]
pub struct Bitmap<'a> {
    /// The bytes that hold the bits.
    pub bytes: &'a [u8],
    /// Bits before the first one, 0 to 7.
    pub bit_offset: usize,
}

/// A column in the buffers of the Arrow Columnar Format.
///
/// Nothing is checked here: [`take`](crate::take) refuses a column whose numbers or buffers do not
/// fit. Bytes after those that the rows need are allowed and never read.
///
/// ```
/// use hoglidra::{take, Bitmap, Column, Indices, Kind, Output};
///
/// // Lists of 16-bit values: [], [8, 9]. The first offset may be above 0: 7 is in no row.
/// let lists = Column {
///     kind: Kind::List { width: 2, offset_width: 4 },
///     rows: 2,
///     data: &[7, 0, 8, 0, 9, 0],
///     offsets: &[1, 0, 0, 0, 1, 0, 0, 0, 3, 0, 0, 0],
///     validity: None,
/// };
/// let (mut validity, mut offsets, mut data) = ([0; 1], [0; 16], [0; 8]);
/// let mut output = Output { validity: &mut validity, offsets: &mut offsets, data: &mut data };
/// take(&lists, &Indices::from_u8(&[1, 0, 1]), &mut output)?;
/// assert_eq!(offsets, [0, 0, 0, 0, 2, 0, 0, 0, 2, 0, 0, 0, 4, 0, 0, 0]);
/// assert_eq!(data, [8, 0, 9, 0, 8, 0, 9, 0]);
///
/// // Booleans: true, false, null.
/// let booleans = Column {
///     kind: Kind::Boolean { bit_offset: 0 },
///     rows: 3,
///     data: &[0b101],
///     offsets: &[],
///     validity: Some(Bitmap { bytes: &[0b011], bit_offset: 0 }),
/// };
/// let (mut validity, mut data) = ([0; 1], [0; 1]);
/// let mut output = Output { validity: &mut validity, offsets: &mut [], data: &mut data };
/// let gathered = take(&booleans, &Indices::from_u8(&[1, 2, 0]), &mut output)?;
/// assert_eq!(gathered.nulls, 1);
/// assert_eq!(validity, [0b101]);
/// assert_eq!(data, [0b100]); // The null row is a bit of 0, though the column has a 1 below it.
/// # Ok::<(), hoglidra::Refusal>(())
/// ```
#[derive(Clone, Copy, Debug, PartialEq, Eq)]
pub struct Column<'a> {
    /// The layout of the rows.
    pub kind: Kind,
    /// Number of rows, at most 1,048,576.
    pub rows: usize,
    /// The values; of a list, those of the child. At most 16,777,216 bytes, as each buffer here.
    pub data: &'a [u8],
    /// `rows + 1` signed little-endian offsets, counted in bytes or in child values. Ignored unless
    /// the kind has an offset width.
    pub offsets: &'a [u8],
    /// Which rows are valid; without it, all.
    pub validity: Option<Bitmap<'a>>,
}
