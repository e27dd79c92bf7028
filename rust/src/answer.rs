use core::error::Error;
use core::fmt;

/// What a gather that was not refused tells.
#[derive(Clone, Copy, Debug, PartialEq, Eq)]
pub struct Gathered {
    /// Bytes of data written, at most the length of the lent data; of a batch, by all columns.
    pub total: usize,
    /// Null rows written, at most the number of indices; of a batch, the sum over its columns.
    pub nulls: usize,
}

/// Why nothing was gathered, in the order in which [`take`](crate::take) tests the reasons. No
/// output byte changed.
///
/// ```
/// use hoglidra::{take, Column, Indices, Kind, Output, Refusal};
///
/// let column = Column {
///     kind: Kind::Primitive { width: 1 },
///     rows: 3,
///     data: &[10, 20, 30],
///     offsets: &[],
///     validity: None,
/// };
/// let (mut validity, mut data) = ([0xAA; 1], [0xAA; 2]);
/// let mut output = Output { validity: &mut validity, offsets: &mut [], data: &mut data };
/// let refusal = take(&column, &Indices::from_u8(&[0, 3]), &mut output).unwrap_err();
/// assert_eq!(refusal, Refusal::Range { place: 1 });
/// assert_eq!(refusal.to_string(), "the index at place 1 names no row");
/// assert_eq!((validity, data), ([0xAA; 1], [0xAA; 2]));
/// ```
#[derive(Clone, Copy, Debug, PartialEq, Eq)]
#[non_exhaustive]
pub enum Refusal {
    /// A width, an offset width or an index width that is not listed; of the [`raw`](crate::raw)
    /// entry, also an unknown kind.
    Kind,
    /// A number or a buffer beyond its limit; the number of a batch's columns among them.
    Limit,
    /// A buffer of the column or of the indices is shorter than it needs to be, or ends past the
    /// body of its batch.
    Short,
    /// An offset is negative, less than the one before it, or past the data.
    Offsets {
        /// The first such offset, from 0.
        place: usize,
    },
    /// A valid index names no row.
    Range {
        /// The first such index.
        place: usize,
    },
    /// An offset of 4 bytes cannot hold the running total.
    Overflow {
        /// The index whose row takes it past 2,147,483,647.
        place: usize,
        /// Bytes with that row, or child values before it.
        total: u64,
    },
    /// An output buffer is too short.
    Space {
        /// The first such buffer.
        buffer: Buffer,
        /// The bytes that it needs. They may be more than memory can hold.
        needed: u64,
    },
    /// The columns of a batch have different numbers of rows.
    Rows,
}

/// One of the buffers of an [`Output`](crate::Output).
#[derive(Clone, Copy, Debug, PartialEq, Eq)]
pub enum Buffer {
    /// The validity.
    Validity,
    /// The offsets.
    Offsets,
    /// The data.
    Data,
}

impl Refusal {
    /// The number that the C entry returns for it, 1 to 8.
    pub const fn number(self) -> u64 {
        match self {
            Refusal::Kind => 1,
            Refusal::Limit => 2,
            Refusal::Short => 3,
            Refusal::Offsets { .. } => 4,
            Refusal::Range { .. } => 5,
            Refusal::Overflow { .. } => 6,
            Refusal::Space { .. } => 7,
            Refusal::Rows => 8,
        }
    }
}

impl fmt::Display for Refusal {
    fn fmt(&self, f: &mut fmt::Formatter) -> fmt::Result {
        match self {
            Refusal::Kind => f.write_str("unknown kind, or a width that is not listed"),
            Refusal::Limit => f.write_str("a number or a buffer is beyond its limit"),
            Refusal::Short => f.write_str("a source or index buffer is shorter than needed"),
            Refusal::Offsets { place } => {
                write!(f, "offset {place} is negative, falling or past the data")
            }
            Refusal::Range { place } => write!(f, "the index at place {place} names no row"),
            Refusal::Overflow { place, total } => {
                write!(f, "offsets overflow at index {place}, total {total}")
            }
            Refusal::Space { buffer, needed } => {
                write!(f, "{needed} bytes of {buffer} have to be lent")
            }
            Refusal::Rows => f.write_str("the columns have different numbers of rows"),
        }
    }
}

impl fmt::Display for Buffer {
    fn fmt(&self, f: &mut fmt::Formatter) -> fmt::Result {
        f.write_str(match self {
            Buffer::Validity => "validity",
            Buffer::Offsets => "offsets",
            Buffer::Data => "data",
        })
    }
}

impl Error for Refusal {}

/// What the four numbers of an answer stand for.
///
/// A place is at most the rows or the count, and a written total at most the length of the data:
/// they fit a `usize`.
pub(crate) fn outcome([number, place, total, nulls]: [u64; 4]) -> Result<Gathered, Refusal> {
    let at = place as usize;
    let space = |buffer| Refusal::Space { buffer, needed: total };
    Err(match (number, place) {
        (0, _) => return Ok(Gathered { total: total as usize, nulls: nulls as usize }),
        (1, _) => Refusal::Kind,
        (2, _) => Refusal::Limit,
        (3, _) => Refusal::Short,
        (4, _) => Refusal::Offsets { place: at },
        (5, _) => Refusal::Range { place: at },
        (6, _) => Refusal::Overflow { place: at, total },
        (7, 1) => space(Buffer::Validity),
        (7, 2) => space(Buffer::Offsets),
        (7, 3) => space(Buffer::Data),
        (8, _) => Refusal::Rows,
        _ => unreachable!("the archive answered number {number}, place {place}"),
    })
}

#[cfg(test)]
mod tests {
    extern crate std;
    use std::string::ToString;

    use super::*;

    #[test]
    fn each_refusal_has_its_number_and_says_what_it_carries() {
        let told = [
            ([1, 0, 0, 0], "unknown kind, or a width that is not listed"),
            ([2, 0, 0, 0], "a number or a buffer is beyond its limit"),
            ([3, 0, 0, 0], "a source or index buffer is shorter than needed"),
            ([4, 8, 0, 0], "offset 8 is negative, falling or past the data"),
            ([5, 8, 0, 0], "the index at place 8 names no row"),
            ([6, 8, 9, 0], "offsets overflow at index 8, total 9"),
            ([7, 1, 9, 0], "9 bytes of validity have to be lent"),
            ([7, 2, 9, 0], "9 bytes of offsets have to be lent"),
            ([7, 3, 9, 0], "9 bytes of data have to be lent"),
            ([8, 0, 0, 0], "the columns have different numbers of rows"),
        ];
        for (numbers, text) in told {
            let refusal = outcome(numbers).unwrap_err();
            assert_eq!(refusal.number(), numbers[0]);
            assert_eq!(refusal.to_string(), text);
        }
    }

    #[test]
    #[should_panic(expected = "number 9")]
    fn an_impossible_number_panics() {
        let _ = outcome([9, 0, 0, 0]);
    }
}
