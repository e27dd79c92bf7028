//! The range test alone: `hoglidra_take` with no room for any output, so that it is refused right
//! after it, and `check_bounds` of `take.rs`. Ours also has the other tests, and writes an answer.

use std::fmt;
use std::hint::black_box;

use hoglidra::raw::{self, Call};
use hoglidra::{Column, Indices, Kind, Output};

use crate::case::{Order, INDEX_WIDTHS};
use crate::input::{bitmap, counted_nulls, Buffer, Random};
use crate::reference::{self, Error, IndexArray};

/// Which indices are outside.
#[derive(Clone, Copy, PartialEq, Eq)]
pub enum Outside {
    Nothing,
    /// None can be, for the index width cannot hold the row count.
    TooNarrow,
    First,
    Middle,
    Last,
    /// None that is valid: of a hundred ten are null, over numbers outside.
    UnderNulls,
}

#[derive(Clone, Copy)]
pub struct RangeCase {
    pub count: usize,
    pub index_width: usize,
    pub outside: Outside,
}

/// Under callgrind this many would take minutes.
pub const MOST: usize = 1_000_000;

pub const COUNTS: [usize; 3] = [MOST, 100_000, 40];

pub const OUTSIDE: [Outside; 6] = [
    Outside::Nothing,
    Outside::TooNarrow,
    Outside::First,
    Outside::Middle,
    Outside::Last,
    Outside::UnderNulls,
];

/// No row count within the limits is too many for wider indices than 2 bytes.
pub fn cases() -> Vec<RangeCase> {
    let mut cases = Vec::new();
    for outside in OUTSIDE {
        for index_width in INDEX_WIDTHS {
            for count in COUNTS {
                if outside != Outside::TooNarrow || index_width <= 2 {
                    cases.push(RangeCase { count, index_width, outside });
                }
            }
        }
    }
    cases
}

impl RangeCase {
    /// The largest row count that an index of 1 byte can be outside of, or one of 2, which wider ones
    /// have too; or one more, which these cannot hold.
    fn rows(&self) -> usize {
        let held = if self.index_width == 1 { 255 } else { 65_535 };
        held + usize::from(self.outside == Outside::TooNarrow)
    }

    /// Where the valid index outside is.
    fn place(&self) -> Option<usize> {
        match self.outside {
            Outside::First => Some(0),
            Outside::Middle => Some(self.count / 2),
            Outside::Last => Some(self.count - 1),
            Outside::Nothing | Outside::TooNarrow | Outside::UnderNulls => None,
        }
    }
}

impl fmt::Display for Outside {
    fn fmt(&self, f: &mut fmt::Formatter<'_>) -> fmt::Result {
        f.write_str(match self {
            Outside::Nothing => "nothing outside",
            Outside::TooNarrow => "too narrow",
            Outside::First => "the first outside",
            Outside::Middle => "the middle one outside",
            Outside::Last => "the last outside",
            Outside::UnderNulls => "10 % null and outside",
        })
    }
}

impl fmt::Display for RangeCase {
    fn fmt(&self, f: &mut fmt::Formatter<'_>) -> fmt::Result {
        let RangeCase { count, index_width, outside } = self;
        write!(f, "range; {} by {count}, index width {index_width}, {outside}", self.rows())
    }
}

/// The input of a case.
pub struct RangeInput {
    case: RangeCase,
    data: Buffer,
    index_data: Buffer,
    index_validity: Option<Buffer>,
}

impl RangeInput {
    pub fn new(case: RangeCase) -> Self {
        let RangeCase { count, index_width, outside } = case;
        let rows = case.rows();
        let mut random = Random(1);
        let mut index_data = random.indices(rows, count, index_width, Order::Random);
        let nulls = if outside == Outside::UnderNulls { 10 } else { 0 };
        let index_validity = random.validity(count, nulls);
        let is_null = |i: usize| {
            index_validity.as_ref().is_some_and(|bits| bits.bytes()[i / 8] >> (i % 8) & 1 == 0)
        };
        for i in (0..count).filter(|i| case.place() == Some(*i) || is_null(*i)) {
            let number = &rows.to_le_bytes()[..index_width];
            index_data[i * index_width..][..index_width].copy_from_slice(number);
        }
        RangeInput {
            case,
            data: Buffer::filled(4 * rows, 0xAA),
            index_data: Buffer::new(&index_data),
            index_validity,
        }
    }

    /// What our side is called with.
    pub fn ours(&self) -> Ours<'_> {
        let column = Column {
            kind: Kind::Primitive { width: 4 },
            rows: self.case.rows(),
            data: self.data.bytes(),
            offsets: &[],
            validity: None,
        };
        let indices = Indices {
            width: self.case.index_width,
            count: self.case.count,
            data: self.index_data.bytes(),
            validity: bitmap(&self.index_validity),
        };
        Ours { call: Call::new(&column, &indices), answer: [0; 32] }
    }

    /// What the Rust side is called with.
    pub fn rust(&self) -> Rust<'_> {
        let RangeCase { count, index_width, .. } = self.case;
        let indices = IndexArray {
            width: index_width,
            data: self.index_data.bytes(),
            count,
            nulls: self.index_validity.as_ref().map(|bits| counted_nulls(bits.bytes(), count)),
        };
        Rust { rows: self.case.rows(), indices }
    }

    /// Stops unless both sides find what is outside, or nothing.
    pub fn compare(&self) {
        let case = self.case;
        let needed = case.count.div_ceil(8) as u64;
        let refusal = case.place().map_or([7, 1, needed, 0], |place| [5, place as u64, 0, 0]);
        assert_eq!(self.ours().test(), refusal, "{case}: ours");
        let rust = self.rust();
        assert_eq!(rust.test().is_err(), case.place().is_some(), "{case}: Rust");
        let nulls = rust.indices.nulls.map_or(0, |nulls| nulls.null_count);
        assert_eq!(nulls > 0, case.outside == Outside::UnderNulls, "{case}: {nulls} nulls");
    }
}

/// A call of `hoglidra_take` that nothing is lent to.
pub struct Ours<'a> {
    call: Call<'a>,
    answer: [u8; 32],
}

impl Ours<'_> {
    pub fn test(&mut self) -> [u64; 4] {
        let mut output = Output { validity: &mut [], offsets: &mut [], data: &mut [] };
        raw::take(black_box(&self.call), black_box(&mut output), &mut self.answer);
        raw::numbers(black_box(&self.answer))
    }
}

pub struct Rust<'a> {
    rows: usize,
    indices: IndexArray<'a>,
}

impl Rust<'_> {
    pub fn test(&self) -> Result<(), Error> {
        reference::check(black_box(self.rows), black_box(&self.indices))
    }
}
