//! The cases: what is gathered, how much of it, by which indices.

use std::fmt;

use hoglidra::Kind;

/// The paper's limit of every lent buffer.
const MOST_BYTES: usize = 16_777_216;

/// A column: its kind, and for rows of any length their average in bytes.
#[derive(Clone, Copy, PartialEq, Eq)]
pub struct Layout {
    pub kind: Kind,
    pub row_bytes: usize,
}

#[derive(Clone, Copy, PartialEq, Eq)]
pub enum Order {
    Random,
    Sequential,
}

/// How many rows of the column and how many of the indices are null, of a hundred.
#[derive(Clone, Copy, PartialEq, Eq)]
pub struct Nulls {
    pub rows: u64,
    pub indices: u64,
}

/// How many rows of the column, and how many indices: one of [`SIZES`].
#[derive(Clone, Copy, PartialEq, Eq)]
pub struct Size {
    pub rows: usize,
    pub count: usize,
}

#[derive(Clone, Copy)]
pub struct Case {
    pub layout: Layout,
    /// What was asked for.
    pub size: Size,
    /// What the limit of a buffer leaves of it.
    pub rows: usize,
    pub count: usize,
    pub index_width: usize,
    pub nulls: Nulls,
    pub order: Order,
}

pub const LARGE: Size = Size { rows: 1_000_000, count: 1_000_000 };
pub const MIDDLE: Size = Size { rows: 65_536, count: 100_000 };
/// The everyday gather: a few rows of a large table.
pub const SMALL: Size = Size { rows: 4_096, count: 40 };

pub const SIZES: [Size; 3] = [LARGE, MIDDLE, SMALL];

pub const INDEX_WIDTHS: [usize; 4] = [1, 2, 4, 8];

pub const NULLS: [Nulls; 5] = [
    Nulls { rows: 0, indices: 0 },
    Nulls { rows: 10, indices: 10 },
    Nulls { rows: 50, indices: 50 },
    Nulls { rows: 10, indices: 0 },
    Nulls { rows: 0, indices: 10 },
];

pub fn layouts() -> Vec<Layout> {
    let mut layouts = Vec::new();
    let mut add = |kind, row_bytes| layouts.push(Layout { kind, row_bytes });
    for width in [1, 2, 4, 8, 16, 32] {
        add(Kind::Primitive { width }, width);
    }
    add(Kind::Boolean { bit_offset: 0 }, 1);
    for row_bytes in [3, 12, 100, 1000] {
        add(Kind::Bytes { offset_width: 4 }, row_bytes);
    }
    add(Kind::Bytes { offset_width: 8 }, 12);
    add(Kind::List { width: 4, offset_width: 4 }, 12);
    add(Kind::List { width: 8, offset_width: 8 }, 64);
    add(Kind::FixedSizeList { width: 4, size: 3 }, 12);
    add(Kind::FixedSizeList { width: 8, size: 8 }, 64);
    for size in [1, 3, 12, 16, 100] {
        add(Kind::FixedSizeBinary { size }, size);
    }
    layouts
}

/// Every case. A column or an output that would pass the limit of a buffer is cut to it.
pub fn cases() -> Vec<Case> {
    let mut cases = Vec::new();
    for layout in layouts() {
        for size in SIZES {
            for index_width in INDEX_WIDTHS {
                for nulls in NULLS {
                    for order in [Order::Random, Order::Sequential] {
                        let most = MOST_BYTES / layout.row_bytes;
                        cases.push(Case {
                            layout,
                            size,
                            rows: size.rows.min(most),
                            count: size.count.min(most),
                            index_width,
                            nulls,
                            order,
                        });
                    }
                }
            }
        }
    }
    cases
}

impl fmt::Display for Layout {
    fn fmt(&self, f: &mut fmt::Formatter<'_>) -> fmt::Result {
        match self.kind {
            Kind::Primitive { width } => write!(f, "kind 1, width {width}"),
            Kind::Boolean { .. } => write!(f, "kind 2"),
            Kind::Bytes { offset_width } => {
                write!(f, "kind 3, rows of {}, offsets of {offset_width}", self.row_bytes)
            }
            Kind::List { width, offset_width } => {
                let values = self.row_bytes / width;
                write!(f, "kind 4, rows of {values} by {width}, offsets of {offset_width}")
            }
            Kind::FixedSizeList { width, size } => write!(f, "kind 5, {size} by {width}"),
            Kind::FixedSizeBinary { size } => write!(f, "kind 6, size {size}"),
            _ => unreachable!("no layout has another kind"),
        }
    }
}

impl fmt::Display for Nulls {
    fn fmt(&self, f: &mut fmt::Formatter<'_>) -> fmt::Result {
        match (self.rows, self.indices) {
            (0, 0) => write!(f, "no nulls"),
            (rows, 0) => write!(f, "{rows} % of the rows null"),
            (0, indices) => write!(f, "{indices} % of the indices null"),
            (both, _) => write!(f, "{both} % null"),
        }
    }
}

impl fmt::Display for Case {
    fn fmt(&self, f: &mut fmt::Formatter<'_>) -> fmt::Result {
        let order = match self.order {
            Order::Random => "random",
            Order::Sequential => "sequential",
        };
        let Case { layout, rows, count, index_width, nulls, .. } = self;
        write!(f, "{layout}; {rows} by {count}, index width {index_width}, {nulls}, {order}")
    }
}
