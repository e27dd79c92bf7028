//! What ours writes where the Rust side takes: the same rows, offsets and nulls. Two things differ:
//! ours always writes the validity, and below null rows it writes zeros, where the loops of `take.rs`
//! leave what they find.

use std::borrow::Cow;

use hoglidra::{Kind, Output};

use crate::reference::Taken;

/// The validity of what the Rust side took: ones where it has none.
pub fn validity<'a>(taken: &'a Taken, count: usize) -> Cow<'a, [u8]> {
    match &taken.nulls {
        Some(nulls) => Cow::Borrowed(&nulls.bits),
        None => {
            let mut bits = vec![0xFF; count.div_ceil(8)];
            if count % 8 != 0 {
                bits[count / 8] = (1 << (count % 8)) - 1;
            }
            Cow::Owned(bits)
        }
    }
}

/// The data of what the Rust side took, with zeros below its null rows.
pub fn data(taken: &Taken, kind: Kind, count: usize) -> Vec<u8> {
    let mut data = taken.data.bytes().to_vec();
    zero_below_nulls(kind, count, &validity(taken, count), taken.offsets.bytes(), &mut data);
    data
}

/// Makes what lies below each null row of an output zeros.
///
/// # Panics
/// Where a null row of variable bytes or of a list is not empty: no byte is zeroed in these kinds.
pub fn zero_below_nulls(
    kind: Kind,
    count: usize,
    validity: &[u8],
    offsets: &[u8],
    data: &mut [u8],
) {
    for i in (0..count).filter(|i| validity[i / 8] >> (i % 8) & 1 == 0) {
        match kind {
            Kind::Boolean { .. } => data[i / 8] &= !(1 << (i % 8)),
            Kind::Bytes { offset_width } | Kind::List { offset_width, .. } => {
                let offset = |at: usize| &offsets[at * offset_width..][..offset_width];
                assert!(offset(i) == offset(i + 1), "null row {i} is not empty");
            }
            _ => {
                let length = Output::data_len(kind, 1).expect("rows of one length");
                data[i * length..][..length].fill(0);
            }
        }
    }
}
