//! A well-formed case as arrow has it: numbers aligned, bits from bit 0 on.

use std::borrow::Cow;

use hoglidra::Kind;

use crate::archive;
use crate::arrow::{bytes_of, count_set_bits, Nulls};
use crate::case::Case;
use crate::reference::{Array, IndexArray};

/// Bytes that start where a number of any width may start.
struct Aligned {
    words: Vec<u128>,
    len: usize,
}

impl Aligned {
    fn new(bytes: &[u8]) -> Self {
        let word = |chunk: &[u8]| {
            let mut word = [0; 16];
            word[..chunk.len()].copy_from_slice(chunk);
            u128::from_ne_bytes(word)
        };
        Aligned { words: bytes.chunks(16).map(word).collect(), len: bytes.len() }
    }

    fn bytes(&self) -> &[u8] {
        &bytes_of(&self.words)[..self.len]
    }
}

/// The bits from `from` on, at bit offset 0, spare bits 0.
fn bits(bytes: &[u8], from: u64, count: u64) -> Vec<u8> {
    let mut bits = vec![0; count.div_ceil(8) as usize];
    for (i, at) in (from as usize..).take(count as usize).enumerate() {
        bits[i / 8] |= (bytes[at / 8] >> (at % 8) & 1) << (i % 8);
    }
    bits
}

fn nulls(validity: &[u8], bit_offset: u64, count: u64) -> Option<Nulls<'static>> {
    if validity.is_empty() {
        return None;
    }
    let bits = bits(validity, bit_offset, count);
    let null_count = count as usize - count_set_bits(&bits, count as usize);
    Some(Nulls { bits: Cow::Owned(bits), len: count as usize, null_count })
}

pub struct Arrays<'a> {
    case: &'a Case,
    kind: Kind,
    data: Aligned,
    offsets: Aligned,
    nulls: Option<Nulls<'a>>,
    index_data: Aligned,
    index_nulls: Option<Nulls<'a>>,
}

impl<'a> Arrays<'a> {
    pub fn new(case: &'a Case) -> Self {
        let (table, indices) = (&case.table, &case.indices);
        let data = match table.kind {
            2 => Aligned::new(&bits(&table.data, table.data_bit, table.rows)),
            3 | 4 => Aligned::new(&[]),
            _ => Aligned::new(&table.data),
        };
        Arrays {
            case,
            kind: archive::kind(table).expect("a known kind"),
            data,
            offsets: Aligned::new(&table.offsets),
            nulls: nulls(&table.validity, table.validity_bit, table.rows),
            index_data: Aligned::new(&indices.data),
            index_nulls: nulls(&indices.validity, indices.validity_bit, indices.count),
        }
    }

    pub fn array(&self) -> Array<'_> {
        Array {
            kind: self.kind,
            rows: self.case.table.rows as usize,
            data: match self.kind {
                Kind::Bytes { .. } | Kind::List { .. } => &self.case.table.data,
                _ => self.data.bytes(),
            },
            offsets: self.offsets.bytes(),
            nulls: self.nulls.as_ref().map(Nulls::shared),
        }
    }

    /// The first of the indices, so many.
    pub fn indices(&self, count: u64) -> IndexArray<'_> {
        let len = count as usize;
        let first = self.index_nulls.as_ref().map(|nulls| {
            let null_count = len - count_set_bits(&nulls.bits, len);
            Nulls { len, null_count, ..nulls.shared() }
        });
        IndexArray {
            width: self.case.indices.width as usize,
            data: self.index_data.bytes(),
            count: len,
            nulls: first,
        }
    }
}
