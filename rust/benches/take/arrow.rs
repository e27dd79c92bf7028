//! What `take.rs` stands on, of the same make on std types: typed views of buffers, validity with
//! its null count, and the walk over the set bits.

use std::borrow::Cow;

/// An index type: what `take.rs` asks of `ArrowPrimitiveType` for it.
pub trait Index: Copy + Ord {
    const ZERO: Self;
    fn from_usize(value: usize) -> Option<Self>;
    fn as_usize(self) -> usize;
}

/// An offset type: `OffsetSizeTrait`.
pub trait Offset: Copy + Ord + Default {
    fn from_usize(value: usize) -> Option<Self>;
    fn as_usize(self) -> usize;
    fn checked_add(self, other: Self) -> Option<Self>;
    fn minus(self, other: Self) -> Self;
}

macro_rules! index {
    ($($native:ty),*) => { $(
        impl Index for $native {
            const ZERO: Self = 0;
            fn from_usize(value: usize) -> Option<Self> {
                value.try_into().ok()
            }
            fn as_usize(self) -> usize {
                self as usize
            }
        }
    )* };
}

macro_rules! offset {
    ($($native:ty),*) => { $(
        impl Offset for $native {
            fn from_usize(value: usize) -> Option<Self> {
                value.try_into().ok()
            }
            fn as_usize(self) -> usize {
                self as usize
            }
            fn checked_add(self, other: Self) -> Option<Self> {
                <$native>::checked_add(self, other)
            }
            fn minus(self, other: Self) -> Self {
                self - other
            }
        }
    )* };
}

index!(u8, u16, u32, u64);
offset!(i32, i64);

/// A value of 32 bytes, laid out as arrow's `i256`.
#[derive(Clone, Copy, Default)]
#[repr(C)]
pub struct I256 {
    low: u128,
    high: i128,
}

/// A plain number, or a group of them: any bytes are one, and it has no padding.
///
/// # Safety
/// Both must hold of the type.
pub unsafe trait Native: Copy + Default {}

macro_rules! native {
    ($($native:ty),*) => { $( unsafe impl Native for $native {} )* };
}

native!(u8, u16, u32, u64, u128, I256, i32, i64);

/// A buffer as the numbers that it holds: `ScalarBuffer`, with its test of the alignment.
pub fn typed<T: Native>(bytes: &[u8]) -> &[T] {
    // SAFETY: any bytes are a T.
    let (before, numbers, _) = unsafe { bytes.align_to::<T>() };
    assert!(before.is_empty(), "Memory pointer is not aligned with the specified scalar type");
    numbers
}

/// The bytes of numbers.
pub fn bytes_of<T: Native>(numbers: &[T]) -> &[u8] {
    // SAFETY: a T has no padding.
    unsafe { std::slice::from_raw_parts(numbers.as_ptr().cast(), size_of_val(numbers)) }
}

/// Validity bits from bit 0 on: `NullBuffer`, which knows how many are 0 and shares its bytes.
#[derive(Clone)]
pub struct Nulls<'a> {
    pub bits: Cow<'a, [u8]>,
    pub len: usize,
    pub null_count: usize,
}

impl<'a> Nulls<'a> {
    /// `NullBuffer::from_unsliced_buffer`: counts, and is nothing where no bit is 0.
    pub fn counted(bits: Vec<u8>, len: usize) -> Option<Self> {
        let null_count = len - count_set_bits(&bits, len);
        (null_count > 0).then_some(Nulls { bits: Cow::Owned(bits), len, null_count })
    }

    /// `clone`, which copies no bytes.
    pub fn shared(&'a self) -> Self {
        Nulls { bits: Cow::Borrowed(&self.bits), ..*self }
    }

    pub fn is_valid(&self, i: usize) -> bool {
        assert!(i < self.len);
        // SAFETY: i is below the number of bits.
        unsafe { self.is_valid_unchecked(i) }
    }

    /// # Safety
    /// `i` must be below `len`.
    pub unsafe fn is_valid_unchecked(&self, i: usize) -> bool {
        unsafe { *self.bits.get_unchecked(i / 8) >> (i % 8) & 1 == 1 }
    }

    /// The places of the set bits, a word at a time: `BitIndexIterator`.
    pub fn valid_indices(&self) -> impl Iterator<Item = usize> + '_ {
        let mut words = words(&self.bits, self.len);
        let mut word = 0u64;
        let mut start = 0usize.wrapping_sub(64);
        std::iter::from_fn(move || loop {
            if word != 0 {
                let bit = word.trailing_zeros();
                word ^= 1 << bit;
                return Some(start + bit as usize);
            }
            word = words.next()?;
            start = start.wrapping_add(64);
        })
    }

    /// `NullBuffer::union`: the bits that are set in both.
    pub fn union(one: Option<Nulls<'a>>, other: Option<Nulls<'a>>) -> Option<Nulls<'a>> {
        match (one, other) {
            (Some(one), Some(other)) => {
                let and = |(a, b): (u64, u64)| a & b;
                let both = words(&one.bits, one.len).zip(words(&other.bits, other.len)).map(and);
                let mut bits: Vec<u8> = both.flat_map(u64::to_le_bytes).collect();
                bits.truncate(one.len.div_ceil(8));
                Nulls::counted(bits, one.len)
            }
            (one, other) => one.or(other),
        }
    }
}

/// The bits as words, those of the last one above `len` cleared.
fn words(bits: &[u8], len: usize) -> impl Iterator<Item = u64> + '_ {
    let (whole, rest) = bits[..len.div_ceil(8)].split_at(len / 64 * 8);
    let mut last = [0; 8];
    last[..rest.len()].copy_from_slice(rest);
    let last = u64::from_le_bytes(last) & !(u64::MAX << (len % 64));
    let word = |bytes: &[u8]| u64::from_le_bytes(bytes.try_into().expect("8 bytes"));
    whole.chunks_exact(8).map(word).chain((len % 64 != 0).then_some(last))
}

pub fn count_set_bits(bits: &[u8], len: usize) -> usize {
    words(bits, len).map(|word| word.count_ones() as usize).sum()
}
