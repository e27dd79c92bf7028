//! The Rust side: `take` of arrow-select 60.1.0 with `check_bounds`, its loops as they are in
//! `take.rs`, on slices and `Vec` in place of arrow's arrays. See NOTICE for its licence.
//!
//! It is called as arrow is on buffers from outside: offsets are tested as `OffsetBuffer` and the
//! arrays test them. Null counts come with the validity, and the null buffers of the indices are
//! shared, as arrow does; the null buffer that arrow makes for the child of a fixed-size list has
//! no counterpart in ours and is left out. All three favour the Rust side.
//!
//! `size` runs the loops of `take_bytes` and `take_list` without the copying, so that the tests
//! (rust/tests/properties) can meet totals that no output could hold.

use std::fmt;

use hoglidra::Kind;

use crate::arrow::{bytes_of, typed, Index, Native, Nulls, Offset, I256};

/// An array: the buffers of a column, and how many of its rows are null.
pub struct Array<'a> {
    pub kind: Kind,
    pub rows: usize,
    pub data: &'a [u8],
    pub offsets: &'a [u8],
    pub nulls: Option<Nulls<'a>>,
}

/// An index array of any of the four widths.
pub struct IndexArray<'a> {
    pub width: usize,
    pub data: &'a [u8],
    pub count: usize,
    pub nulls: Option<Nulls<'a>>,
}

/// A taken array: `Buffer` keeps the vector that it was made from.
pub struct Taken<'a> {
    pub nulls: Option<Nulls<'a>>,
    pub offsets: Buffer,
    pub data: Buffer,
}

/// A vector of numbers of some width.
pub enum Buffer {
    None,
    U8(Vec<u8>),
    U16(Vec<u16>),
    U32(Vec<u32>),
    U64(Vec<u64>),
    U128(Vec<u128>),
    I256(Vec<I256>),
    I32(Vec<i32>),
    I64(Vec<i64>),
}

impl Buffer {
    pub fn bytes(&self) -> &[u8] {
        match self {
            Buffer::None => &[],
            Buffer::U8(numbers) => numbers,
            Buffer::U16(numbers) => bytes_of(numbers),
            Buffer::U32(numbers) => bytes_of(numbers),
            Buffer::U64(numbers) => bytes_of(numbers),
            Buffer::U128(numbers) => bytes_of(numbers),
            Buffer::I256(numbers) => bytes_of(numbers),
            Buffer::I32(numbers) => bytes_of(numbers),
            Buffer::I64(numbers) => bytes_of(numbers),
        }
    }
}

/// What arrow reports as `ArrowError`.
pub enum Error {
    OutOfBounds,
    OffsetOverflow(usize),
    Offsets,
}

impl fmt::Display for Error {
    fn fmt(&self, f: &mut fmt::Formatter<'_>) -> fmt::Result {
        match self {
            Error::OutOfBounds => write!(f, "an index is out of bounds"),
            Error::OffsetOverflow(total) => write!(f, "the offsets overflow: {total}"),
            Error::Offsets => write!(f, "the offsets are not those of an array"),
        }
    }
}

/// `PrimitiveArray` of indices.
struct Indices<'a, I> {
    values: &'a [I],
    nulls: Option<&'a Nulls<'a>>,
}

impl<'a, I: Index> Indices<'a, I> {
    fn len(&self) -> usize {
        self.values.len()
    }

    fn null_count(&self) -> usize {
        self.nulls.map_or(0, |nulls| nulls.null_count)
    }

    fn some_nulls(&self) -> Option<&'a Nulls<'a>> {
        self.nulls.filter(|nulls| nulls.null_count > 0)
    }

    fn shared_nulls(&self) -> Option<Nulls<'a>> {
        self.nulls.map(Nulls::shared)
    }

    fn is_valid(&self, i: usize) -> bool {
        self.nulls.is_none_or(|nulls| nulls.is_valid(i))
    }

    /// # Safety
    /// `i` must be below `len`.
    unsafe fn value_unchecked(&self, i: usize) -> I {
        unsafe { *self.values.get_unchecked(i) }
    }

    fn iter(&self) -> impl Iterator<Item = Option<I>> + '_ {
        self.values.iter().enumerate().map(|(i, &index)| self.is_valid(i).then_some(index))
    }
}

impl<'a> IndexArray<'a> {
    fn typed<I: Index + Native>(&'a self) -> Indices<'a, I> {
        Indices { values: &typed::<I>(self.data)[..self.count], nulls: self.nulls.as_ref() }
    }
}

/// `take` with `check_bounds`.
pub fn take<'a>(array: &'a Array, indices: &'a IndexArray) -> Result<Taken<'a>, Error> {
    match indices.width {
        1 => take_by(array, &indices.typed::<u8>()),
        2 => take_by(array, &indices.typed::<u16>()),
        4 => take_by(array, &indices.typed::<u32>()),
        _ => take_by(array, &indices.typed::<u64>()),
    }
}

fn take_by<'a, I: Index>(array: &'a Array, indices: &Indices<'a, I>) -> Result<Taken<'a>, Error> {
    check_bounds(array.rows, indices)?;
    take_impl(array, indices)
}

/// The data bytes of what `take` gives, where rows have lengths of their own: nothing is copied.
pub fn size(array: &Array, indices: &IndexArray) -> Result<usize, Error> {
    match indices.width {
        1 => size_by(array, &indices.typed::<u8>()),
        2 => size_by(array, &indices.typed::<u16>()),
        4 => size_by(array, &indices.typed::<u32>()),
        _ => size_by(array, &indices.typed::<u64>()),
    }
}

fn size_by<I: Index>(array: &Array, indices: &Indices<I>) -> Result<usize, Error> {
    check_bounds(array.rows, indices)?;
    match array.kind {
        Kind::Bytes { offset_width: 4 } => size_bytes::<i32, I>(array, indices),
        Kind::Bytes { .. } => size_bytes::<i64, I>(array, indices),
        Kind::List { width, offset_width: 4 } => size_list::<i32, I>(array, width, indices),
        Kind::List { width, .. } => size_list::<i64, I>(array, width, indices),
        _ => unimplemented!("rows of this kind have one length"),
    }
}

/// `check_bounds` alone.
pub fn check(rows: usize, indices: &IndexArray) -> Result<(), Error> {
    match indices.width {
        1 => check_bounds(rows, &indices.typed::<u8>()),
        2 => check_bounds(rows, &indices.typed::<u16>()),
        4 => check_bounds(rows, &indices.typed::<u32>()),
        _ => check_bounds(rows, &indices.typed::<u64>()),
    }
}

/// Verifies that the non-null values of `indices` are all `< len`
fn check_bounds<I: Index>(len: usize, indices: &Indices<I>) -> Result<(), Error> {
    let Some(len) = I::from_usize(len) else {
        return Ok(());
    };
    let in_bounds =
        indices.values.iter().fold(true, |in_bounds, &i| in_bounds & (i >= I::ZERO) & (i < len));
    if in_bounds {
        Ok(())
    } else if indices.null_count() > 0 {
        indices.iter().flatten().try_for_each(|index| {
            if index >= len {
                return Err(Error::OutOfBounds);
            }
            Ok(())
        })
    } else {
        for &index in indices.values {
            if index < I::ZERO || index >= len {
                return Err(Error::OutOfBounds);
            }
        }
        Ok(())
    }
}

#[inline(never)]
fn take_impl<'a, I: Index>(array: &'a Array, indices: &Indices<'a, I>) -> Result<Taken<'a>, Error> {
    match array.kind {
        Kind::Primitive { width: 1 } => Ok(take_primitive(array, indices, Buffer::U8)),
        Kind::Primitive { width: 2 } => Ok(take_primitive(array, indices, Buffer::U16)),
        Kind::Primitive { width: 4 } => Ok(take_primitive(array, indices, Buffer::U32)),
        Kind::Primitive { width: 8 } => Ok(take_primitive(array, indices, Buffer::U64)),
        Kind::Primitive { width: 16 } => Ok(take_primitive(array, indices, Buffer::U128)),
        Kind::Primitive { .. } => Ok(take_primitive(array, indices, Buffer::I256)),
        Kind::Boolean { .. } => Ok(take_boolean(array, indices)),
        Kind::Bytes { offset_width: 4 } => take_bytes(array, indices, Buffer::I32),
        Kind::Bytes { .. } => take_bytes(array, indices, Buffer::I64),
        Kind::List { width, offset_width: 4 } => take_list(array, width, indices, Buffer::I32),
        Kind::List { width, .. } => take_list(array, width, indices, Buffer::I64),
        Kind::FixedSizeList { width, size } => {
            Ok(take_fixed_size_list(array, indices, size, width))
        }
        Kind::FixedSizeBinary { size } => Ok(take_fixed_size_binary(array, indices, size)),
        _ => unimplemented!("no kernel of this kind is ported"),
    }
}

/// `take` implementation for all primitive arrays
fn take_primitive<'a, T: Native, I: Index>(
    array: &'a Array,
    indices: &Indices<'a, I>,
    buffer: fn(Vec<T>) -> Buffer,
) -> Taken<'a> {
    let values = &typed::<T>(array.data)[..array.rows];
    let data = take_native(values, indices);
    let nulls = take_nulls(array.nulls.as_ref(), indices);
    Taken { nulls, offsets: Buffer::None, data: buffer(data) }
}

#[inline(never)]
fn take_nulls<'a, I: Index>(values: Option<&Nulls>, indices: &Indices<'a, I>) -> Option<Nulls<'a>> {
    match values.filter(|n| n.null_count > 0) {
        Some(n) => Nulls::counted(take_bits(&n.bits, n.len, indices), indices.len()),
        None => indices.shared_nulls(),
    }
}

#[inline(never)]
fn take_native<T: Native, I: Index>(values: &[T], indices: &Indices<I>) -> Vec<T> {
    match indices.some_nulls() {
        Some(n) => indices
            .values
            .iter()
            .enumerate()
            .map(|(idx, index)| match values.get(index.as_usize()) {
                Some(v) => *v,
                // SAFETY: idx<indices.len()
                None => match unsafe { n.is_valid_unchecked(idx) } {
                    false => T::default(),
                    true => panic!("Out-of-bounds index"),
                },
            })
            .collect(),
        None => indices.values.iter().map(|index| values[index.as_usize()]).collect(),
    }
}

/// `BooleanBuffer::value`
fn value(bits: &[u8], len: usize, i: usize) -> bool {
    assert!(i < len);
    // SAFETY: `bits` holds `len` bits.
    unsafe { *bits.get_unchecked(i / 8) >> (i % 8) & 1 != 0 }
}

/// `bit_util::set_bit_raw`
///
/// # Safety
/// `bits` must be valid for writes up to byte `i / 8`.
unsafe fn set_bit_raw(bits: *mut u8, i: usize) {
    unsafe { *bits.add(i / 8) |= 1 << (i % 8) };
}

#[inline(never)]
fn take_bits<I: Index>(bits: &[u8], bits_len: usize, indices: &Indices<I>) -> Vec<u8> {
    let len = indices.len();
    let out_bytes = len.div_ceil(8);

    match indices.some_nulls() {
        Some(index_nulls) => {
            let mut output = vec![0u8; out_bytes];
            let out_ptr = output.as_mut_ptr();
            index_nulls.valid_indices().for_each(|valid_idx| {
                // SAFETY: valid_idx < indices.len(), guaranteed by valid_indices().
                let index_val = unsafe { indices.value_unchecked(valid_idx) }.as_usize();
                if value(bits, bits_len, index_val) {
                    // SAFETY: valid_idx < indices.len() = len, output buffer holds len bits.
                    unsafe { set_bit_raw(out_ptr, valid_idx) };
                }
            });
            output
        }
        None => {
            // Build the output byte-by-byte with an 8-element inner loop so the
            // compiler can fully unroll it and issue the 8 source loads in parallel.
            let mut output = vec![0u8; out_bytes];
            let out_slice = output.as_mut_slice();
            let full_bytes = len / 8;

            for (byte_idx, out_byte) in out_slice.iter_mut().enumerate().take(full_bytes) {
                let base = byte_idx * 8;
                let mut byte = 0u8;
                for bit in 0..8usize {
                    // SAFETY: base + bit < full_bytes * 8 <= len, so base + bit is a valid
                    // position in the indices array.
                    let index_val = unsafe { indices.value_unchecked(base + bit) }.as_usize();
                    byte |= (value(bits, bits_len, index_val) as u8) << bit;
                }
                *out_byte = byte;
            }
            // Handle remaining bits when len is not a multiple of 8.
            if full_bytes < out_bytes {
                let base = full_bytes * 8;
                let mut byte = 0u8;
                for bit in 0..(len - base) {
                    // SAFETY: base + bit < len (remainder loop bound), so base + bit is a
                    // valid position in the indices array.
                    let index_val = unsafe { indices.value_unchecked(base + bit) }.as_usize();
                    byte |= (value(bits, bits_len, index_val) as u8) << bit;
                }
                out_slice[full_bytes] = byte;
            }
            output
        }
    }
}

/// Gather value bits and validity bits from two boolean buffers in a single pass.
/// Used when the values array itself has nulls, avoiding two separate `take_bits` calls.
#[inline(never)]
fn take_bits_with_validity<'a, I: Index>(
    values: &[u8],
    validity: &[u8],
    values_len: usize,
    indices: &Indices<'a, I>,
) -> (Vec<u8>, Option<Nulls<'a>>) {
    let len = indices.len();
    let out_bytes = len.div_ceil(8);

    let mut value_out = vec![0u8; out_bytes];
    let mut validity_out = vec![0u8; out_bytes];

    match indices.some_nulls() {
        Some(index_nulls) => {
            let value_out_ptr = value_out.as_mut_ptr();
            let validity_out_ptr = validity_out.as_mut_ptr();
            for out_pos in index_nulls.valid_indices() {
                // SAFETY: out_pos < indices.len(), guaranteed by valid_indices().
                let src_idx = unsafe { indices.value_unchecked(out_pos) }.as_usize();
                if value(values, values_len, src_idx) {
                    // SAFETY: out_pos < indices.len() = len, output buffer holds len bits.
                    unsafe { set_bit_raw(value_out_ptr, out_pos) };
                }
                if value(validity, values_len, src_idx) {
                    // SAFETY: out_pos < indices.len() = len, output buffer holds len bits.
                    unsafe { set_bit_raw(validity_out_ptr, out_pos) };
                }
            }
        }
        None => {
            let value_out_slice = value_out.as_mut_slice();
            let validity_out_slice = validity_out.as_mut_slice();
            let full_bytes = len / 8;

            for (byte_idx, (value_out_byte, validity_out_byte)) in value_out_slice
                .iter_mut()
                .zip(validity_out_slice.iter_mut())
                .enumerate()
                .take(full_bytes)
            {
                let bit_base = byte_idx * 8;
                let mut packed_values = 0u8;
                let mut packed_validity = 0u8;
                for bit_pos in 0..8usize {
                    // SAFETY: bit_base + bit_pos < full_bytes * 8 <= len.
                    let src_idx = unsafe { indices.value_unchecked(bit_base + bit_pos) }.as_usize();
                    packed_values |= (value(values, values_len, src_idx) as u8) << bit_pos;
                    packed_validity |= (value(validity, values_len, src_idx) as u8) << bit_pos;
                }
                *value_out_byte = packed_values;
                *validity_out_byte = packed_validity;
            }
            // Handle remaining bits when len is not a multiple of 8.
            if full_bytes < out_bytes {
                let bit_base = full_bytes * 8;
                let mut packed_values = 0u8;
                let mut packed_validity = 0u8;
                for bit_pos in 0..(len - bit_base) {
                    // SAFETY: bit_base + bit_pos < len (remainder loop bound).
                    let src_idx = unsafe { indices.value_unchecked(bit_base + bit_pos) }.as_usize();
                    packed_values |= (value(values, values_len, src_idx) as u8) << bit_pos;
                    packed_validity |= (value(validity, values_len, src_idx) as u8) << bit_pos;
                }
                value_out_slice[full_bytes] = packed_values;
                validity_out_slice[full_bytes] = packed_validity;
            }
        }
    }

    (value_out, Nulls::counted(validity_out, len))
}

/// `take` implementation for boolean arrays
fn take_boolean<'a, I: Index>(array: &'a Array, indices: &Indices<'a, I>) -> Taken<'a> {
    let bits = &array.data[..array.rows.div_ceil(8)];
    let (data, nulls) = match array.nulls.as_ref().filter(|n| n.null_count > 0) {
        Some(array_nulls) => take_bits_with_validity(bits, &array_nulls.bits, array.rows, indices),
        None => (take_bits(bits, array.rows, indices), take_nulls(None, indices)),
    };
    Taken { nulls, offsets: Buffer::None, data: Buffer::U8(data) }
}

/// The offsets of an array from outside: the tests of `OffsetBuffer::new` and of the arrays.
fn checked_offsets<O: Offset + Native>(
    offsets: &[u8],
    rows: usize,
    most: usize,
) -> Result<&[O], Error> {
    let offsets = &typed::<O>(offsets)[..rows + 1];
    let greater_than_zero = offsets[0] >= O::default();
    let monotonic = offsets.windows(2).all(|pair| pair[0] <= pair[1]);
    if !greater_than_zero || !monotonic || offsets[rows].as_usize() > most {
        return Err(Error::Offsets);
    }
    Ok(offsets)
}

/// The first loop of `take_bytes` where every output slot is valid: the offsets, and how many bytes
/// the rows have.
#[inline(always)]
fn offsets_of_all<O: Offset, I: Index>(
    input_offsets: &[O],
    indices: &Indices<I>,
    offsets: &mut Vec<O>,
) -> Result<usize, Error> {
    let mut capacity = 0;
    for index in indices.values {
        let index = index.as_usize();
        let start = input_offsets[index].as_usize();
        let end = input_offsets[index + 1].as_usize();
        capacity += end - start;
        offsets.push(O::from_usize(capacity).ok_or(Error::OffsetOverflow(capacity))?);
    }
    Ok(capacity)
}

/// The same where some output slots are null, and which ranges the valid ones are copied from.
#[inline(always)]
fn offsets_of_valid<O: Offset, I: Index>(
    input_offsets: &[O],
    indices: &Indices<I>,
    output_nulls: &Nulls,
    offsets: &mut Vec<O>,
    source_ranges: &mut Vec<(usize, usize)>,
) -> Result<usize, Error> {
    let mut capacity = 0;
    let mut last_filled = 0;

    // Pre-fill offsets; we overwrite valid positions below.
    offsets.resize(indices.len() + 1, O::default());

    // Pass 1: find all valid ranges that need to be copied.
    for i in output_nulls.valid_indices() {
        let current_offset = O::from_usize(capacity).ok_or(Error::OffsetOverflow(capacity))?;
        // Fill offsets for skipped null slots so they get zero-length ranges.
        if last_filled < i {
            offsets[last_filled + 1..=i].fill(current_offset);
        }

        // SAFETY: `i` comes from a validity bitmap over `indices`, so it is in-bounds.
        let index = unsafe { indices.value_unchecked(i) }.as_usize();
        let start = input_offsets[index].as_usize();
        let end = input_offsets[index + 1].as_usize();
        capacity += end - start;
        offsets[i + 1] = O::from_usize(capacity).ok_or(Error::OffsetOverflow(capacity))?;

        source_ranges.push((start, end));
        last_filled = i + 1;
    }

    // Fill trailing null offsets after the last valid position.
    let final_offset = O::from_usize(capacity).ok_or(Error::OffsetOverflow(capacity))?;
    offsets[last_filled + 1..].fill(final_offset);
    Ok(capacity)
}

/// The loops of `take_bytes` before it copies.
fn size_bytes<O: Offset + Native, I: Index>(
    array: &Array,
    indices: &Indices<I>,
) -> Result<usize, Error> {
    let input_offsets = checked_offsets::<O>(array.offsets, array.rows, array.data.len())?;
    let mut offsets = vec![O::default()];
    let nulls = take_nulls(array.nulls.as_ref(), indices);
    match nulls.as_ref().filter(|n| n.null_count > 0) {
        None => offsets_of_all(input_offsets, indices, &mut offsets),
        Some(output_nulls) => {
            offsets_of_valid(input_offsets, indices, output_nulls, &mut offsets, &mut Vec::new())
        }
    }
}

/// `take` implementation for string arrays
fn take_bytes<'a, O: Offset + Native, I: Index>(
    array: &'a Array,
    indices: &Indices<'a, I>,
    buffer: fn(Vec<O>) -> Buffer,
) -> Result<Taken<'a>, Error> {
    let input_offsets = checked_offsets::<O>(array.offsets, array.rows, array.data.len())?;
    let mut values: Vec<u8> = Vec::new();
    let mut offsets = Vec::with_capacity(indices.len() + 1);
    offsets.push(O::default());

    let nulls = take_nulls(array.nulls.as_ref(), indices);

    // Branch on output nulls — `None` means every output slot is valid.
    match nulls.as_ref().filter(|n| n.null_count > 0) {
        // Fast path: no nulls in output, every index is valid.
        None => {
            let capacity = offsets_of_all(input_offsets, indices, &mut offsets)?;

            values.reserve(capacity);

            let dst = values.spare_capacity_mut();
            debug_assert!(dst.len() >= capacity);
            let mut offset = 0;

            for index in indices.values {
                // SAFETY: in-bounds proven by the first loop's bounds-checked offset access.
                // dst asserted above to include the required capacity.
                unsafe {
                    let index = index.as_usize();
                    let start = input_offsets.get_unchecked(index).as_usize();
                    let end = input_offsets.get_unchecked(index + 1).as_usize();
                    let data = array.data.get_unchecked(start..end);
                    std::ptr::copy_nonoverlapping(
                        data.as_ptr(),
                        dst.get_unchecked_mut(offset..).as_mut_ptr().cast::<u8>(),
                        data.len(),
                    );
                    offset += data.len();
                }
            }

            // SAFETY: wrote exactly `capacity` bytes above; reserved on line above.
            unsafe {
                values.set_len(capacity);
            }
        }
        // Nullable path: only process valid (non-null) output positions.
        Some(output_nulls) => {
            let mut source_ranges = Vec::with_capacity(indices.len() - output_nulls.null_count);
            let capacity = offsets_of_valid(
                input_offsets,
                indices,
                output_nulls,
                &mut offsets,
                &mut source_ranges,
            )?;

            // Pass 2: copy byte data for all collected ranges.
            values.reserve(capacity);

            let src = array.data.as_ptr();
            let dst = values.spare_capacity_mut();
            debug_assert!(dst.len() >= capacity);

            let mut offset = 0;

            for (start, end) in source_ranges {
                let value_len = end - start;
                // SAFETY: each (start, end) is in-bounds of `src`: they are offsets that were
                // tested. `dst` asserted above to include the required capacity.
                // The regions don't overlap (src is input, dst is a fresh allocation).
                unsafe {
                    std::ptr::copy_nonoverlapping(
                        src.add(start),
                        dst.get_unchecked_mut(offset..).as_mut_ptr().cast::<u8>(),
                        value_len,
                    );
                    offset += value_len;
                }
            }
            // SAFETY: the loop above wrote exactly `capacity` bytes.
            unsafe { values.set_len(capacity) };
        }
    }

    Ok(Taken { nulls, offsets: buffer(offsets), data: Buffer::U8(values) })
}

/// `take` implementation for list arrays of a primitive child without nulls
fn take_list<'a, O: Offset + Native, I: Index>(
    array: &'a Array,
    bytes_per_value: usize,
    indices: &Indices<'a, I>,
    buffer: fn(Vec<O>) -> Buffer,
) -> Result<Taken<'a>, Error> {
    let most = array.data.len() / bytes_per_value;
    let src_offsets = checked_offsets::<O>(array.offsets, array.rows, most)?;
    // The number of child values that the rows use, excluding values outside a slice
    let visible_child_len = src_offsets[array.rows].minus(src_offsets[0]).as_usize();
    // An estimate of the output's child length, from the average length of the rows
    let estimated_child_len = visible_child_len
        .checked_div(array.rows)
        .map_or(0, |avg| avg.saturating_mul(indices.len()));
    let nulls = take_nulls(array.nulls.as_ref(), indices);

    let mut dst_offsets = Vec::with_capacity(indices.len() + 1);
    dst_offsets.push(O::default());

    let values_buf = array.data;

    let mut dst_buf = Vec::with_capacity(estimated_child_len.saturating_mul(bytes_per_value));

    let mut child_len = O::default();

    match nulls.as_ref().filter(|n| n.null_count > 0) {
        None => {
            for &idx in indices.values {
                let row = idx.as_usize();
                let start = src_offsets[row].as_usize() * bytes_per_value;
                let end = src_offsets[row + 1].as_usize() * bytes_per_value;
                dst_buf.extend_from_slice(&values_buf[start..end]);
                child_len = child_len
                    .checked_add(src_offsets[row + 1].minus(src_offsets[row]))
                    .ok_or_else(|| Error::OffsetOverflow(child_len.as_usize()))?;
                dst_offsets.push(child_len);
            }
        }
        Some(valid) => {
            let mut prev = 0;
            for vidx in valid.valid_indices() {
                // Fill offsets for null values between the two valid indices.
                if prev < vidx {
                    dst_offsets.extend(std::iter::repeat_n(child_len, vidx - prev));
                }
                // SAFETY: vidx < indices.len(), guaranteed by valid_indices().
                let row = unsafe { indices.value_unchecked(vidx) }.as_usize();
                let start = src_offsets[row].as_usize() * bytes_per_value;
                let end = src_offsets[row + 1].as_usize() * bytes_per_value;
                dst_buf.extend_from_slice(&values_buf[start..end]);
                child_len = child_len
                    .checked_add(src_offsets[row + 1].minus(src_offsets[row]))
                    .ok_or_else(|| Error::OffsetOverflow(child_len.as_usize()))?;
                dst_offsets.push(child_len);
                prev = vidx + 1;
            }
            dst_offsets.extend(std::iter::repeat_n(child_len, indices.len() - prev));
        }
    }

    Ok(Taken { nulls, offsets: buffer(dst_offsets), data: Buffer::U8(dst_buf) })
}

/// The loops of `take_list` without their copying and without the offsets that they push: to take
/// both from one text would change what is timed.
fn size_list<O: Offset + Native, I: Index>(
    array: &Array,
    bytes_per_value: usize,
    indices: &Indices<I>,
) -> Result<usize, Error> {
    let most = array.data.len() / bytes_per_value;
    let src_offsets = checked_offsets::<O>(array.offsets, array.rows, most)?;
    let nulls = take_nulls(array.nulls.as_ref(), indices);

    let mut child_len = O::default();

    match nulls.as_ref().filter(|n| n.null_count > 0) {
        None => {
            for &idx in indices.values {
                let row = idx.as_usize();
                child_len = child_len
                    .checked_add(src_offsets[row + 1].minus(src_offsets[row]))
                    .ok_or_else(|| Error::OffsetOverflow(child_len.as_usize()))?;
            }
        }
        Some(valid) => {
            for vidx in valid.valid_indices() {
                // SAFETY: vidx < indices.len(), guaranteed by valid_indices().
                let row = unsafe { indices.value_unchecked(vidx) }.as_usize();
                child_len = child_len
                    .checked_add(src_offsets[row + 1].minus(src_offsets[row]))
                    .ok_or_else(|| Error::OffsetOverflow(child_len.as_usize()))?;
            }
        }
    }

    Ok(child_len.as_usize() * bytes_per_value)
}

/// `take` implementation for `FixedSizeListArray` of a primitive child without nulls
fn take_fixed_size_list<'a, I: Index>(
    array: &'a Array,
    indices: &Indices<'a, I>,
    length: usize,
    element_size: usize,
) -> Taken<'a> {
    let nulls = take_nulls(array.nulls.as_ref(), indices);
    let data = take_fixed_size_list_primitive(array.data, indices, length, element_size);
    Taken { nulls, offsets: Buffer::None, data: Buffer::U8(data) }
}

#[inline(never)]
fn take_fixed_size_list_primitive<I: Index>(
    src: &[u8],
    indices: &Indices<I>,
    list_size: usize,
    element_size: usize,
) -> Vec<u8> {
    let row_bytes = list_size * element_size;
    let mut out = vec![0; indices.len() * row_bytes];
    let out_slice = out.as_mut_slice();

    if indices.null_count() == 0 {
        for (out_row, index) in indices.values.iter().enumerate() {
            let src_start = index.as_usize() * row_bytes;
            out_slice[out_row * row_bytes..(out_row + 1) * row_bytes]
                .copy_from_slice(&src[src_start..src_start + row_bytes]);
        }
    } else {
        for (out_row, index) in indices.values.iter().enumerate() {
            if indices.is_valid(out_row) {
                let src_start = index.as_usize() * row_bytes;
                out_slice[out_row * row_bytes..(out_row + 1) * row_bytes]
                    .copy_from_slice(&src[src_start..src_start + row_bytes]);
            }
        }
    }
    out
}

/// The take kernel implementation for `FixedSizeBinaryArray`.
fn take_fixed_size_binary<'a, I: Index>(
    array: &'a Array,
    indices: &Indices<'a, I>,
    size: usize,
) -> Taken<'a> {
    let values = &array.data[..array.rows * size];
    let data = match size {
        1 => take_fixed_size::<I, 1>(values, indices),
        2 => take_fixed_size::<I, 2>(values, indices),
        4 => take_fixed_size::<I, 4>(values, indices),
        8 => take_fixed_size::<I, 8>(values, indices),
        16 => take_fixed_size::<I, 16>(values, indices),
        _ => take_fixed_size_binary_buffer_dynamic_length(values, indices, size),
    };

    let value_nulls = take_nulls(array.nulls.as_ref(), indices);
    let nulls = Nulls::union(value_nulls, indices.shared_nulls());
    Taken { nulls, offsets: Buffer::None, data: Buffer::U8(data) }
}

/// Implementation of the take kernel for fixed size binary arrays.
#[inline(never)]
fn take_fixed_size_binary_buffer_dynamic_length<I: Index>(
    values_buffer: &[u8],
    indices: &Indices<I>,
    size: usize,
) -> Vec<u8> {
    let mut output = Vec::with_capacity(indices.len() * size);

    if indices.null_count() == 0 {
        let array_iter = indices.values.iter().map(|idx| {
            let offset = idx.as_usize() * size;
            &values_buffer[offset..offset + size]
        });
        for slice in array_iter {
            output.extend_from_slice(slice);
        }
    } else {
        // The indices nullability cannot be ignored here because the values buffer may contain
        // nulls which should not cause a panic.
        let array_iter = indices.iter().map(|idx| {
            idx.map(|idx| {
                let offset = idx.as_usize() * size;
                &values_buffer[offset..offset + size]
            })
        });
        for slice in array_iter {
            match slice {
                None => output.resize(output.len() + size, 0),
                Some(slice) => output.extend_from_slice(slice),
            }
        }
    }

    output
}

/// Implements the take kernel semantics over a flat buffer, interpreting it as a slice of
/// `&[[u8; N]]`, where `N` is a compile-time constant.
fn take_fixed_size<I: Index, const N: usize>(buffer: &[u8], indices: &Indices<I>) -> Vec<u8> {
    assert_eq!(buffer.len() % N, 0, "Invalid array length in take_fixed_size");

    // SAFETY: interpret an already valid slice as a slice of N-byte chunks. N divides buffer
    // length without remainder.
    let buffer: &[[u8; N]] =
        unsafe { std::slice::from_raw_parts(buffer.as_ptr().cast(), buffer.len() / N) };

    let result_buffer = match indices.some_nulls() {
        Some(n) => indices
            .values
            .iter()
            .enumerate()
            .map(|(idx, index)| match buffer.get(index.as_usize()) {
                Some(v) => *v,
                // SAFETY: idx<indices.len()
                None => match unsafe { n.is_valid_unchecked(idx) } {
                    false => [0u8; N],
                    true => panic!("Out-of-bounds index"),
                },
            })
            .collect::<Vec<_>>(),
        None => indices.values.iter().map(|index| buffer[index.as_usize()]).collect::<Vec<_>>(),
    };

    result_buffer.into_flattened()
}
