//! Columns that are damaged in one place or in two: what is refused, with which number, and in
//! which order.

use crate::case::{Bytes, Case, IndexColumn, Lent, Table};
use crate::check::{check, randoms, Tally, GATHERED, SPACE};
use crate::generate::{self, encode};
use crate::random::Random;

const TABLE: [fn(&mut Random, &mut Table); 11] = [
    |random, table| wreck_number(random, &mut table.kind),
    |random, table| wreck_number(random, &mut table.width),
    |random, table| wreck_number(random, &mut table.size),
    |random, table| wreck_number(random, &mut table.offset_width),
    |random, table| wreck_number(random, &mut table.rows),
    |random, table| wreck_number(random, &mut table.data_bit),
    |random, table| wreck_number(random, &mut table.validity_bit),
    |random, table| wreck_length(random, &mut table.data),
    |random, table| wreck_length(random, &mut table.offsets),
    |random, table| wreck_length(random, &mut table.validity),
    wreck_offset,
];

/// The last number is that of the rows.
const INDICES: [fn(&mut Random, &mut IndexColumn, u64); 6] = [
    |random, indices, _| wreck_number(random, &mut indices.width),
    |random, indices, _| wreck_number(random, &mut indices.count),
    |random, indices, _| wreck_number(random, &mut indices.validity_bit),
    |random, indices, _| wreck_length(random, &mut indices.data),
    |random, indices, _| wreck_length(random, &mut indices.validity),
    wreck_index,
];

const OUTPUT: [fn(&mut Random, &mut Lent); 3] = [
    |random, lent| wreck_length(random, &mut lent.validity),
    |random, lent| wreck_length(random, &mut lent.offsets),
    |random, lent| wreck_length(random, &mut lent.data),
];

pub fn damage_table(random: &mut Random, table: &mut Table) {
    random.pick(&TABLE)(random, table);
}

pub fn damage_indices(random: &mut Random, indices: &mut IndexColumn, rows: u64) {
    random.pick(&INDICES)(random, indices, rows);
}

pub fn damage_output(random: &mut Random, lent: &mut Lent) {
    random.pick(&OUTPUT)(random, lent);
}

pub fn damage_any(random: &mut Random, case: &mut Case) {
    let which = random.below(DAMAGES as u64) as usize;
    damage(random, case, which);
}

const DAMAGES: usize = TABLE.len() + INDICES.len() + OUTPUT.len();

fn damage(random: &mut Random, case: &mut Case, which: usize) {
    let rows = case.table.rows;
    if let Some(damage) = TABLE.get(which) {
        damage(random, &mut case.table);
    } else if let Some(damage) = INDICES.get(which - TABLE.len()) {
        damage(random, &mut case.indices, rows);
    } else {
        OUTPUT[which - TABLE.len() - INDICES.len()](random, &mut case.lent);
    }
}

/// An edge, or one more or less than it was.
pub fn wreck_number(random: &mut Random, number: &mut u64) {
    *number = match random.below(4) {
        0 => number.wrapping_sub(1),
        1 => number.wrapping_add(1),
        _ => random.edge(),
    };
}

/// One byte short, one over, empty, or cut anywhere.
pub fn wreck_length(random: &mut Random, buffer: &mut Bytes) {
    let length = buffer.len();
    let wrecked = match random.below(6) {
        0..=2 => length.saturating_sub(1),
        3 => length + 1,
        4 => 0,
        _ => random.below(length as u64 + 1) as usize,
    };
    buffer.resize(wrecked, 0x5A);
}

/// One offset that is negative, about the end of the data, or off by a little.
fn wreck_offset(random: &mut Random, table: &mut Table) {
    let held = match table.kind {
        3 => table.data.len() as u64,
        4 => table.data.len() as u64 / table.width.max(1),
        _ => return,
    };
    let width = table.offset_width;
    let Some(offset) = any_number(random, &mut table.offsets, width, table.rows) else {
        return;
    };
    let now = offset.iter().rfold(0, |high, byte| high << 8 | u64::from(*byte));
    let away = random.pick(&[-2, -1, 0, 1, 2]);
    let wrecked = match random.below(5) {
        0 => u64::MAX.wrapping_add_signed(away),
        1 => (1 << (8 * width - 1)) + random.below(100),
        2 => held.wrapping_add_signed(away),
        3 => random.below(2 * held + 2),
        _ => now.wrapping_add_signed(away),
    };
    offset.copy_from_slice(&encode(&[wrecked], width));
}

/// One index about the row count, or far off; a null one stays null.
fn wreck_index(random: &mut Random, indices: &mut IndexColumn, rows: u64) {
    let away = random.pick(&[-1, 0, 1]);
    let wrecked = random.pick(&[rows.wrapping_add_signed(away), u64::MAX]);
    let last = indices.count.wrapping_sub(1);
    if let Some(index) = any_number(random, &mut indices.data, indices.width, last) {
        index.copy_from_slice(&encode(&[wrecked], indices.width));
    }
}

/// The bytes of one of the numbers 0 to `last`, unless an earlier damage leaves none there.
fn any_number<'a>(
    random: &mut Random,
    buffer: &'a mut Bytes,
    width: u64,
    last: u64,
) -> Option<&'a mut [u8]> {
    if !matches!(width, 1 | 2 | 4 | 8) || last > buffer.len() as u64 {
        return None;
    }
    let start = (random.below(last + 1) * width) as usize;
    buffer.get_mut(start..start + width as usize)
}

fn expect(tally: &Tally, test: &str) {
    let answers = [&GATHERED[..], &["1", "2", "3", "4", "5"], &SPACE].concat();
    tally.expect(test, 1000, &answers);
}

#[test]
fn each_field_and_buffer_in_turn() {
    let mut tally = Tally::default();
    for mut random in randoms(4, 160_000) {
        let mut case = generate::case(&mut random);
        let turn = random.seed as usize % DAMAGES;
        damage(&mut random, &mut case, turn);
        tally.add(&case, &check(random.seed, &case));
    }
    expect(&tally, "one damage");
}

#[test]
fn two_at_once() {
    let mut tally = Tally::default();
    for mut random in randoms(5, 120_000) {
        let mut case = generate::case(&mut random);
        for _ in 0..2 {
            damage_any(&mut random, &mut case);
        }
        tally.add(&case, &check(random.seed, &case));
    }
    expect(&tally, "two damages");
}
