//! Running totals about 2,147,483,647, of rows that no test could copy.

use crate::case::{Bytes, Case, IndexColumn, Lent, Seen, Table};
use crate::check::{agree, check, randoms, Tally};
use crate::generate::{encode, lay_out_indices};
use crate::random::Random;

const MOST_BYTES: u64 = 16_777_216;
const MOST_OFFSET: u64 = 2_147_483_647;

/// A long row, one that with many of it comes to the edge or misses it by one, a short and an empty
/// one; the edge in entries.
fn lengths(random: &mut Random, width: u64) -> [u64; 4] {
    let held = MOST_BYTES / width;
    let long = held / 4 + random.below(held / 4);
    let rest = (MOST_OFFSET % long + random.below(3)).saturating_sub(1);
    [long, rest, random.below(4), 0]
}

/// A call whose total comes near the edge. The data stays zeros: every such call is refused.
pub fn case(random: &mut Random) -> Case {
    let kind = random.pick(&[3, 4]);
    let width = random.pick(&[1, 2, 4]);
    let entry = if kind == 3 { 1 } else { width };
    let lengths = lengths(random, entry);
    let mut offsets = vec![0];
    for length in lengths {
        offsets.push(offsets[offsets.len() - 1] + length);
    }
    let offset_width = random.pick(&[4, 4, 4, 8]);
    let table = Table {
        kind,
        width,
        offset_width,
        rows: 4,
        data: Bytes(vec![0; (offsets[4] * entry) as usize]),
        offsets: encode(&offsets, offset_width),
        validity: null_row(random),
        ..Table::default()
    };
    let indices = indices(random, MOST_OFFSET / lengths[0]);
    let lent = lent(random, indices.len() as u64, offset_width);
    let index_width = random.pick(&[1, 2, 4, 8]);
    Case {
        indices: lay_out_indices(random, index_width, &indices),
        table,
        lent,
        answer: random.bytes(32),
    }
}

/// Mostly none; or the second row, which leads to the edge, is null.
pub fn null_row(random: &mut Random) -> Bytes {
    Bytes(if random.once_in(6) { vec![0b1101] } else { vec![] })
}

/// As many of the long row as go below the edge, and the row that leads to it, at its place or
/// anywhere; now and then a null, an index that names no row, or another row.
pub fn indices(random: &mut Random, below: u64) -> Vec<(bool, u64)> {
    let mut indices: Vec<(bool, u64)> = vec![(true, 0); below as usize];
    for _ in 0..random.below(4) {
        let place = random.below(below + 1) as usize;
        let extra = random.pick(&[(false, 0), (false, 9), (true, 2), (true, 3)]);
        indices.insert(place, extra);
    }
    let place = random.pick(&[indices.len() as u64, below / 2, 0]);
    indices.insert(place as usize, (true, 1));
    if random.once_in(8) {
        let place = random.below(indices.len() as u64);
        indices[place as usize] = random.pick(&[(true, 4), (true, 0), (true, 1)]);
    }
    indices
}

fn lent(random: &mut Random, count: u64, offset_width: u64) -> Lent {
    let short = random.pick(&[(0, 0), (0, 0), (0, 0), (1, 0), (0, 1)]);
    Lent {
        validity: random.bytes((count.div_ceil(8) - short.0) as usize),
        offsets: random.bytes(((count + 1) * offset_width - short.1) as usize),
        data: random.bytes(100),
    }
}

#[test]
fn totals_that_four_bytes_cannot_hold() {
    let mut tally = Tally::default();
    for mut random in randoms(6, 12_000) {
        let case = case(&mut random);
        tally.add(&case, &check(random.seed, &case));
    }
    let answers = ["5", "6 kind 3", "6 kind 4", "7 place 1", "7 place 2", "7 place 3"];
    tally.expect("overflow", 300, &answers);
}

/// The paper's trial 10, which is too long for a line among the published cases.
#[test]
fn trial_10_overflow_before_space() {
    for (kind, told) in [(3, 2_147_483_648), (4, 2_147_418_112)] {
        for (count, numbers) in [(32_768, [6, 32_767, told, 0]), (32_767, [7, 3, 2_147_418_112, 0])]
        {
            let case = long_row(kind, count);
            let expected = Seen::new(&case.answer, numbers, case.lent.clone());
            agree(0, &case, &check(0, &case), &expected);
        }
    }
}

/// One row of 65,536 bytes, by so many times index 0; only the data output is too short.
pub fn long_row(kind: u64, count: usize) -> Case {
    Case {
        table: Table {
            kind,
            width: 1,
            offset_width: 4,
            rows: 1,
            offsets: encode(&[0, 65_536], 4),
            data: Bytes(vec![7; 65_536]),
            ..Table::default()
        },
        indices: IndexColumn {
            width: 1,
            count: count as u64,
            data: Bytes(vec![0; count]),
            ..IndexColumn::default()
        },
        lent: Lent {
            validity: Bytes(vec![0xEE; 4096]),
            offsets: Bytes(vec![0xEE; 4 * 32_769]),
            data: Bytes::default(),
        },
        answer: Bytes(vec![0xEE; 40]),
    }
}
