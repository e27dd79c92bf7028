//! Each limit of the paper, met and passed by one.

use crate::case::{Bytes, Case, IndexColumn, Lent, Table};
use crate::check::check;
use crate::generate::{encode, lay_out_indices};
use crate::random::Random;

const MOST_ROWS: u64 = 1_048_576;
const MOST_BYTES: u64 = 16_777_216;

/// Brings one number or buffer of a call to its limit, or past it by `over`.
type Stretch = fn(&mut Random, &mut Case, over: u64);

/// A column of no rows and no indices, with outputs for a million rows of some bytes.
fn empty(random: &mut Random, kind: u64) -> Case {
    Case {
        table: Table {
            kind,
            width: 1,
            size: 1,
            offset_width: 4,
            offsets: Bytes(vec![0; 4]),
            ..Table::default()
        },
        indices: IndexColumn { width: 1, ..IndexColumn::default() },
        lent: Lent {
            validity: random.bytes(MOST_ROWS as usize / 8),
            offsets: random.bytes(4 * MOST_ROWS as usize + 4),
            data: random.bytes(4 * MOST_ROWS as usize),
        },
        answer: random.bytes(40),
    }
}

fn zeros(length: u64) -> Bytes {
    Bytes(vec![0; length as usize])
}

/// So many random rows, half of them null: a byte or a bit each, or up to three bytes where rows have
/// lengths of their own.
fn fill(random: &mut Random, table: &mut Table, rows: u64) {
    let mut end = 0;
    let mut offsets = vec![0];
    for _ in 0..rows {
        end += random.below(4);
        offsets.push(end);
    }
    table.rows = rows;
    table.offsets = encode(&offsets, 4);
    table.data = random.bytes(end.max(rows) as usize);
    table.data_bit = random.below(8);
    table.validity = random.bytes(rows as usize / 8 + 2);
    table.validity_bit = random.below(8);
}

/// Indices below `rows` at random, a quarter of them null.
fn any_indices(random: &mut Random, count: u64, rows: u64) -> Vec<(bool, u64)> {
    let index = |_| (!random.once_in(4), random.below(rows));
    (0..count).map(index).collect()
}

/// Gathered at the limit, refused 2 past it.
fn meets_limit(kinds: &[u64], stretch: Stretch) {
    for kind in kinds {
        for (over, number) in [(0, 0), (1, 2)] {
            let mut random = Random::new(12 << 32 | kind << 1 | over);
            let mut case = empty(&mut random, *kind);
            stretch(&mut random, &mut case, over);
            assert_eq!(check(random.seed, &case).returned, number, "kind {kind}");
        }
    }
}

const ALL: [u64; 6] = [1, 2, 3, 4, 5, 6];

#[test]
fn rows() {
    // Buffers for as many rows as are said, also past the limit, so that nothing else is refused.
    meets_limit(&ALL, |random, case, over| {
        fill(random, &mut case.table, MOST_ROWS + over);
        let mut indices = any_indices(random, 1000, MOST_ROWS);
        indices.push((true, MOST_ROWS - 1));
        case.indices = lay_out_indices(random, 4, &indices);
    });
}

#[test]
fn indices() {
    meets_limit(&ALL, |random, case, over| {
        fill(random, &mut case.table, 200);
        let indices = any_indices(random, MOST_ROWS + over, 200);
        case.indices = lay_out_indices(random, 1, &indices);
    });
}

#[test]
fn sizes() {
    meets_limit(&[5, 6], |random, case, over| {
        case.table.size = 65_536 + over;
        case.table.rows = 2;
        case.table.data = random.bytes(2 * case.table.size as usize);
        case.indices = lay_out_indices(random, 1, &[(true, 1), (false, 1), (true, 0)]);
    });
}

#[test]
fn bit_offsets() {
    meets_limit(&[2], |_, case, over| {
        case.table.data = zeros(1);
        case.table.data_bit = 7 + over;
    });
    meets_limit(&ALL, |_, case, over| {
        case.table.validity = zeros(1);
        case.table.validity_bit = 7 + over;
    });
    meets_limit(&ALL, |_, case, over| {
        case.indices.validity = zeros(1);
        case.indices.validity_bit = 7 + over;
    });
}

#[test]
fn buffers() {
    meets_limit(&ALL, |_, case, over| {
        case.table.data = zeros(MOST_BYTES + over);
    });
    meets_limit(&[3, 4], |_, case, over| {
        case.table.offsets = zeros(MOST_BYTES + over);
    });
    meets_limit(&ALL, |_, case, over| {
        case.table.validity = zeros(MOST_BYTES + over);
    });
    meets_limit(&ALL, |_, case, over| {
        case.indices.data = zeros(MOST_BYTES + over);
    });
    meets_limit(&ALL, |_, case, over| {
        case.indices.validity = zeros(MOST_BYTES + over);
    });
}

/// A million rows of 16 bytes: rows, data, indices and outputs at their limits at once.
#[test]
fn all_at_once() {
    let mut random = Random::new(13 << 32);
    let mut case = empty(&mut random, 1);
    case.table.width = 16;
    case.table.rows = MOST_ROWS;
    case.table.data = random.bytes(MOST_BYTES as usize);
    case.lent.data = random.bytes(MOST_BYTES as usize);
    let indices = any_indices(&mut random, MOST_ROWS, MOST_ROWS);
    case.indices = lay_out_indices(&mut random, 8, &indices);
    assert_eq!(check(random.seed, &case).returned, 0);
}

/// Rows of some megabytes, which are copied.
#[test]
fn long_rows() {
    for kind in [3, 4, 5] {
        let mut random = Random::new(14 << 32 | kind);
        let mut case = empty(&mut random, kind);
        let table = &mut case.table;
        (table.width, table.size, table.rows) = (32, 65_536, 3);
        table.data = random.bytes(3 * 32 * 65_536);
        let entries = [0, 1, 131_073, 196_608].map(|at| at * if kind == 3 { 32 } else { 1 });
        table.offsets = encode(&entries, 4);
        case.lent.data = random.bytes(MOST_BYTES as usize);
        let indices = [(true, 2), (true, 1), (false, 1), (true, 0)];
        case.indices = lay_out_indices(&mut random, 1, &indices);
        assert_eq!(check(random.seed, &case).returned, 0, "kind {kind}");
    }
}

#[test]
fn what_a_kind_does_not_use_has_no_limit() {
    for kind in [1, 2, 5, 6] {
        let mut random = Random::new(15 << 32 | kind);
        let mut case = empty(&mut random, kind);
        case.table.offsets = zeros(MOST_BYTES + 1);
        case.table.validity_bit = u64::MAX;
        case.indices.validity_bit = u64::MAX;
        assert_eq!(check(random.seed, &case).returned, 0, "kind {kind}");
    }
}
