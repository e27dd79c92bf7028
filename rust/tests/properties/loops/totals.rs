//! Running totals about 2,147,483,647, which the loops of `take_bytes` and `take_list` find before
//! they copy, or beside it: nothing is copied here.

use std::collections::BTreeMap;

use super::arrays::Arrays;
use crate::archive;
use crate::case::{Bytes, Case, Lent, Seen, Table};
use crate::check::{agree, randoms};
use crate::generate::{encode, lay_out_indices, lay_out_validity};
use crate::overflow::long_row;
use crate::random::Random;
use crate::reference::{self, Error};

const MOST_BYTES: u64 = 16_777_216;
const MOST_OFFSET: u64 = 2_147_483_647;

/// A row before it is laid out, and its length in entries.
struct Row {
    valid: bool,
    entries: u64,
}

/// An index before it is laid out: valid or null, and a number.
type Index = (bool, u64);

/// Rows and indices whose total is about the edge.
struct Gather {
    rows: Vec<Row>,
    indices: Vec<Index>,
}

impl Gather {
    /// The row of a valid output row.
    fn row(&self, (valid, number): Index) -> Option<&Row> {
        self.rows.get(number as usize).filter(|row| valid && row.valid)
    }

    fn entries(&self, index: Index) -> u64 {
        self.row(index).map_or(0, |row| row.entries)
    }

    fn total(&self) -> u64 {
        self.indices.iter().map(|index| self.entries(*index)).sum()
    }

    fn has_nulls(&self) -> bool {
        self.indices.iter().any(|index| self.row(*index).is_none())
    }
}

/// Six rows: the first is long, the others are of any length up to it, empty, or null.
fn rows(random: &mut Random, nullable: bool, held: u64) -> Vec<Row> {
    let scale = 8192 << random.below(8);
    let long = (scale + random.below(scale)).min(held / 8);
    let mut rows = vec![Row { valid: true, entries: long }];
    for _ in 0..5 {
        let end = random.pick(&[1, 20, 3000, long]);
        let valid = !(nullable && random.once_in(3));
        rows.push(Row { valid, entries: random.below(end) });
    }
    rows
}

/// Mostly the long row; the other rows, and nulls over any number, among them.
fn index(random: &mut Random, nullable: bool) -> Index {
    match random.below(16) {
        0 if nullable => (false, random.below(20)),
        0 | 1 => (true, random.below(6)),
        _ => (true, 0),
    }
}

/// Indices whose total comes as near to the edge as the long row allows; then a seventh row that
/// comes to the edge or misses it by one, and a few more indices.
fn about_the_edge(random: &mut Random, held: u64) -> Gather {
    let nullable = random.once_in(2);
    let mut gather = Gather { rows: rows(random, nullable, held), indices: Vec::new() };
    let mut total = 0;
    while total + gather.rows[0].entries <= MOST_OFFSET {
        let index = index(random, nullable);
        total += gather.entries(index);
        gather.indices.push(index);
    }
    let entries = (MOST_OFFSET - total + random.below(3)).saturating_sub(1);
    gather.rows.push(Row { valid: true, entries });
    let end = gather.indices.len();
    let anywhere = random.below(end as u64 + 1) as usize;
    gather.indices.insert(random.pick(&[end, anywhere]), (true, 6));
    let more = random.pick(&[0, 0, 0, 1, 5]);
    gather.indices.extend((0..more).map(|_| index(random, nullable)));
    gather
}

/// The call, of kind 3 or 4 and of any widths. The data stays zeros, for every such call is refused.
fn case(random: &mut Random) -> (Case, Gather) {
    let kind = random.pick(&[3, 4]);
    let width = random.pick(&[1, 2, 4, 8, 16, 32]);
    let entry = if kind == 3 { 1 } else { width };
    let gather = about_the_edge(random, MOST_BYTES / entry);
    let Gather { rows, indices } = &gather;
    let mut offsets = vec![random.below(4)];
    for row in rows {
        offsets.push(offsets[offsets.len() - 1] + row.entries);
    }
    let offset_width = random.pick(&[4, 4, 8]);
    let valid: Vec<bool> = rows.iter().map(|row| row.valid).collect();
    let (validity, validity_bit) = lay_out_validity(random, &valid);
    let table = Table {
        kind,
        width,
        offset_width,
        rows: rows.len() as u64,
        data: Bytes(vec![0; (offsets[rows.len()] * entry) as usize]),
        offsets: encode(&offsets, offset_width),
        validity,
        validity_bit,
        ..Table::default()
    };
    let lent = Lent {
        validity: Bytes(vec![0xEE; indices.len().div_ceil(8)]),
        offsets: Bytes(vec![0xEE; (indices.len() + 1) * offset_width as usize]),
        data: random.slack(),
    };
    let index_width = random.pick(&[1, 2, 4, 8]);
    let indices = lay_out_indices(random, index_width, indices);
    (Case { table, indices, lent, answer: random.bytes(40) }, gather)
}

/// The archive's refusal is that of the loops: 6 with what their error tells, at the first index
/// that they do not take; else 7, of the data, with their total.
fn refuses(seed: u64, case: &Case) -> Seen {
    let seen = archive::gather(case);
    let arrays = Arrays::new(case);
    let array = arrays.array();
    let size = |count| reference::size(&array, &arrays.indices(count));
    let numbers = match size(case.indices.count) {
        Ok(total) => [7, 3, total as u64, 0],
        Err(Error::OffsetOverflow(told)) => {
            let place = seen.place().expect("a whole answer");
            assert!(size(place).is_ok(), "seed {seed:#x}");
            let next = size(place + 1);
            assert!(
                matches!(next, Err(Error::OffsetOverflow(next)) if next == told),
                "seed {seed:#x}"
            );
            [6, place, told as u64, 0]
        }
        Err(error) => panic!("seed {seed:#x}: {error}\n{case:#?}"),
    };
    agree(seed, case, &seen, &Seen::new(&case.answer, numbers, case.lent.clone()));
    seen
}

#[test]
fn overflows_where_the_loops_overflow() {
    let mut met = BTreeMap::<_, u64>::new();
    for mut random in randoms(17, 400) {
        let (case, gather) = case(&mut random);
        let seen = refuses(random.seed, &case);
        let Table { kind, offset_width, .. } = case.table;
        let fits = offset_width == 8 || gather.total() <= MOST_OFFSET;
        assert_eq!(seen.returned, if fits { 7 } else { 6 }, "seed {:#x}", random.seed);
        let beyond = (gather.total() as i64 - MOST_OFFSET as i64).min(2);
        *met.entry((kind, offset_width, gather.has_nulls(), beyond)).or_default() += 1;
    }
    println!("(kind, offset width, nulls, total beyond the edge): {met:?}");
    for kind in [3, 4] {
        for offset_width in [4, 8] {
            for nulls in [false, true] {
                for beyond in [-1, 0, 1, 2] {
                    let case = (kind, offset_width, nulls, beyond);
                    assert!(met.contains_key(&case), "{case:?} was not met");
                }
            }
        }
    }
}

#[test]
fn trial_10_as_the_loops_have_it() {
    for kind in [3, 4] {
        assert_eq!(refuses(0, &long_row(kind, 32_768)).returned, 6);
        assert_eq!(refuses(0, &long_row(kind, 32_767)).returned, 7);
    }
}
