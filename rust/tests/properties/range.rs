//! The range test where it can go wrong: at row counts about the first that an index width cannot
//! hold, and at the ends of the blocks in which numbers are compared at once.

use std::ops::Range;

use crate::case::{Case, IndexColumn, Lent, Seen, Table};
use crate::check::{check, randoms, Tally, GATHERED};
use crate::generate::{self, encode, fill, lay_out_bits, lay_out_indices};
use crate::loops::arrays::Arrays;
use crate::model;
use crate::random::Random;
use crate::reference::{self, Error};

/// How many numbers are compared at once.
const BLOCK: u64 = 512;
const KINDS: [u64; 6] = [1, 2, 3, 4, 5, 6];
pub const WIDTHS: [u64; 4] = [1, 2, 4, 8];
/// About 256 and 256 squared.
pub const ROWS: [u64; 6] = [255, 256, 257, 65_535, 65_536, 65_537];

/// An index before it is laid out: valid or null, and a number.
type Index = (bool, u64);

/// The largest number of an index of so many bytes.
fn largest(width: u64) -> u64 {
    u64::MAX >> (64 - 8 * width)
}

/// A row that an index of so many bytes can name: one of the last that it can, or any.
fn inside(random: &mut Random, width: u64, rows: u64) -> u64 {
    let named = rows.min(largest(width).saturating_add(1));
    let last = random.pick(&[named.min(4), named]);
    named - 1 - random.below(last)
}

/// A number of no row, of which the width has some.
fn outside(random: &mut Random, width: u64, rows: u64) -> u64 {
    let any = random.number() & largest(width);
    random.pick(&[rows, largest(width), any.max(rows)])
}

/// The numbers that are tried at a row count: its last row, itself and the largest of the width,
/// where the width can hold them.
pub fn numbers(width: u64, rows: u64) -> impl Iterator<Item = u64> {
    [rows - 1, rows, largest(width)].into_iter().filter(move |number| *number <= largest(width))
}

/// Valid indices that name rows, and the number among them at the place.
pub fn one_among(random: &mut Random, width: u64, rows: u64, number: u64) -> (Vec<Index>, u64) {
    let count = 1 + random.below(3 * BLOCK);
    let place = random.below(count);
    let index = |i| (true, if i == place { number } else { inside(random, width, rows) });
    ((0..count).map(index).collect(), place)
}

/// A column of small rows.
pub fn table(random: &mut Random, kind: u64, rows: u64) -> Table {
    let shape = Table { kind, width: 1, size: 2, offset_width: 4, ..Table::default() };
    fill(random, &shape, rows)
}

fn lay_out(
    random: &mut Random,
    width: u64,
    indices: &[Index],
    bit_offset: Option<u64>,
) -> IndexColumn {
    let (valid, numbers): (Vec<bool>, Vec<u64>) = indices.iter().copied().unzip();
    let validity = bit_offset.map(|bit| lay_out_bits(random, &valid, bit));
    IndexColumn {
        width,
        count: indices.len() as u64,
        validity_bit: bit_offset.unwrap_or_else(|| random.edge()),
        data: encode(&numbers, width),
        validity: validity.unwrap_or_default(),
    }
}

/// The call with as much room as it needs, and a little more.
fn call(random: &mut Random, table: Table, indices: IndexColumn) -> Case {
    let mut case = Case { table, indices, lent: Lent::default(), answer: random.bytes(40) };
    lend(random, &mut case);
    case
}

fn lend(random: &mut Random, case: &mut Case) {
    let needed = model::needed(&case.table, &case.indices).unwrap_or([64; 3]);
    let [validity, offsets, data] = needed.map(|length| random.bytes(length as usize + 9));
    case.lent = Lent { validity, offsets, data };
}

/// The archive and the model are of one mind, and refuse 5 where `check_bounds` does.
#[track_caller]
fn agreed(seed: u64, case: &Case) -> Seen {
    let seen = check(seed, case);
    let rows = case.table.rows as usize;
    let arrays = Arrays::new(case);
    let checked = reference::check(rows, &arrays.indices(case.indices.count));
    let fit = match checked {
        Ok(()) => seen.returned != 5,
        Err(error) => seen.returned == 5 && matches!(error, Error::OutOfBounds),
    };
    assert!(fit, "seed {seed:#x}\n{case:#?}\nseen {seen:#?}");
    seen
}

/// Refused at the place, with every output byte kept.
#[track_caller]
fn refuses(seed: u64, case: &Case, place: u64) {
    let seen = agreed(seed, case);
    assert_eq!(seen.numbers(), Some([5, place, 0, 0]), "seed {seed:#x}");
    assert!(seen.lent == case.lent, "seed {seed:#x}");
}

/// Gathered as the model has it.
#[track_caller]
fn gathers(seed: u64, case: &Case) -> Seen {
    let seen = agreed(seed, case);
    assert_eq!(seen.returned, 0, "seed {seed:#x}");
    seen
}

#[test]
fn a_number_is_outside_from_the_row_count_on() {
    let (mut gathered, mut refused) = (0, 0);
    for kind in KINDS {
        for rows in ROWS {
            let mut random = Random::new(51 << 32 | kind << 24 | rows);
            let table = table(&mut random, kind, rows);
            let mut case = call(&mut random, table, IndexColumn::default());
            for width in WIDTHS {
                for number in numbers(width, rows) {
                    let (indices, place) = one_among(&mut random, width, rows, number);
                    case.indices = lay_out_indices(&mut random, width, &indices);
                    lend(&mut random, &mut case);
                    if number >= rows {
                        refuses(random.seed, &case, place);
                        refused += 1;
                    } else {
                        gathers(random.seed, &case);
                        gathered += 1;
                    }
                }
            }
        }
    }
    println!("row counts about 256 and 65,536: {gathered} gathered, {refused} refused");
}

#[test]
fn of_no_rows_every_valid_index_is_outside() {
    for kind in KINDS {
        for width in WIDTHS {
            let mut random = Random::new(52 << 32 | kind << 8 | width);
            let empty = table(&mut random, kind, 0);
            let none = lay_out_indices(&mut random, width, &[]);
            let seen = gathers(random.seed, &call(&mut random, empty.clone(), none));
            assert_eq!(seen.numbers(), Some([0, 0, 0, 0]));
            for number in [0, 1, largest(width)] {
                let valid = lay_out_indices(&mut random, width, &[(true, number)]);
                refuses(random.seed, &call(&mut random, empty.clone(), valid), 0);
                let null = lay_out_indices(&mut random, width, &[(false, number)]);
                let seen = gathers(random.seed, &call(&mut random, empty.clone(), null));
                assert_eq!(seen.numbers().map(|[_, _, _, nulls]| nulls), Some(1));
            }
        }
    }
}

/// Which slots before the first valid index outside are null, over numbers that are outside too.
#[derive(Clone, Copy, Debug)]
enum NullsBefore {
    None,
    OneInItsBlock,
    OneInAnEarlierBlock,
    All,
}

impl NullsBefore {
    /// The null slots, if there can be such before the place.
    fn slots(self, random: &mut Random, place: u64) -> Option<Range<u64>> {
        let block = place - place % BLOCK;
        let slots = match self {
            NullsBefore::None => return Some(0..0),
            NullsBefore::OneInItsBlock => block..place,
            NullsBefore::OneInAnEarlierBlock => 0..block,
            NullsBefore::All => return (place > 0).then_some(0..place),
        };
        let one = (!slots.is_empty()).then(|| slots.start + random.below(slots.end - slots.start));
        one.map(|slot| slot..slot + 1)
    }
}

/// The first valid index outside at the place, and others after it: valid ones outside too, and, if
/// the column has a validity, nulls.
fn first_outside(
    random: &mut Random,
    width: u64,
    rows: u64,
    (place, count): (u64, u64),
    nulls: &Range<u64>,
    nullable: bool,
) -> Vec<Index> {
    let mut index = |i| {
        let after = if i > place { random.below(8) } else { 8 };
        let valid = !nulls.contains(&i) && !(nullable && after == 0);
        let stray = nulls.contains(&i) || i == place || after < 3;
        (valid, if stray { outside(random, width, rows) } else { inside(random, width, rows) })
    };
    (0..count).map(&mut index).collect()
}

/// Both sides of each end of a block, and the last of all.
fn places(count: u64) -> Vec<u64> {
    let last_block = (count - 1) / BLOCK * BLOCK;
    let mut places =
        vec![0, 1, 255, 256, 510, 511, 512, 513, 1023, 1024, 1025, last_block, count - 1];
    places.retain(|place| *place < count);
    places.sort();
    places.dedup();
    places
}

#[test]
fn the_first_valid_index_outside_is_the_place() {
    let mut cases = 0;
    let mut random = Random::new(53 << 32);
    let mut tables = Vec::new();
    for kind in KINDS {
        // Of 255 rows an index of one byte can be outside by one number alone.
        tables.extend([1, 40, 200, 255].map(|rows| table(&mut random, kind, rows)));
    }
    let befores = [
        NullsBefore::None,
        NullsBefore::OneInItsBlock,
        NullsBefore::OneInAnEarlierBlock,
        NullsBefore::All,
    ];
    for count in [1, 40, 255, 256, 257, 511, 512, 513, 1023, 1024, 1025, 1500] {
        for place in places(count) {
            for (width, before) in WIDTHS.iter().flat_map(|w| befores.map(|before| (*w, before))) {
                let Some(nulls) = before.slots(&mut random, place) else {
                    continue;
                };
                // Without a validity too, where there need not be one.
                let absent = nulls.is_empty().then_some(None);
                for bit_offset in (0..8).map(Some).chain(absent) {
                    let table = &tables[random.below(tables.len() as u64) as usize];
                    let at = (place, count);
                    let nullable = bit_offset.is_some();
                    let indices =
                        first_outside(&mut random, width, table.rows, at, &nulls, nullable);
                    let indices = lay_out(&mut random, width, &indices, bit_offset);
                    let case = call(&mut random, table.clone(), indices);
                    refuses(random.seed, &case, place);
                    cases += 1;
                }
            }
        }
    }
    println!("a first valid index outside: {cases} cases");
}

#[test]
fn numbers_outside_under_nulls_alone_are_gathered() {
    let mut random = Random::new(54 << 32);
    for kind in KINDS {
        for rows in [0, 1, 40, 255] {
            let table = table(&mut random, kind, rows);
            for width in WIDTHS {
                for count in [1, 40, 255, 256, 511, 512, 513, 1024, 1500] {
                    let null = |_| (false, outside(&mut random, width, rows));
                    let indices: Vec<Index> = (0..count).map(null).collect();
                    let bit_offset = random.below(8);
                    let indices = lay_out(&mut random, width, &indices, Some(bit_offset));
                    let case = call(&mut random, table.clone(), indices);
                    let seen = gathers(random.seed, &case);
                    assert_eq!(seen.numbers().map(|[_, _, _, nulls]| nulls), Some(count));
                    let validity = &seen.lent.validity[..count.div_ceil(8) as usize];
                    assert!(validity.iter().all(|byte| *byte == 0));
                }
            }
        }
    }
}

/// Indices at the last rows, among them in half of the columns now and then a valid one outside, if
/// the width has such; and anything under nulls.
fn near_the_rows(random: &mut Random, width: u64, rows: u64) -> IndexColumn {
    let count = random.below(3 * BLOCK);
    let one_in = random.pick(&[2, 20, 400]);
    let nullable = random.once_in(2);
    let strays = random.once_in(2) && rows <= largest(width);
    let index = |_| {
        let valid = !(nullable && random.once_in(one_in));
        let number = match valid {
            false if random.once_in(2) => random.number() & largest(width),
            false => (rows - 4 + random.below(8)) & largest(width),
            true if strays && random.once_in(400) => outside(random, width, rows),
            true => inside(random, width, rows),
        };
        (valid, number)
    };
    let indices: Vec<Index> = (0..count).map(index).collect();
    lay_out_indices(random, width, &indices)
}

#[test]
fn rows_near_256() {
    let mut tally = Tally::default();
    for mut random in randoms(55, 30_000) {
        let (kind, rows) = (random.pick(&KINDS), 253 + random.below(7));
        let table = table(&mut random, kind, rows);
        let width = random.pick(&[1, 1, 1, 2, 4, 8]);
        let indices = near_the_rows(&mut random, width, rows);
        let mut case = call(&mut random, table, indices);
        let needed = model::needed(&case.table, &case.indices);
        case.lent = generate::lent(&mut random, needed);
        tally.add(&case, &agreed(random.seed, &case));
    }
    tally.expect("rows near 256", 1000, &[&GATHERED[..], &["5"]].concat());
}

#[test]
fn rows_near_65536() {
    let mut tally = Tally::default();
    for mut random in randoms(56, 42) {
        let (kind, rows) = (1 + (random.seed % 6), 65_533 + random.seed % 7);
        let table = table(&mut random, kind, rows);
        let mut case = call(&mut random, table, IndexColumn::default());
        for _ in 0..40 {
            let width = random.pick(&[2, 2, 2, 1, 4, 8]);
            case.indices = near_the_rows(&mut random, width, rows);
            let needed = model::needed(&case.table, &case.indices);
            case.lent = generate::lent(&mut random, needed);
            tally.add(&case, &agreed(random.seed, &case));
        }
    }
    tally.expect("rows near 65,536", 100, &[&GATHERED[..], &["5"]].concat());
}
