//! Each rule about a batch by itself, on small batches: extents at the body's end and past it, the
//! number of columns and their records, row counts, the order of the columns, and joined space.

use hoglidra::raw::Record;
use hoglidra::Extent;

use super::generate::{buffers, extents, record, unlent};
use crate::case::{BatchCase, Bytes, IndexColumn, Table};
use crate::check::{check_batch, randoms};
use crate::generate::{encode, fill, lay_out_indices};
use crate::model;
use crate::random::Random;

const KINDS: [u64; 6] = [1, 2, 3, 4, 5, 6];
const MOST_ROWS: u64 = 1_048_576;
const MOST_BYTES: u64 = 16_777_216;
/// Which of [`extents`] holds the offsets.
const OFFSETS: usize = 1;
const ROWS: u64 = 9;

/// A column of the kind, with data and with nulls.
fn table(random: &mut Random, kind: u64) -> Table {
    let shape = Table { kind, width: 2, size: 3, offset_width: 4, ..Table::default() };
    loop {
        let table = fill(random, &shape, ROWS);
        if !table.data.is_empty() && !table.validity.is_empty() {
            return table;
        }
    }
}

fn by_some(random: &mut Random) -> IndexColumn {
    lay_out_indices(random, 2, &[(true, 8), (false, 700), (true, 0), (false, 3), (true, 3)])
}

/// The columns in one body without gaps, the buffer `last` of column `k` at its end.
fn lay_out(tables: &[Table], k: usize, last: usize) -> (Vec<Record>, Bytes) {
    let mut body = Bytes::default();
    let mut records: Vec<Record> = tables.iter().map(record).collect();
    let mut order: Vec<(usize, usize)> =
        (0..tables.len()).flat_map(|k| [(k, 0), (k, 1), (k, 2)]).collect();
    order.retain(|place| *place != (k, last));
    order.push((k, last));
    for (k, which) in order {
        let buffer = buffers(&tables[k])[which];
        let extent = Extent { start: body.len() as u64, len: buffer.len() as u64 };
        *extents(&mut records[k])[which] = extent;
        body.extend(buffer.iter());
    }
    (records, body)
}

/// Columns of these kinds, each with buffers of its own in the body.
fn batch(random: &mut Random, kinds: &[u64]) -> (Vec<Record>, Bytes) {
    let tables: Vec<Table> = kinds.iter().map(|kind| table(random, *kind)).collect();
    lay_out(&tables, 0, 0)
}

/// The call with as much room as it needs, and a little more.
fn call(random: &mut Random, records: &[Record], body: &Bytes) -> BatchCase {
    let indices = by_some(random);
    call_by(random, records, body, indices)
}

fn call_by(
    random: &mut Random,
    records: &[Record],
    body: &Bytes,
    indices: IndexColumn,
) -> BatchCase {
    let mut case = unlent(random, records, body.clone(), indices);
    let needed = model::batch_needed(&case).unwrap_or([64; 3]);
    let [validity, offsets, data] = needed.map(|length| random.bytes(length as usize + 9));
    (case.lent.validity, case.lent.offsets, case.lent.data) = (validity, offsets, data);
    case
}

/// Archive and model are of one mind, and that is the number. A refusal keeps every output byte.
#[track_caller]
fn answers(case: &BatchCase, number: u64) {
    let (seen, _) = check_batch(0, case);
    assert_eq!(seen.returned, number);
    assert!(number == 0 || seen.lent == case.lent);
}

/// The four numbers of a refusal.
#[track_caller]
fn refuses(case: &BatchCase, numbers: [u64; 4]) {
    let (seen, _) = check_batch(0, case);
    assert_eq!(seen.numbers(), Some(numbers));
    assert_eq!(seen.lent, case.lent);
}

/// Each buffer of a column of each kind, with the column before or after another one.
fn each_buffer(test: u64, each: impl Fn(&mut Random, &[Record], &Bytes, usize, usize)) {
    for kind in KINDS {
        for k in [0, 1] {
            for which in 0..3 {
                let mut random =
                    Random::new(test << 32 | kind << 8 | (k as u64) << 4 | which as u64);
                let mut tables = [table(&mut random, 1), table(&mut random, 1)];
                tables[k] = table(&mut random, kind);
                tables[k].offsets.push(0);
                let (records, body) = lay_out(&tables, k, which);
                each(&mut random, &records, &body, k, which);
            }
        }
    }
}

fn uses(record: &Record, which: usize) -> bool {
    which != OFFSETS || matches!(record.kind, 3 | 4)
}

#[test]
fn an_extent_may_end_at_the_body_and_not_past_it() {
    each_buffer(24, |random, records, body, k, which| {
        answers(&call(random, records, body), 0);
        let number = if uses(&records[k], which) { 3 } else { 0 };

        let mut longer = records.to_vec();
        extents(&mut longer[k])[which].len += 1;
        answers(&call(random, &longer, body), number);

        let mut later = records.to_vec();
        extents(&mut later[k])[which].start += 1;
        answers(&call(random, &later, body), number);

        let shorter = Bytes(body[..body.len() - 1].to_vec());
        answers(&call(random, records, &shorter), number);
    });
}

/// The end is the true sum: it does not come round to a place in the body.
#[test]
fn a_start_near_the_last_number_is_past_the_body() {
    each_buffer(25, |random, records, body, k, which| {
        let len = extents(&mut records[k].clone())[which].len;
        let number = if uses(&records[k], which) { 3 } else { 0 };
        for start in [0, 1, len - 1, len, len + 1].map(|before| 0u64.wrapping_sub(before)) {
            let mut far = records.to_vec();
            if start != 0 {
                extents(&mut far[k])[which].start = start;
                answers(&call(random, &far, body), number);
            }
        }
    });
}

#[test]
fn an_empty_extent_may_start_anywhere() {
    for kind in KINDS {
        let mut random = Random::new(26 << 32 | kind);
        let shape = Table { kind, width: 2, size: 3, offset_width: 4, ..Table::default() };
        let offsets = Bytes(vec![0; 4]);
        let tables = [Table { offsets, ..shape }, Table { kind: 1, width: 2, ..Table::default() }];
        let (records, body) = lay_out(&tables, 0, OFFSETS);
        for which in 0..3 {
            for start in [0, 1, 4, 5, 1 << 32, u64::MAX - 1, u64::MAX] {
                let mut moved = records.clone();
                *extents(&mut moved[0])[which] = Extent { start, len: 0 };
                let nulls = lay_out_indices(&mut random, 2, &[(false, 0), (false, 9)]);
                let case = call_by(&mut random, &moved, &body, nulls);
                // Offsets are needed also of no rows.
                let needed = which == OFFSETS && matches!(kind, 3 | 4);
                answers(&case, if needed { 3 } else { 0 });
            }
        }
    }
}

/// What a stated length is held against does not depend on what the body has.
#[test]
fn a_stated_length_beyond_the_limit_is_refused_as_such() {
    each_buffer(27, |random, records, body, k, which| {
        for (len, number) in [(MOST_BYTES, 3), (MOST_BYTES + 1, 2), (u64::MAX, 2)] {
            let mut long = records.to_vec();
            extents(&mut long[k])[which].len = len;
            answers(&call(random, &long, body), if uses(&long[k], which) { number } else { 0 });
        }
    });
}

#[test]
fn a_body_has_no_limit() {
    let mut random = Random::new(28 << 32);
    let (mut records, end) = batch(&mut random, &KINDS);
    let before = MOST_BYTES as usize + 4_000_000;
    let mut body = Bytes(vec![0; before]);
    body.extend(end.iter());
    for extent in records.iter_mut().flat_map(extents) {
        extent.start += before as u64;
    }
    answers(&call(&mut random, &records, &body), 0);
}

#[test]
fn extents_may_overlap() {
    let mut random = Random::new(29 << 32);
    // Offsets 0 to 4: as bytes they are also rows, data and validity of any kind.
    let body = encode(&[0, 1, 2, 3, 4], 4);
    let whole = Extent { start: 0, len: 20 };
    let mut records = Vec::new();
    for kind in KINDS {
        let numbers =
            Record { kind, width: 1, size: 4, offset_width: 4, rows: 4, ..Default::default() };
        for data_start in [0, 3] {
            let data = Extent { start: data_start, len: 17 };
            let validity = Extent { start: 2 * data_start, len: 14 };
            records.push(Record { data, offsets: whole, validity, ..numbers });
            records.push(Record { data, offsets: whole, ..numbers });
        }
    }
    for record in &mut records {
        if record.kind == 5 {
            record.size = 2;
        }
    }
    let indices = lay_out_indices(&mut random, 2, &[(true, 3), (true, 0), (false, 1), (true, 2)]);
    let case = call_by(&mut random, &records, &body, indices.clone());
    answers(&case, 0);
    // The same columns, each on bytes of its own.
    let tables: Vec<Table> = model::columns(&case).into_iter().map(|(table, _)| table).collect();
    let (apart, body) = lay_out(&tables, 0, 0);
    let apart =
        BatchCase { lent: case.lent.clone(), ..call_by(&mut random, &apart, &body, indices) };
    assert_eq!(check_batch(0, &case).0.lent, check_batch(0, &apart).0.lent);
}

#[test]
fn one_to_32_columns_are_gathered() {
    let mut random = Random::new(30 << 32);
    let kinds: Vec<u64> = (0..33).map(|k| KINDS[k % 6]).collect();
    let (records, body) = batch(&mut random, &kinds);
    for (columns, number) in
        [(0, 2), (1, 0), (2, 0), (31, 0), (32, 0), (33, 2), (34, 2), (1 << 61, 2), (u64::MAX, 2)]
    {
        let first = &records[..records.len().min(columns as usize)];
        let mut case = call(&mut random, first, &body);
        case.columns = columns;
        answers(&case, number);
        // Their number is tested before the length of the records.
        case.descriptions.0.clear();
        answers(&case, if number == 2 { 2 } else { 3 });
    }
}

#[test]
fn records_may_be_followed_by_anything_and_not_be_cut() {
    let mut random = Random::new(31 << 32);
    for columns in [1, 2, 32] {
        let kinds: Vec<u64> = (0..columns).map(|k| KINDS[k % 6]).collect();
        let (records, body) = batch(&mut random, &kinds);
        let mut case = call(&mut random, &records, &body);
        for length in [0, 1, 103, 104 * columns - 1] {
            let mut cut = case.clone();
            cut.descriptions.0.truncate(length);
            refuses(&cut, [3, 0, 0, 0]);
        }
        case.descriptions.0.truncate(104 * columns);
        let seen = check_batch(0, &case).0;
        assert_eq!(seen.returned, 0);
        for more in [1, 103, 104, 500] {
            let mut longer = case.clone();
            longer.descriptions.0.extend(random.bytes(more).iter());
            assert_eq!(check_batch(0, &longer).0, seen);
        }
    }
}

/// After the number of columns and the length of the records, before anything of a column or of the
/// indices.
#[test]
fn unequal_rows_are_refused_before_any_column() {
    let eight = [8, 0, 0, 0];
    for mut random in randoms(32, 50) {
        let (records, body) = batch(&mut random, &[1, 3, 6]);
        let k = random.below(3) as usize;
        for rows in [0, ROWS - 1, ROWS + 1, MOST_ROWS + 1, ROWS + (1 << 32), u64::MAX] {
            let mut unequal = records.clone();
            unequal[k].rows = rows;
            refuses(&call(&mut random, &unequal, &body), eight);

            let mut unknown = unequal.clone();
            unknown[random.below(3) as usize].kind = random.pick(&[0, 7, u64::MAX]);
            refuses(&call(&mut random, &unknown, &body), eight);

            let mut cut = unequal.clone();
            cut[random.below(3) as usize].data.start = u64::MAX;
            refuses(&call(&mut random, &cut, &body), eight);

            let mut no_index = call(&mut random, &unequal, &body);
            no_index.indices.width = 3;
            refuses(&no_index, eight);
            no_index.descriptions.0.truncate(311);
            refuses(&no_index, [3, 0, 0, 0]);
            no_index.columns = 33;
            refuses(&no_index, [2, 0, 0, 0]);
        }
        // Equal rows of an unknown kind.
        let mut unknown = records.clone();
        unknown[k].kind = 7;
        refuses(&call(&mut random, &unknown, &body), [1, 0, 0, 0]);
    }
}

/// A damage, and its refusal.
type Bad<T> = (fn(&mut T), [u64; 4]);

/// Of a column with offsets.
const BAD: [Bad<Record>; 7] = [
    (|record| record.kind = 7, [1, 0, 0, 0]),
    (|record| record.offset_width = 3, [1, 0, 0, 0]),
    (|record| record.validity_bit = 8, [2, 0, 0, 0]),
    (|record| record.validity.len = MOST_BYTES + 1, [2, 0, 0, 0]),
    (|record| record.validity.start = u64::MAX, [3, 0, 0, 0]),
    (|record| record.offsets.len = 4 * ROWS + 3, [3, 0, 0, 0]),
    (|record| record.data.len = 0, [4, 1, 0, 0]),
];

/// A column of variable bytes, the second offset already above 0, among others.
fn with_bytes(random: &mut Random, place: usize) -> (Vec<Record>, Bytes) {
    let mut tables: Vec<Table> = [1, 2, 3, 6].map(|kind| table(random, kind)).to_vec();
    let mut bytes = tables.remove(2);
    bytes.offsets = encode(&[0, 1, 1, 2, 2, 3, 3, 3, 3, 4], 4);
    bytes.data = random.bytes(4);
    tables.insert(place, bytes);
    lay_out(&tables, 0, 0)
}

#[test]
fn the_first_malformed_column_is_the_answer_wherever_it_stands() {
    for place in 0..4 {
        for (which, (damage, numbers)) in BAD.iter().enumerate() {
            let mut random = Random::new(33 << 32 | (place as u64) << 8 | which as u64);
            let (mut records, body) = with_bytes(&mut random, place);
            answers(&call(&mut random, &records, &body), 0);
            damage(&mut records[place]);
            refuses(&call(&mut random, &records, &body), *numbers);
            // Outputs and the columns after it do not matter.
            let mut case = call(&mut random, &records, &body);
            case.lent = Default::default();
            refuses(&case, *numbers);
            for later in place + 1..4 {
                let mut two = records.clone();
                two[later].kind = 0;
                refuses(&call(&mut random, &two, &body), *numbers);
            }
            for earlier in 0..place {
                let mut two = records.clone();
                two[earlier].validity.start = u64::MAX;
                refuses(&call(&mut random, &two, &body), [3, 0, 0, 0]);
            }
        }
    }
}

/// A cut extent among them, whose turn is that of 3.
#[test]
fn of_two_damages_of_a_column_the_lower_number_is_the_answer() {
    let mut random = Random::new(45 << 32);
    for place in 0..4 {
        for (one, numbers) in BAD {
            for (other, others) in BAD {
                let (mut records, body) = with_bytes(&mut random, place);
                one(&mut records[place]);
                other(&mut records[place]);
                refuses(&call(&mut random, &records, &body), numbers.min(others));
            }
        }
    }
}

/// With the first column, number by number: a number of the indices comes before a greater one of
/// the column, and before everything of the later columns.
#[test]
fn the_index_column_is_tested_with_the_first() {
    let mut random = Random::new(34 << 32);
    let bad_indices: [Bad<IndexColumn>; 4] = [
        (|indices| indices.width = 3, [1, 0, 0, 0]),
        (|indices| indices.count = MOST_ROWS + 1, [2, 0, 0, 0]),
        (|indices| indices.count = 100, [3, 0, 0, 0]),
        (|indices| indices.data[4] = ROWS as u8, [5, 2, 0, 0]),
    ];
    for (damage, numbers) in bad_indices {
        for place in 0..4 {
            for (wreck, wrecked) in BAD {
                let (mut records, body) = with_bytes(&mut random, place);
                let indices =
                    lay_out_indices(&mut random, 2, &[(true, 8), (false, 9), (true, 0), (true, 1)]);
                wreck(&mut records[place]);
                let mut case = call_by(&mut random, &records, &body, indices);
                damage(&mut case.indices);
                let first = place > 0 || numbers[0] <= wrecked[0];
                refuses(&case, if first { numbers } else { wrecked });
            }
        }
    }
}

#[test]
fn space_is_that_of_all_columns() {
    let mut random = Random::new(35 << 32);
    let (records, body) = batch(&mut random, &[3, 1, 4, 2, 6, 5, 3]);
    let mut case = call(&mut random, &records, &body);
    let needed = model::batch_needed(&case).expect("a fit batch");
    // Seven columns of five rows: a byte of validity each, and in three of them six offsets.
    assert_eq!(needed[..2], [7, 3 * 6 * 4]);
    let [validity, offsets, data] = needed.map(|length| random.bytes(length as usize));
    (case.lent.validity, case.lent.offsets, case.lent.data) = (validity, offsets, data);
    answers(&case, 0);
    for place in (0..3).rev() {
        for missing in [1, needed[place]] {
            let mut less = case.clone();
            let lent = [&mut less.lent.validity, &mut less.lent.offsets, &mut less.lent.data];
            lent[place].truncate((needed[place] - missing) as usize);
            refuses(&less, [7, place as u64 + 1, needed[place], 0]);
        }
        // The others are short from here on.
        let lent = [&mut case.lent.validity, &mut case.lent.offsets, &mut case.lent.data];
        lent[place].truncate(needed[place] as usize - 1);
        refuses(&case, [7, place as u64 + 1, needed[place], 0]);
    }
}

#[test]
fn bytes_after_the_joined_parts_are_kept() {
    let mut random = Random::new(36 << 32);
    let (records, body) = batch(&mut random, &[3, 1, 4, 2, 6, 5, 2, 1]);
    let case = call(&mut random, &records, &body);
    let needed = model::batch_needed(&case).expect("a fit batch").map(|length| length as usize);
    let (seen, _) = check_batch(0, &case);
    assert_eq!(seen.returned, 0);
    assert_eq!(seen.lent.validity[needed[0]..], case.lent.validity[needed[0]..]);
    assert_eq!(seen.lent.offsets[needed[1]..], case.lent.offsets[needed[1]..]);
    assert_eq!(seen.lent.data[needed[2]..], case.lent.data[needed[2]..]);
}

/// Rows and indices at their limits, and past them by one.
#[test]
fn limits_of_rows_and_indices_are_those_of_a_column() {
    for (over, number) in [(0, 0), (1, 2)] {
        let mut random = Random::new(37 << 32 | over);
        let rows = MOST_ROWS + over;
        let body = random.bytes(rows as usize + 8);
        let bits = Extent { start: 3, len: rows.div_ceil(8) };
        let bytes = Extent { start: 8, len: rows };
        let records = [
            Record { kind: 2, rows, data: bits, validity: bytes, ..Record::default() },
            Record { kind: 1, width: 1, rows, data: bytes, validity: bits, ..Record::default() },
        ];
        let some = lay_out_indices(&mut random, 4, &[(true, MOST_ROWS - 1), (false, 3), (true, 7)]);
        answers(&call_by(&mut random, &records, &body, some), number);

        let (records, body) = batch(&mut random, &[2, 6]);
        let many: Vec<(bool, u64)> = (0..rows).map(|i| (i % 5 != 0, i % ROWS)).collect();
        let many = lay_out_indices(&mut random, 2, &many);
        answers(&call_by(&mut random, &records, &body, many), number);
    }
}
