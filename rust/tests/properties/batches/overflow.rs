//! Running totals about 2,147,483,647 in some columns of a batch. All data lies in the same zeros.

use hoglidra::raw::Record;
use hoglidra::Extent;

use super::generate::{record, unlent};
use crate::case::{BatchCase, Bytes, Table};
use crate::check::check_batch;
use crate::generate::{encode, lay_out_indices};
use crate::overflow::{indices, null_row};
use crate::random::Random;

const MOST_OFFSET: u64 = 2_147_483_647;
/// Bytes of the zeros: four rows of 2-byte values, two of them long.
const ZEROS: usize = 1 << 21;

/// A batch in which each column of long rows comes to the edge or misses it by one. Every such call
/// is refused: no data is lent.
pub fn case(random: &mut Random) -> BatchCase {
    let long = 300_000 + random.below(200_000);
    let mut body = Bytes(vec![0; ZEROS]);
    let records: Vec<Record> =
        (0..1 + random.below(4)).map(|_| column(random, long, &mut body)).collect();
    let indices = indices(random, MOST_OFFSET / long);
    let index_width = random.pick(&[1, 2, 4, 8]);
    let indices = lay_out_indices(random, index_width, &indices);
    let count = indices.count;
    let mut case = unlent(random, &records, body, indices);
    let offsets: u64 = records.iter().map(|record| (count + 1) * record.offset_width).sum();
    let short = random.pick(&[(0, 0), (0, 0), (0, 0), (1, 0), (0, 1)]);
    case.lent.validity = random.bytes((case.columns * count.div_ceil(8) - short.0) as usize);
    case.lent.offsets = random.bytes((offsets - short.1) as usize);
    case
}

/// A column of kind 3 or 4 with four rows: mostly a long one, one that leads to the edge, a short
/// and an empty one; or short ones alone.
fn column(random: &mut Random, long: u64, body: &mut Bytes) -> Record {
    let rest = (MOST_OFFSET % long + random.below(3)).saturating_sub(1);
    let lengths = match random.below(3) {
        0 => [2, 0, 1, 3],
        _ => [long, rest, random.below(4), 0],
    };
    let mut offsets = vec![random.below(3)];
    for length in lengths {
        offsets.push(offsets[offsets.len() - 1] + length);
    }
    let table = Table {
        kind: random.pick(&[3, 4]),
        width: random.pick(&[1, 2]),
        offset_width: random.pick(&[4, 4, 4, 8]),
        rows: 4,
        ..Table::default()
    };
    let width = if table.kind == 3 { 1 } else { table.width };
    let offsets = encode(&offsets, table.offset_width);
    Record {
        data: Extent { start: random.below(1000), len: 1_000_003 * width },
        offsets: append(body, &offsets),
        validity: append(body, &null_row(random)),
        ..record(&table)
    }
}

fn append(body: &mut Bytes, buffer: &Bytes) -> Extent {
    let start = body.len() as u64;
    body.extend(buffer.iter());
    Extent { start, len: buffer.len() as u64 }
}

/// Trial 10 of the paper as a column of a batch: its refusal 6 comes before anything of the columns
/// after it, and after all of those before it.
#[test]
fn overflow_of_one_column_stands_between_its_neighbours() {
    let mut random = Random::new(23 << 32);
    let mut body = Bytes(vec![7; 65_536]);
    let offsets = append(&mut body, &encode(&[0, 65_536], 4));
    let data = Extent { start: 0, len: 65_536 };
    for (kind, told) in [(3, 2_147_483_648), (4, 2_147_418_112)] {
        let long =
            Record { kind, width: 1, offset_width: 4, rows: 1, data, offsets, ..Record::default() };
        let unknown = Record { kind: 99, ..long };
        let cut = Record { data: Extent { start: 100, len: 65_536 }, ..long };
        let late = Record { offsets: Extent { start: 0, len: 8 }, ..long };
        let wide = Record { offset_width: 8, offsets: Extent { start: 0, len: 16 }, ..long };
        let six = [6, 32_767, told, 0];
        let trials: [(&[Record], [u64; 4]); 7] = [
            (&[long], six),
            (&[long, unknown], six),
            (&[long, late, long], six),
            (&[unknown, long], [1, 0, 0, 0]),
            (&[cut, long], [3, 0, 0, 0]),
            (&[late, long], [4, 0, 0, 0]),
            (&[wide, long], [4, 0, 0, 0]),
        ];
        for (records, numbers) in trials {
            let indices = lay_out_indices(&mut random, 2, &[(true, 0); 32_768]);
            let case = unlent(&mut random, records, body.clone(), indices);
            let (seen, _) = check_batch(random.seed, &case);
            assert_eq!(seen.numbers(), Some(numbers));
            assert_eq!(seen.lent, case.lent);
        }
        // One index fewer in each of two columns: no overflow, and the needs are added.
        let indices = lay_out_indices(&mut random, 2, &[(true, 0); 32_767]);
        let mut case = unlent(&mut random, &[long, long], body.clone(), indices);
        case.lent.validity = random.bytes(2 * 4096);
        case.lent.offsets = random.bytes(2 * 4 * 32_768);
        let (seen, _) = check_batch(random.seed, &case);
        assert_eq!(seen.numbers(), Some([7, 3, 2 * 2_147_418_112, 0]));
    }
}
