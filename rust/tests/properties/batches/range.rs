//! The range test of a batch: once for all columns, with the answer of the first by itself.

use super::generate::{lay_out, unlent};
use crate::case::{Case, Lent, Table};
use crate::check::{check, check_batch};
use crate::generate::lay_out_indices;
use crate::model;
use crate::random::Random;
use crate::range::{numbers, one_among, table, ROWS, WIDTHS};

#[test]
fn a_batch_is_refused_as_its_first_column_is() {
    let (mut gathered, mut refused) = (0, 0);
    for rows in ROWS {
        for columns in 2..=4 {
            let mut random = Random::new(57 << 32 | columns << 24 | rows);
            let mut tables = Vec::<Table>::new();
            for _ in 0..columns {
                let kind = 1 + random.below(6);
                tables.push(table(&mut random, kind, rows));
            }
            let (records, body) = lay_out(&mut random, &tables);
            for width in WIDTHS {
                for number in numbers(width, rows) {
                    let (mut indices, place) = one_among(&mut random, width, rows, number);
                    // Nulls before it, over the same number.
                    for i in (0..place as usize).filter(|i| i % 100 == 7) {
                        indices[i] = (false, number);
                    }
                    let indices = lay_out_indices(&mut random, width, &indices);
                    let mut case = unlent(&mut random, &records, body.clone(), indices);
                    let needed = model::batch_needed(&case).unwrap_or([64; 3]);
                    let [validity, offsets, data] =
                        needed.map(|length| random.bytes(length as usize));
                    case.lent = Lent { validity, offsets, data };
                    let first = Case {
                        table: tables[0].clone(),
                        indices: case.indices.clone(),
                        lent: case.lent.clone(),
                        answer: case.answer.clone(),
                    };
                    let (seen, _) = check_batch(random.seed, &case);
                    let alone = check(random.seed, &first);
                    assert_eq!(seen.returned, alone.returned, "seed {:#x}", random.seed);
                    if number >= rows {
                        assert_eq!(seen.numbers(), Some([5, place, 0, 0]));
                        assert!(seen == alone, "seed {:#x}", random.seed);
                        refused += 1;
                    } else {
                        assert_eq!(seen.returned, 0);
                        let own = model::needed(&first.table, &first.indices).expect("fit");
                        let [validity, offsets, data] = own.map(|length| length as usize);
                        assert_eq!(seen.lent.validity[..validity], alone.lent.validity[..validity]);
                        assert_eq!(seen.lent.offsets[..offsets], alone.lent.offsets[..offsets]);
                        assert_eq!(seen.lent.data[..data], alone.lent.data[..data]);
                        gathered += 1;
                    }
                }
            }
        }
    }
    println!("batches about 256 and 65,536 rows: {gathered} gathered, {refused} refused");
}
