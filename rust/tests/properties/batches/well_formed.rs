//! Batches of well-formed columns, with outputs and answers of every length.

use hoglidra::{Batch, Output};

use super::{damage, generate};
use crate::archive::descriptions;
use crate::case::Lent;
use crate::check::{check_batch, randoms, Tally};
use crate::model;

#[test]
fn gathers_what_the_model_gathers() {
    let mut tally = Tally::default();
    for mut random in randoms(20, 100_000) {
        let case = generate::case(&mut random);
        tally.add_batch(&check_batch(random.seed, &case));
    }
    let answers = ["0", "5 first", "7 place 1", "7 place 2", "7 place 3"];
    tally.expect("batches", 1000, &answers);
}

#[test]
fn an_answer_slice_of_fewer_than_32_bytes_is_refused_first() {
    let mut tally = Tally::default();
    for mut random in randoms(22, 10_000) {
        let mut case = damage::case(&mut random);
        let length = random.below(36);
        case.answer = random.bytes(length as usize);
        let (seen, at) = check_batch(random.seed, &case);
        if length < 32 {
            assert_eq!((seen.returned, &seen.answer), (7, &case.answer));
            assert_eq!(seen.lent, case.lent);
        }
        tally.add_batch(&(seen, at));
    }
    tally.expect("answers of batches", 300, &["0", "7 batch"]);
}

/// Lends nothing, then what each refusal asks for, until the batch is gathered.
#[test]
fn refusals_and_helpers_tell_the_lengths_to_lend() {
    for mut random in randoms(40, 4000) {
        let mut case = generate::case(&mut random);
        let Some(needed) = model::batch_needed(&case) else {
            continue;
        };
        let columns = descriptions(&case).expect("known kinds");
        let batch = Batch { columns: &columns, body: &case.body };
        let count = case.indices.count as usize;
        assert_eq!(batch.validity_len(count) as u64, needed[0]);
        assert_eq!(batch.offsets_len(count) as u64, needed[1]);
        let varies = columns.iter().any(|column| Output::data_len(column.kind, 1).is_none());
        assert_eq!(batch.data_len(count), (!varies).then_some(needed[2] as usize));
        case.lent = Lent::default();
        for place in 1..=3 {
            if needed[place - 1] == 0 {
                continue;
            }
            let (seen, _) = check_batch(random.seed, &case);
            assert_eq!(seen.numbers(), Some([7, place as u64, needed[place - 1], 0]));
            let lent = [&mut case.lent.validity, &mut case.lent.offsets, &mut case.lent.data];
            lent[place - 1].resize(needed[place - 1] as usize, 0xAA);
        }
        let (seen, _) = check_batch(random.seed, &case);
        assert_eq!(seen.returned, 0);
    }
}
