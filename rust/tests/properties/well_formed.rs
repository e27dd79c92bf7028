//! Gathers from well-formed columns of every kind, with outputs and answers of every length.

use hoglidra::Output;

use crate::archive;
use crate::case::{Case, Lent};
use crate::check::{check, randoms, Tally, GATHERED, SPACE};
use crate::generate;
use crate::model;

#[test]
fn gathers_what_the_model_gathers() {
    let mut tally = Tally::default();
    for mut random in randoms(1, 150_000) {
        let case = generate::case(&mut random);
        tally.add(&case, &check(random.seed, &case));
    }
    let answers = [&GATHERED[..], &["5"], &SPACE].concat();
    tally.expect("well-formed", 1000, &answers);
}

#[test]
fn an_answer_slice_of_fewer_than_32_bytes_is_refused_first() {
    let mut tally = Tally::default();
    for mut random in randoms(2, 20_000) {
        let mut case = generate::case(&mut random);
        let length = random.below(41);
        case.answer = random.bytes(length as usize);
        if random.once_in(2) {
            case.table.kind = random.edge();
        }
        tally.add(&case, &check(random.seed, &case));
    }
    tally.expect("answers", 1000, &["1", "7 short answer"]);
}

/// Lends nothing, then what each refusal asks for, until the rows are gathered.
#[test]
fn refusals_and_helpers_tell_the_lengths_to_lend() {
    for mut random in randoms(3, 20_000) {
        let mut case = generate::case(&mut random);
        let Some(needed) = model::needed(&case.table, &case.indices) else {
            continue;
        };
        if needed.iter().any(|length| *length > 1 << 20) {
            continue;
        }
        let kind = archive::kind(&case.table).expect("a known kind");
        let count = case.indices.count as usize;
        assert_eq!(Output::validity_len(count) as u64, needed[0]);
        assert_eq!(Output::offsets_len(kind, count) as u64, needed[1]);
        if let Some(length) = Output::data_len(kind, count) {
            assert_eq!(length as u64, needed[2]);
        }
        lend_what_is_asked(random.seed, &mut case, needed);
    }
}

fn lend_what_is_asked(seed: u64, case: &mut Case, needed: [u64; 3]) {
    case.lent = Lent::default();
    for place in 1..=3 {
        if needed[place - 1] == 0 {
            continue;
        }
        let seen = check(seed, case);
        assert_eq!((seen.returned, seen.place()), (7, Some(place as u64)));
        let buffers = [&mut case.lent.validity, &mut case.lent.offsets, &mut case.lent.data];
        buffers[place - 1].resize(needed[place - 1] as usize, 0xAA);
    }
    assert_eq!(check(seed, case).returned, 0);
}
