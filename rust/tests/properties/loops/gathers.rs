//! Columns of every kind: what the loops gather, and that they stop at an index out of bounds.

use hoglidra::Kind;

use super::arrays::Arrays;
use crate::archive;
use crate::case::{Bytes, Case, Lent, Seen};
use crate::check::{agree, randoms, Tally, Zeroed, GATHERED};
use crate::generate;
use crate::model;
use crate::random::Random;
use crate::reference::{self, Error, Taken};
use crate::written;

/// The outputs that the loops make, as the archive writes them: ones stand for no validity, and zeros
/// below null rows.
fn made(taken: &Taken, kind: Kind, count: usize) -> Lent {
    Lent {
        validity: Bytes(written::validity(taken, count).into_owned()),
        offsets: Bytes(taken.offsets.bytes().to_vec()),
        data: Bytes(written::data(taken, kind, count)),
    }
}

/// Something to lend that is as long, or longer, and the same with `used` at its start.
fn lend(random: &mut Random, used: Bytes) -> (Bytes, Bytes) {
    let slack = random.slack();
    let lent = random.bytes(used.len() + slack.len());
    let mut written = lent.clone();
    written[..used.len()].copy_from_slice(&used);
    (lent, written)
}

/// Compares the call with what the loops make of it.
fn gathers(random: &mut Random, case: Case, taken: &Taken, zeroed: &mut Zeroed) -> Seen {
    let kind = archive::kind(&case.table).expect("a known kind");
    let made = made(taken, kind, case.indices.count as usize);
    zeroed.add(case.table.kind, made.data[..] != *taken.data.bytes());
    let total = made.data.len() as u64;
    let nulls = taken.nulls.as_ref().map_or(0, |nulls| nulls.null_count) as u64;
    let (validity, written_validity) = lend(random, made.validity);
    let (offsets, written_offsets) = lend(random, made.offsets);
    let (data, written_data) = lend(random, made.data);
    let case = Case { lent: Lent { validity, offsets, data }, ..case };
    let written = Lent { validity: written_validity, offsets: written_offsets, data: written_data };
    let seen = archive::gather(&case);
    agree(random.seed, &case, &seen, &Seen::new(&case.answer, [0, 0, total, nulls], written));
    seen
}

/// Compares the call with a refusal at the first index that the loops do not take.
fn stops(seed: u64, case: &Case, arrays: &Arrays) -> Seen {
    let seen = archive::gather(case);
    let place = seen.place().expect("a whole answer");
    agree(seed, case, &seen, &Seen::new(&case.answer, [5, place, 0, 0], case.lent.clone()));
    let array = arrays.array();
    assert!(reference::take(&array, &arrays.indices(place)).is_ok(), "seed {seed:#x}");
    let next = arrays.indices(place + 1);
    assert!(matches!(reference::take(&array, &next), Err(Error::OutOfBounds)), "seed {seed:#x}");
    seen
}

#[test]
fn gathers_what_the_loops_gather() {
    let mut tally = Tally::default();
    let mut zeroed = Zeroed::default();
    for mut random in randoms(16, 30_000) {
        let case = generate::case(&mut random);
        let needed = model::needed(&case.table, &case.indices);
        if needed.is_some_and(|lengths| lengths.iter().any(|length| *length > 1 << 20)) {
            continue;
        }
        let arrays = Arrays::new(&case);
        let (array, indices) = (arrays.array(), arrays.indices(case.indices.count));
        let seen = match reference::take(&array, &indices) {
            Ok(taken) => gathers(&mut random, case.clone(), &taken, &mut zeroed),
            Err(Error::OutOfBounds) => stops(random.seed, &case, &arrays),
            Err(error) => panic!("seed {:#x}: {error}\n{case:#?}", random.seed),
        };
        tally.add(&case, &seen);
    }
    tally.expect("the loops of take.rs", 1000, &[&GATHERED[..], &["5"]].concat());
    zeroed.expect("the loops of take.rs", 300);
}
