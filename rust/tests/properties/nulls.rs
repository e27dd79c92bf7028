//! Null rows as the archive's own outputs show them: zeros, or empty in kinds 3 and 4, whatever lies
//! in the column, under a null index and in what was lent. The model does not say what they are.

use std::collections::BTreeMap;

use crate::archive;
use crate::case::{Bytes, IndexColumn, Lent, Table};
use crate::check::randoms;
use crate::generate;
use crate::model;

const WHY: [&str; 3] = ["null index over a row", "null index over no row", "null row"];

/// How many null rows were blank, by kind and by why they are null. Rows of no bytes are left out.
#[derive(Default)]
pub struct NullRows(BTreeMap<(u64, &'static str), u64>);

fn bit(bytes: &[u8], i: usize) -> bool {
    bytes[i / 8] >> (i % 8) & 1 == 1
}

/// Whether row `i` of a gathered column of so many rows is zeros, or empty.
fn is_blank(table: &Table, gathered: &Lent, count: usize, i: usize) -> bool {
    let Lent { offsets, data, .. } = gathered;
    match table.kind {
        2 => !bit(data, i),
        3 | 4 => {
            let width = table.offset_width as usize;
            offsets[i * width..][..width] == offsets[(i + 1) * width..][..width]
        }
        _ => {
            let length = data.len() / count;
            data[i * length..][..length].iter().all(|byte| *byte == 0)
        }
    }
}

impl NullRows {
    /// The first null row of a gathered column that is not blank; those before it are counted. The
    /// outputs are the column's alone.
    pub fn not_blank(
        &mut self,
        table: &Table,
        indices: &IndexColumn,
        gathered: &Lent,
    ) -> Option<usize> {
        let count = indices.count as usize;
        for i in (0..count).filter(|i| !bit(&gathered.validity, *i)) {
            if !is_blank(table, gathered, count, i) {
                return Some(i);
            }
            let why = match model::index(indices, i as u64) {
                (false, number) if number < table.rows => WHY[0],
                (false, _) => WHY[1],
                (true, _) => WHY[2],
            };
            let rows_have_bytes = !gathered.data.is_empty();
            *self.0.entry((table.kind, why)).or_default() += u64::from(rows_have_bytes);
        }
        None
    }

    /// Prints the counts, and asserts that each kind has at least that many of each.
    pub fn expect(&self, test: &str, least: u64) {
        println!("{test}: {:?}", self.0);
        for kind in 1..=6 {
            for why in WHY {
                let met = self.0.get(&(kind, why)).copied().unwrap_or_default();
                assert!(met >= least, "{test}: {why} of kind {kind} met {met} times");
            }
        }
    }
}

#[test]
fn null_rows_are_zeros() {
    let mut null_rows = NullRows::default();
    for mut random in randoms(46, 60_000) {
        let case = generate::case(&mut random);
        let seen = archive::gather(&case);
        let Some([0, _, total, _]) = seen.numbers() else {
            continue;
        };
        let data = Bytes(seen.lent.data[..total as usize].to_vec());
        let gathered = Lent { data, ..seen.lent };
        let not_blank = null_rows.not_blank(&case.table, &case.indices, &gathered);
        assert!(
            not_blank.is_none(),
            "seed {:#x}, row {not_blank:?}\n{case:#?}\ngathered {gathered:#?}",
            random.seed
        );
    }
    null_rows.expect("null rows", 3000);
}
