//! Null rows of each column of a batch, as the archive's own outputs show them.

use hoglidra::Batch;

use super::generate;
use super::parts::own;
use crate::archive::{self, descriptions};
use crate::check::randoms;
use crate::model;
use crate::nulls::NullRows;

#[test]
fn null_rows_of_each_column_are_zeros() {
    let mut null_rows = NullRows::default();
    for mut random in randoms(47, 30_000) {
        let case = generate::case(&mut random);
        let seen = archive::gather_batch(&case);
        if seen.returned != 0 {
            continue;
        }
        let columns = descriptions(&case).expect("known kinds");
        let batch = Batch { columns: &columns, body: &case.body };
        let parts = batch.parts(case.indices.count as usize, &seen.lent.offsets);
        for (part, (table, _)) in parts.zip(model::columns(&case)) {
            let gathered = own(&seen.lent, &part);
            let not_blank = null_rows.not_blank(&table, &case.indices, &gathered);
            assert!(
                not_blank.is_none(),
                "seed {:#x}, row {not_blank:?} of kind {}\n{case:#?}\ngathered {gathered:#?}",
                random.seed,
                table.kind
            );
        }
    }
    null_rows.expect("null rows of batches", 3000);
}
