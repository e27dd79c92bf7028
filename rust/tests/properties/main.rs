//! The archive against an independent model of the gather, and against the loops of `take.rs`, on
//! generated columns and batches of them, byte for byte; where the loops leave something below a null
//! row, zeros are asked for.

mod archive;
#[path = "../../benches/take/arrow.rs"]
mod arrow;
mod batches;
mod case;
mod check;
mod damage;
mod generate;
mod limits;
mod loops;
mod model;
mod nulls;
mod overflow;
mod privacy;
mod published;
mod random;
mod range;
#[path = "../../benches/take/reference.rs"]
mod reference;
mod well_formed;
#[path = "../../benches/take/written.rs"]
mod written;
