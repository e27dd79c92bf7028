//! Several columns in one call: `hoglidra_take_arrays`.

mod damage;
mod edges;
mod generate;
mod nulls;
mod overflow;
mod parts;
mod privacy;
mod range;
mod well_formed;
