//! The archive against the loops of `take.rs`, on slices and `Vec`, that the benchmark times.

pub mod arrays;
mod gathers;
mod totals;
