//! A second implementation of what `docs/` describes, written from those documents alone, but for
//! `bit_work`, which goes in the steps of the crate bitset_bench so that checksums can be compared.
//! It serves as a comparison for the first one: same answers, and a measure of speed.

pub mod bit_work;
pub mod bits;
pub mod calls;
pub mod campus;
pub mod heap;
pub mod image;
pub mod inputs;
pub mod layouts;
pub mod lists;
pub mod lives;
pub mod model;
pub mod numbers;
pub mod policies;
pub mod random;
pub mod replay;
pub mod stores;
pub mod topocheck;
pub mod watch;
