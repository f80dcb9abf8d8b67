//! Compares two implementations of the tracker on many inputs, and shows with wrong implementations that the comparison can fail.
// faults/overruns.rs alone writes through a pointer, into places that guard zones stand on.
#![deny(unsafe_code)]

pub mod against;
pub mod breaks;
pub mod cases;
pub mod clauses;
pub mod compare;
pub mod counts;
pub mod demand;
pub mod difference;
pub mod faults;
pub mod inputs;
pub mod logs;
pub mod long;
pub mod made;
pub mod numbers;
pub mod pair;
pub mod program;
pub mod sentence;
pub mod side;
pub mod states;
pub mod wide;
pub mod wrapper;
