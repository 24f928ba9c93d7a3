//! The unproved side of the benchmark: the three programs, inputs for them, and a definition of
//! what certificates mean to test them against. Written from docs/FORMAT.md alone.

pub mod bits;
pub mod bytes;
pub mod certificate;
pub mod check;
pub mod delivery;
pub mod event;
pub mod fault;
pub mod gate;
pub mod inputs;
pub mod literal;
pub mod meaning;
pub mod measure;
pub mod programs;
pub mod random;
pub mod registry;
pub mod request;
pub mod schedule;
pub mod spans;
pub mod trial;
