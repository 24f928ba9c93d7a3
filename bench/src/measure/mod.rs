//! Running of both sides' programs, and what is told of it.

pub mod cases;
pub mod plot;
pub mod process;
pub mod sides;
pub mod table;
