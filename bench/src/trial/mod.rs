//! Random cases: deliveries and questions, valid and damaged, that follow from a seed.

pub mod backbone;
pub mod case;
pub mod checks;
pub mod damage;
pub mod sheets;
pub mod world;
