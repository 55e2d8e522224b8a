//! Builds plans from typed records, and drives lanes of them.

pub mod code;
pub mod drive;
pub mod lane;
pub mod plan;
pub mod plans;
pub mod rng;
