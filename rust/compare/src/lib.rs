//! The comparison of the Refal-0 system written apart with the proved engine.

pub mod cases;
pub mod check;
pub mod clock;
pub mod engine;
pub mod lent;
pub mod plot;
pub mod tally;
