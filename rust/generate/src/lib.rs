//! Generators with seeds: trees, texts, sound tables in odd dress, tables at their limits, damaged tables, wild code.
#![forbid(unsafe_code)]

pub mod angles;
pub mod damage;
pub mod dress;
pub mod edges;
mod flatten;
pub mod random;
pub mod texts;
pub mod trees;
pub mod wild;
