//! A Refal-0 system written apart from the proved engine: reader, listing, rewriter and two-stack machine.
#![forbid(unsafe_code)]

pub mod angles;
pub mod class;
pub mod corpus;
pub mod decoding;
pub mod flat;
pub mod lexer;
pub mod listing;
pub mod machine;
pub mod outcome;
pub mod packing;
pub mod reader;
pub mod rewriter;
pub mod translation;
pub mod tree;
