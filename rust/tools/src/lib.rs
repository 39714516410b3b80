//! What the commands of tools/ share: places and texts as people read them, the proved program, a run's history, what
//! is wrong with a table.
#![forbid(unsafe_code)]

pub mod command;
pub mod context;
pub mod emits;
pub mod endings;
pub mod history;
pub mod json;
pub mod layout;
pub mod mistakes;
pub mod near;
pub mod page;
pub mod program;
pub mod reason;
pub mod shown;
pub mod spot;
pub mod tokens;
pub mod trace;
pub mod warnings;
