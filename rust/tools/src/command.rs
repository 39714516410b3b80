//! What the commands have in common: files, exit statuses, and a run by both systems.

use crate::history::{History, history};
use crate::program::{self, Printed, Run};
use crate::shown::steps;
use refal0_apart::reader::read;
use refal0_apart::tree::Table;
use std::fs;
use std::process::ExitCode;

/// The run is done.
pub const DONE: u8 = 0;
/// The run ended early.
pub const EARLY: u8 = 1;
/// The table is refused, or by `--emits` what its run hands over.
pub const REFUSED: u8 = 2;
/// There was nothing to run.
pub const NOTHING: u8 = 3;
/// The two systems came to different ends.
pub const DIFFERENT: u8 = 4;

/// A command's exit status; where there was nothing to run, its name and why.
pub fn ended(name: &str, status: Result<u8, String>) -> ExitCode {
    ExitCode::from(status.unwrap_or_else(|said| {
        eprintln!("{name}: {said}");
        NOTHING
    }))
}

/// A file's bytes; `what` says what it was to be.
pub fn file(what: &str, path: &str) -> Result<Vec<u8>, String> {
    fs::read(path).map_err(|error| format!("no {what} at {path}: {error}"))
}

/// What both systems make of a table and a text.
pub enum Both {
    Refused {
        number: u64,
        place: usize,
    },
    Ran {
        table: Table,
        run: Run,
        history: Box<History>,
    },
    /// The proved program accepts the table and the other system doesn't.
    Different(String),
}

/// Runs both systems, and keeps the last events of the one that can be traced.
pub fn both(table: &[u8], text: &[u8], last: usize) -> Result<Both, String> {
    let run = match program::run(table, text)? {
        Printed::Refused { number, place } => return Ok(Both::Refused { number, place }),
        Printed::Ran(run) => run,
    };
    let tree = match read(table) {
        Ok(tree) => tree,
        Err(refusal) => return Ok(Both::Different(refused_by_one(refusal.number))),
    };
    let history = history(&tree, text, last);
    Ok(Both::Ran { table: tree, run, history: Box::new(history) })
}

fn refused_by_one(number: u64) -> String {
    format!("the proved program accepts the table, and the Refal-0 system of rust/ refuses it with {number}")
}

/// Whether both systems ended alike: answer, function, steps, applications, emissions and result.
pub fn alike(run: &Run, history: &History) -> bool {
    let outcome = &history.outcome;
    let body = [outcome.record.as_slice(), &outcome.text].concat();
    let counts = run.profile.iter().map(|&(_, count)| count);
    (run.answer, run.function, run.steps) == (outcome.answer, outcome.function, outcome.steps)
        && run.body == body
        && counts.eq(outcome.counts.0[..run.profile.len()].iter().copied())
}

/// How both systems ended, where that isn't alike.
pub fn unlike(run: &Run, history: &History) -> String {
    let ends = |answer: u64, count: u64| format!("with {answer} after {}", steps(count));
    let (proved, apart) = (ends(run.answer, run.steps), ends(history.outcome.answer, history.outcome.steps));
    let same = if proved == apart { ", but not with the same lines" } else { "" };
    format!("the proved program ends {proved}, the Refal-0 system of rust/ {apart}{same}")
}
