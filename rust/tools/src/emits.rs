//! What `--emits` asks: that a device is handed setting lines of the names that it knows, and nothing else.

use crate::mistakes::headed;
use crate::near::nearest;
use crate::shown::{named, quoted};
use crate::tokens::{Shape, Token, tokens};
use refal0_apart::corpus::Lending;
use refal0_apart::outcome::Outcome;
use refal0_apart::rewriter::{Watcher, rewrite_watched};
use refal0_apart::tree::Table;

const LINE_END: u8 = 10;

/// The first emission of a table whose name is not among the known ones: where it stands, and what may be meant.
pub fn unknown_emission(path: &str, text: &[u8], known: &[String]) -> Option<String> {
    let tokens = tokens(text);
    let spoken: Vec<&Token> = tokens.iter().filter(|token| token.shape != Shape::Comment).collect();
    let called = spoken.windows(2).filter(|pair| pair[0].shape == Shape::Open).map(|pair| pair[1]);
    let mut emitted = called.filter(|name| name.text.starts_with(b"Emit"));
    let unknown = emitted.find(|name| !known.iter().any(|other| other.as_bytes() == name.text))?;
    let meant = match nearest(unknown.text, known.iter().map(String::as_bytes)) {
        Some(near) => format!("did you mean {}?", named(near)),
        None => format!("--emits has {}", known.join(", ")),
    };
    let place = headed(path, text, unknown.place, unknown.text.len(), "refused by --emits");
    Some(format!("{place}\n{} is emitted here, and is not among the names of --emits: {meant}", unknown.shown()))
}

/// Why a run that is done hands over more than a line for each emission: its result isn't empty, or an argument has a
/// line end in it. A run that ended early hands over nothing.
pub fn more_than_settings(path: &str, table: &Table, text: &[u8], outcome: &Outcome) -> Option<String> {
    if outcome.answer != 0 {
        return None;
    }
    let refused = format!("{path}: refused by --emits");
    if !outcome.text.is_empty() {
        let result = quoted(&outcome.text);
        return Some(format!("{refused}: the result of the run is {result}, and only emissions are setting lines"));
    }
    let Lending { start, allowance, .. } = Lending::default();
    let mut emissions = Emissions { of_more_lines: None };
    rewrite_watched(table, start, text, allowance, &mut emissions);
    let (name, argument) = emissions.of_more_lines?;
    Some(format!("{refused}: the argument of {name} is {argument}, which is more than one line"))
}

/// Looks for the first emission whose argument has a line end: its name, and the argument in quotes.
struct Emissions {
    of_more_lines: Option<(String, String)>,
}

impl Watcher for Emissions {
    fn emitted(&mut self, _waiting: usize, name: &[u8], argument: &[u8]) {
        if self.of_more_lines.is_none() && argument.contains(&LINE_END) {
            self.of_more_lines = Some((named(name), quoted(argument)));
        }
    }
}
