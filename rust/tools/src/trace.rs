//! A run in lines: one for each application, emission and angle call, indented by how many applications wait.

use crate::history::{Application, Event, History, Kind, Taken};
use crate::shown::{cut, escaped, named, steps};
use refal0_apart::tree::Table;

/// The first line of every trace.
pub const BY_WHOM: &str = "traced by the Refal-0 system of rust/, not by the proved program";

/// Deeper lines are not indented further, and begin with their depth.
const DEEPEST: usize = 20;

/// A line of the record is cut to so many characters.
const EMISSION_WIDTH: usize = 100;

/// The kept events, each on a line.
pub fn lines(table: &Table, history: &History) -> Vec<String> {
    history.events.iter().map(|event| line(table, event)).collect()
}

/// The step's number, the indentation, and what was done.
fn line(table: &Table, event: &Event) -> String {
    let number = match &event.kind {
        Kind::Application(application) => application.step.to_string(),
        _ => String::new(),
    };
    let depth = if event.waiting > DEEPEST { format!("[{}] ", event.waiting) } else { String::new() };
    format!("{number:>6}  {}{depth}{}", "  ".repeat(event.waiting.min(DEEPEST)), said(table, event))
}

/// What was done.
pub fn said(table: &Table, event: &Event) -> String {
    match &event.kind {
        Kind::Application(application) => said_of_application(table, application),
        Kind::Emission { line, .. } => format!("> {}", cut(line, EMISSION_WIDTH)),
        Kind::Angles { name, argument, result: Ok(result) } => format!("{name} {argument} = {result}"),
        Kind::Angles { name, argument, result: Err(answer) } => {
            format!("{name} {argument} ends the run with {answer}")
        }
    }
}

pub fn function_name(table: &Table, function: usize) -> String {
    named(&table.functions[function].name)
}

fn said_of_application(table: &Table, application: &Application) -> String {
    let Application { function, text, taken, .. } = application;
    let taken = match taken {
        Taken::By { sentence, variables, .. } => {
            let values: String = variables.iter().map(|(name, value)| format!(" {name}={value}")).collect();
            format!("sentence {}{}{values}", sentence + 1, if values.is_empty() { "" } else { ":" })
        }
        Taken::Recovered(by) => format!("no sentence fits, {} is applied", function_name(table, *by)),
        Taken::Not(None) => String::from("no sentence fits"),
        Taken::Not(Some(reason)) => format!("no sentence fits; {reason}"),
    };
    format!("{} {text}  {taken}", function_name(table, *function))
}

/// How the run ended, in numbers and with its result.
pub fn closing(table: &Table, history: &History) -> String {
    let outcome = &history.outcome;
    let at = match outcome.function {
        0 => String::new(),
        function => format!(" in {} (function {function})", function_name(table, function - 1)),
    };
    let result = match outcome.answer {
        0 => format!(", result '{}'", escaped(&outcome.text)),
        _ => String::new(),
    };
    format!("answer {}{at} after {}{result}", outcome.answer, steps(outcome.steps))
}
