//! Runs the proved program on a table and a sheet, and says in words what it answers.

use refal0_apart::tree::Table;
use std::io::{self, Write};
use std::process::ExitCode;
use tools::command::{self, Both, alike, both, file, unlike};
use tools::emits::{more_than_settings, unknown_emission};
use tools::endings::ending;
use tools::history::History;
use tools::mistakes;
use tools::program::Run;
use tools::shown::{escaped, steps};
use tools::trace::said;
use tools::warnings::warnings;

const USAGE: &str = "usage: refal0-bench [--emits NAME,NAME..] TABLE SHEET";

struct Asked {
    table: String,
    sheet: String,
    /// The emissions that the device knows, if they are named.
    emits: Option<Vec<String>>,
}

fn main() -> ExitCode {
    command::ended("refal0-bench", benched())
}

fn asked() -> Option<Asked> {
    let mut words = std::env::args().skip(1);
    let (mut paths, mut emits) = (Vec::new(), None);
    while let Some(word) = words.next() {
        match word.as_str() {
            "--emits" => emits = Some(words.next()?.split(',').map(String::from).collect()),
            _ => paths.push(word),
        }
    }
    let [table, sheet] = <[String; 2]>::try_from(paths).ok()?;
    Some(Asked { table, sheet, emits })
}

fn benched() -> Result<u8, String> {
    let Asked { table: path, sheet, emits } = asked().ok_or(USAGE)?;
    let (text, sheet) = (file("table", &path)?, file("sheet", &sheet)?);
    match both(&text, &sheet, 1)? {
        Both::Refused { number, place } => {
            eprintln!("{}", mistakes::said(&path, &text, number, place));
            Ok(command::REFUSED)
        }
        Both::Different(how) => Ok(different(&how)),
        Both::Ran { run, history, .. } if !alike(&run, &history) => Ok(different(&unlike(&run, &history))),
        Both::Ran { table, run, history } => {
            let refused = emits.and_then(|known| {
                let unknown = unknown_emission(&path, &text, &known);
                unknown.or_else(|| more_than_settings(&path, &table, &sheet, &history.outcome))
            });
            if let Some(refused) = refused {
                eprintln!("{refused}");
                return Ok(command::REFUSED);
            }
            let status = shown_run(&text, &table, &run, &history).map_err(|error| error.to_string())?;
            for warning in warnings(&text, &table) {
                eprintln!("warning: {warning}");
            }
            Ok(status)
        }
    }
}

/// Shows a run that both systems end alike.
fn shown_run(text: &[u8], table: &Table, run: &Run, history: &History) -> io::Result<u8> {
    let steps = steps(run.steps);
    if run.answer == 0 {
        let mut output = io::stdout().lock();
        output.write_all(&run.body)?;
        // a result without a line end gets one, so that a screen shows it well
        if run.body.last().is_some_and(|&last| last != 10) {
            output.write_all(b"\n")?;
        }
        output.flush()?;
        eprintln!("done in {steps}");
    } else {
        if !run.body.is_empty() {
            eprintln!("emitted before the run ended early, and not to be used:");
            for line in run.body.strip_suffix(b"\n").unwrap_or(&run.body).split(|&byte| byte == 10) {
                eprintln!("  {}", escaped(line));
            }
        }
        eprintln!("ended with {} after {steps}: {}", run.answer, ending(text, table, run.answer, run.function));
        last_line(table, history);
    }
    show_profile(run);
    Ok(if run.answer == 0 { command::DONE } else { command::EARLY })
}

/// Where the two systems differ nothing is handed to a device, whatever the proved program printed.
fn different(how: &str) -> u8 {
    eprintln!("refal0-bench: the two systems differ, so nothing is set: {how}");
    eprintln!("one of the two is wrong, please tell their developers");
    command::DIFFERENT
}

/// The trace's last line, which shows what the run was doing when it ended.
fn last_line(table: &Table, history: &History) {
    for event in &history.events {
        eprintln!("last traced: {}", said(table, event));
    }
}

/// The functions that were applied, the one with most steps first, each with its share; then those that never were.
fn show_profile(run: &Run) {
    let mut applied: Vec<&(String, u64)> = run.profile.iter().filter(|(_, count)| *count > 0).collect();
    applied.sort_by_key(|(_, count)| std::cmp::Reverse(*count));
    for (name, count) in &applied {
        eprintln!("{count:>8}  {:>3} %  {name}", (200 * count + run.steps) / (2 * run.steps));
    }
    let never: Vec<&str> = run.profile.iter().filter(|(_, count)| *count == 0).map(|(name, _)| name.as_str()).collect();
    if !applied.is_empty() && !never.is_empty() {
        eprintln!("never applied: {}", never.join(" "));
    }
}
