//! Shows what a table does with a sheet, application by application.

use refal0_apart::tree::Table;
use std::fs;
use std::process::ExitCode;
use tools::command::{self, Both, alike, both, file, unlike};
use tools::history::History;
use tools::mistakes;
use tools::page::page;
use tools::trace::{BY_WHOM, closing, lines};

const USAGE: &str = "usage: refal0-trace TABLE SHEET [--last N | --html PAGE]";

const ALIKE: &str = "the proved program ends alike: answer, steps, emissions and result";
const UNLIKE: &str = "THE PROVED PROGRAM ENDS OTHERWISE";

struct Asked {
    table: String,
    sheet: String,
    last: usize,
    /// The page that is written instead of lines.
    html: Option<String>,
}

fn main() -> ExitCode {
    command::ended("refal0-trace", traced())
}

fn asked() -> Option<Asked> {
    let mut words = std::env::args().skip(1);
    let mut paths = Vec::new();
    let (mut last, mut html) = (None, None);
    while let Some(word) = words.next() {
        match word.as_str() {
            "--html" => html = Some(words.next()?),
            "--last" => last = Some(words.next()?.parse().ok()?),
            _ => paths.push(word),
        }
    }
    let [table, sheet] = <[String; 2]>::try_from(paths).ok()?;
    // a page has all events, since it shows what waits
    let one = last.is_none() || html.is_none();
    one.then(|| Asked { table, sheet, last: last.unwrap_or(usize::MAX), html })
}

fn traced() -> Result<u8, String> {
    let Asked { table: path, sheet, last, html } = asked().ok_or(USAGE)?;
    let (table, text) = (file("table", &path)?, file("sheet", &sheet)?);
    let (table, run, history) = match both(&table, &text, last)? {
        Both::Refused { number, place } => {
            eprintln!("{}", mistakes::said(&path, &table, number, place));
            return Ok(command::REFUSED);
        }
        Both::Different(how) => return Ok(different(&how)),
        Both::Ran { table, run, history } => (table, run, history),
    };
    let closing = closing(&table, &history);
    let alike = alike(&run, &history);
    let compared = if alike { ALIKE } else { UNLIKE };
    match html {
        Some(page_path) => {
            let title = format!("{path} on {sheet}");
            let page = page(&title, &table, &history, &closing, &format!("{BY_WHOM}; {compared}."));
            fs::write(&page_path, page).map_err(|error| format!("{page_path} can't be written: {error}"))?;
        }
        None => show(&table, &history, &closing, compared),
    }
    Ok(match run.answer {
        _ if !alike => different(&unlike(&run, &history)),
        0 => command::DONE,
        _ => command::EARLY,
    })
}

fn show(table: &Table, history: &History, closing: &str, compared: &str) {
    println!("{BY_WHOM}");
    if history.before > 0 {
        println!("        .. {} lines before", history.before);
    }
    for line in lines(table, history) {
        println!("{line}");
    }
    println!("{closing}\n{compared}");
}

fn different(how: &str) -> u8 {
    eprintln!("refal0-trace: NOT the proved program's run, don't rely on this trace: {how}");
    command::DIFFERENT
}
