//! Lays a table out in the form of its listing, with its comments. The proved engine lists the table and what was made
//! of it: only where both listings are equal, and so both trees, is anything printed.

use refal0::{Refused, list};
use refal0_apart::reader::read;
use std::io::{self, Write};
use std::process::ExitCode;
use tools::command::{self, file};
use tools::layout::laid_out;
use tools::mistakes::said;

fn main() -> ExitCode {
    command::ended("refal0-format", formatted())
}

fn formatted() -> Result<u8, String> {
    let words: Vec<String> = std::env::args().skip(1).collect();
    let [path] = words.as_slice() else { return Err(String::from("usage: refal0-format TABLE")) };
    let text = file("table", path)?;
    let listing = match list(&text) {
        Ok(listing) => listing,
        Err(Refused { answer, place }) => {
            eprintln!("{}", said(path, &text, answer.number(), place));
            return Ok(command::REFUSED);
        }
    };
    let tree = read(&text).map_err(|_| "the two systems differ about this table")?;
    let output = laid_out(&text, &tree);
    match list(&output) {
        Ok(again) if again == listing => {}
        Ok(_) => return Err(String::from("the table would not be the same; nothing is printed")),
        Err(refused) => return Err(format!("laid out anew, the table would be {refused}; nothing is printed")),
    }
    io::stdout().write_all(&output).map_err(|error| error.to_string())?;
    Ok(command::DONE)
}
