//! Says what room a table's run on a sheet needs: words of code, cells of in and out, bytes of the record, frames,
//! steps; and whether the table is flat. It asks the Refal-0 system written apart alone.

use refal0_apart::corpus::Lending;
use refal0_apart::flat::flat;
use refal0_apart::machine::{self, Rooms};
use refal0_apart::outcome::Outcome;
use refal0_apart::packing;
use refal0_apart::reader::{Refusal, read};
use refal0_apart::tree::Table;
use std::process::ExitCode;
use tools::command::{self, file};
use tools::endings::ending;
use tools::mistakes;
use tools::spot::spot;

const USAGE: &str = "usage: refal0-room TABLE SHEET";

/// Far more of each room than the program lends, yet an end for runs that grow and grow.
const AMPLE: usize = 1 << 24;

fn main() -> ExitCode {
    command::ended("refal0-room", room())
}

fn room() -> Result<u8, String> {
    let paths: Vec<String> = std::env::args().skip(1).collect();
    let [path, sheet] = paths.as_slice() else { return Err(String::from(USAGE)) };
    let (text, sheet) = (file("table", path)?, file("sheet", sheet)?);
    let table = match read(&text) {
        Ok(table) => table,
        Err(Refusal { number, place }) => {
            eprintln!("{}", mistakes::said(path, &text, number, place));
            return Ok(command::REFUSED);
        }
    };
    let code = packing::code(&table);
    let Lending { start, allowance, .. } = Lending::default();
    let rooms = Rooms { stack_in: AMPLE, stack_out: AMPLE, record: AMPLE, frames: AMPLE };
    let (outcome, need) = machine::run(&code, start, &sheet, allowance, rooms);
    println!("code   {} words", code.len());
    println!("in     {} bytes", need.stack_in);
    println!("out    {} bytes", need.stack_out);
    println!("record {} bytes", need.record);
    println!("frames {}", need.frames);
    println!("steps  {}", outcome.steps);
    println!("flat   {}", flatness(&text));
    if outcome.answer == 0 {
        return Ok(command::DONE);
    }
    println!("up to the end with {}: {}", outcome.answer, early(&text, &table, &outcome));
    Ok(command::EARLY)
}

/// Why the run ended early. What is lent here is more than the program lends, of which the other commands speak.
fn early(text: &[u8], table: &Table, outcome: &Outcome) -> String {
    match outcome.answer {
        10 | 13..=16 => format!("it needs a room of more than {AMPLE} bytes, and no larger one is tried"),
        answer => ending(text, table, answer, outcome.function),
    }
}

/// Whether the table is flat, or where the first call stands that isn't a tail call.
fn flatness(table: &[u8]) -> String {
    let Err(Refusal { place, .. }) = flat(table) else { return String::from("yes") };
    let at = spot(table, place);
    format!("no, line {}, column {}", at.line, at.column)
}
