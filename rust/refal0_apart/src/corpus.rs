//! Corpus files: tables with texts and what they come to, in lines of the form `key: value`.
//!
//! `table: ` begins a table, `more: ` adds a line to it; `escaped: ` is a whole table with escapes,
//! `padded: length table` one with blanks after it up to that length; `code: ` has words of code in place of a table.
//! `text: ` is a text for the last table or code; a line `with: name=number ...` before it changes what is lent.
//! `gives: answer function steps`, `counts: ` (the functions' applications, up to the last that isn't 0), `result: `
//! and `record: ` (each left out if empty) say what the text comes to;
//! `refused: number place` stands for a table that is refused; `flat: number place functions` says whether a table is
//! flat. Texts, results and records have the escapes `\n`, `\t`, `\\` and `\xHH`. Empty lines and lines that begin
//! with `#` are passed over.

use crate::machine::{self, Rooms};
use crate::outcome::{Counts, Outcome};
use crate::packing;
use crate::reader::{Refusal, read};
use crate::rewriter::rewrite;

pub struct Case {
    /// The line in the file, from 1, at which the case stands.
    pub line: usize,
    pub source: Source,
    pub expected: Expected,
}

/// What is run: a table, or any words as code.
#[derive(Clone, PartialEq, Eq, Debug)]
pub enum Source {
    Table(Vec<u8>),
    Code(Vec<u32>),
}

#[derive(Clone, PartialEq, Eq, Debug)]
pub enum Expected {
    Refused(Refusal),
    /// Number, place, functions: what the test for a flat table answers.
    Flat([u64; 3]),
    Run(Lending, Outcome),
}

/// What a run is handed besides the code.
#[derive(Clone, PartialEq, Eq, Debug)]
pub struct Lending {
    pub start: usize,
    pub text: Vec<u8>,
    pub allowance: u32,
    pub rooms: Rooms,
}

impl Default for Lending {
    fn default() -> Lending {
        let rooms = Rooms::lent(32_768, 32_768, 32_768);
        Lending { start: 1, text: Vec::new(), allowance: 100_000, rooms }
    }
}

impl Lending {
    /// The machine's run of these words.
    pub fn run(&self, code: &[u32]) -> Outcome {
        machine::run(code, self.start, &self.text, self.allowance, self.rooms).0
    }
}

/// What this system makes of a source and a text: the lent run's outcome; a table's is the rewriting's where room
/// suffices.
pub fn outcome(source: &Source, lending: &Lending) -> Result<Outcome, Refusal> {
    let tree = match source {
        Source::Table(table) => read(table)?,
        Source::Code(code) => return Ok(lending.run(code)),
    };
    let lent = lending.run(&packing::code(&tree));
    if matches!(lent.answer, 0 | 9 | 11 | 12 | 20 | 21) {
        let rewritten = rewrite(&tree, lending.start, &lending.text, lending.allowance);
        assert_eq!(lent, rewritten, "machine and rewriter differ");
    }
    Ok(lent)
}

pub fn key_and_value(line: &[u8]) -> Option<(&[u8], &[u8])> {
    let colon = line.iter().position(|&byte| byte == b':')?;
    let value = &line[colon + 1..];
    Some((&line[..colon], value.strip_prefix(b" ").unwrap_or(value)))
}

/// The cases of a corpus file, or what is wrong with one of its lines.
pub fn parse(file: &[u8]) -> Result<Vec<Case>, String> {
    let mut parser = Parser { cases: Vec::new(), source: Source::Table(Vec::new()), lending: Lending::default() };
    for (number, line) in file.split(|&byte| byte == 10).enumerate() {
        if line.is_empty() || line[0] == b'#' {
            continue;
        }
        let taken = key_and_value(line).and_then(|(key, value)| parser.line(number + 1, key, value));
        taken.ok_or_else(|| format!("line {}: {}", number + 1, String::from_utf8_lossy(line)))?;
    }
    Ok(parser.cases)
}

struct Parser {
    cases: Vec<Case>,
    source: Source,
    lending: Lending,
}

impl Parser {
    fn line(&mut self, number: usize, key: &[u8], value: &[u8]) -> Option<()> {
        match key {
            b"table" => self.source = Source::Table(value.to_vec()),
            b"escaped" => self.source = Source::Table(unescape(value)?),
            b"padded" => self.source = Source::Table(padded(value)?),
            b"more" => {
                let Source::Table(table) = &mut self.source else { return None };
                table.push(10);
                table.extend_from_slice(value);
            }
            b"code" => self.source = Source::Code(words(value)?),
            b"with" => self.lending = with(value)?,
            b"text" => {
                let lending = Lending { text: unescape(value)?, ..std::mem::take(&mut self.lending) };
                self.case(number, Expected::Run(lending, Outcome::refused(0)));
            }
            b"refused" => {
                let [refused, place] = numbers(value)?[..] else { return None };
                self.case(number, Expected::Refused(Refusal { number: refused, place: place as usize }));
            }
            b"flat" => self.case(number, Expected::Flat(numbers(value)?.try_into().ok()?)),
            _ => return self.result_line(key, value),
        }
        Some(())
    }

    fn case(&mut self, line: usize, expected: Expected) {
        self.cases.push(Case { line, source: self.source.clone(), expected });
    }

    fn result_line(&mut self, key: &[u8], value: &[u8]) -> Option<()> {
        let Expected::Run(_, outcome) = &mut self.cases.last_mut()?.expected else { return None };
        match key {
            b"gives" => {
                let [answer, function, steps] = numbers(value)?[..] else { return None };
                (outcome.answer, outcome.function, outcome.steps) = (answer, function as usize, steps);
            }
            b"counts" => outcome.counts = Counts::of(&numbers(value)?)?,
            b"result" => outcome.text = unescape(value)?,
            b"record" => outcome.record = unescape(value)?,
            _ => return None,
        }
        Some(())
    }
}

fn numbers(value: &[u8]) -> Option<Vec<u64>> {
    let value = std::str::from_utf8(value).ok()?;
    value.split(' ').map(|number| number.parse().ok()).collect()
}

fn padded(value: &[u8]) -> Option<Vec<u8>> {
    let blank = value.iter().position(|&byte| byte == b' ')?;
    let mut table = value[blank + 1..].to_vec();
    table.resize(numbers(&value[..blank])?[0] as usize, b' ');
    Some(table)
}

fn words(value: &[u8]) -> Option<Vec<u32>> {
    if value.is_empty() {
        return Some(Vec::new());
    }
    numbers(value)?.into_iter().map(|number| u32::try_from(number).ok()).collect()
}

/// What is lent for the next text; what is not named is as the program of the papers lends it.
fn with(value: &[u8]) -> Option<Lending> {
    let mut lending = Lending::default();
    for setting in std::str::from_utf8(value).ok()?.split(' ') {
        let (name, number) = setting.split_once('=')?;
        let number: usize = number.parse().ok()?;
        match name {
            "start" => lending.start = number,
            "allowance" => lending.allowance = u32::try_from(number).ok()?,
            "in" => lending.rooms.stack_in = number,
            "out" => lending.rooms.stack_out = number,
            "record" => lending.rooms.record = number,
            _ => return None,
        }
    }
    Some(lending)
}

pub fn unescape(value: &[u8]) -> Option<Vec<u8>> {
    let mut bytes = Vec::new();
    let mut rest = value.iter().copied();
    while let Some(byte) = rest.next() {
        if byte != b'\\' {
            bytes.push(byte);
            continue;
        }
        bytes.push(match rest.next()? {
            b'n' => 10,
            b't' => 9,
            b'\\' => b'\\',
            b'x' => {
                let digits = [rest.next()?, rest.next()?];
                u8::from_str_radix(std::str::from_utf8(&digits).ok()?, 16).ok()?
            }
            _ => return None,
        });
    }
    Some(bytes)
}

pub fn escape(bytes: &[u8]) -> String {
    let mut value = String::new();
    for (number, &byte) in bytes.iter().enumerate() {
        let at_end = number == 0 || number + 1 == bytes.len();
        match byte {
            10 => value.push_str("\\n"),
            9 => value.push_str("\\t"),
            b'\\' => value.push_str("\\\\"),
            // a blank at either end would be lost to the eye
            32 if at_end => value.push_str("\\x20"),
            32..=126 => value.push(char::from(byte)),
            _ => value.push_str(&format!("\\x{byte:02x}")),
        }
    }
    value
}
