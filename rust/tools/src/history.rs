//! What a run does, event by event, by the Refal-0 system written apart; and how it ends on the program's rooms.

use crate::reason::reason;
use crate::shown::{cut, named, quoted};
use refal0_apart::angles::Operation;
use refal0_apart::corpus::Lending;
use refal0_apart::outcome::Outcome;
use refal0_apart::packing;
use refal0_apart::rewriter::{Values, Watcher, rewrite_watched};
use refal0_apart::tree::{Letter, Sentence, Table};
use std::collections::VecDeque;

/// At most so many characters of a variable's text are shown on the page.
const PIECE_WIDTH: usize = 200;

/// One thing that a run does, and how many applications wait for it.
pub struct Event {
    pub waiting: usize,
    pub kind: Kind,
}

pub enum Kind {
    Application(Application),
    /// A line of the record, without its line end; and the record's length with it.
    Emission {
        line: Vec<u8>,
        record: usize,
    },
    /// An angle call: its name and argument, and its result or the answer that it stops the run with.
    Angles {
        name: String,
        argument: String,
        result: Result<String, u64>,
    },
}

pub struct Application {
    pub step: u64,
    /// The function's index.
    pub function: usize,
    pub text: String,
    pub taken: Taken,
}

/// What came of the text that a function was given.
pub enum Taken {
    /// By the sentence of this index: the text piece by piece, and each variable with its text.
    By { sentence: usize, pieces: Vec<Piece>, variables: Vec<(String, String)> },
    /// No sentence fits; the function of this index recovers it.
    Recovered(usize),
    /// No sentence fits, and why that may be.
    Not(Option<String>),
}

/// A piece of a text: what the pattern has there, and the bytes.
pub struct Piece {
    /// The variable's name; nothing for characters of the pattern.
    pub variable: Option<String>,
    pub text: String,
}

/// The events of a run, or its last ones, and its end.
pub struct History {
    pub events: VecDeque<Event>,
    /// How many events there were before those.
    pub before: usize,
    pub outcome: Outcome,
}

/// Runs function 1 of a table on a text, with what the program lends, and keeps the last events.
pub fn history(table: &Table, text: &[u8], last: usize) -> History {
    lent_history(table, &Lending { text: text.to_vec(), ..Lending::default() }, last)
}

/// The same with other rooms, start and allowance.
pub fn lent_history(table: &Table, lending: &Lending, last: usize) -> History {
    let outcome = lending.run(&packing::code(table));
    // where a room was passed the rewriting makes no more steps than the run made, and what it does besides is dropped
    let allowance = if matches!(outcome.answer, 13..=16) { outcome.steps as u32 } else { lending.allowance };
    // the last events belong to the last steps
    let first = outcome.steps.saturating_sub(last as u64);
    let mut recorder = Recorder { table, first, events: VecDeque::new(), before: 0, steps: 0, record: 0 };
    if !outcome.before_run() {
        rewrite_watched(table, lending.start, &lending.text, allowance, &mut recorder);
    }
    recorder.drop_unmade(outcome.record.len());
    recorder.keep(last);
    History { events: recorder.events, before: recorder.before, outcome }
}

struct Recorder<'t> {
    table: &'t Table,
    /// Events up to this step are counted, and not kept.
    first: u64,
    events: VecDeque<Event>,
    /// How many events are not kept.
    before: usize,
    steps: u64,
    record: usize,
}

impl Recorder<'_> {
    /// Keeps an event, or counts it.
    fn note(&mut self, waiting: usize, kind: impl FnOnce(&Self) -> Kind) {
        if self.steps > self.first {
            let kind = kind(self);
            self.events.push_back(Event { waiting, kind });
        } else {
            self.before += 1;
        }
    }

    fn keep(&mut self, last: usize) {
        while self.events.len() > last {
            self.events.pop_front();
            self.before += 1;
        }
    }

    /// Drops what rewriting did after the room was passed: an emission that the record has no room for, and what
    /// follows it.
    fn drop_unmade(&mut self, record: usize) {
        let unmade = |event: &Event| matches!(event.kind, Kind::Emission { record: length, .. } if length > record);
        if let Some(first) = self.events.iter().position(unmade) {
            self.events.truncate(first);
        }
    }

    fn taken(&self, function: usize, text: &[u8], chosen: Option<(usize, &Values)>) -> Taken {
        match chosen {
            Some((index, values)) => {
                let sentence = &self.table.functions[function].sentences[index];
                let (pieces, variables) = (pieces(sentence, text, values), variables(sentence, text, values));
                Taken::By { sentence: index, pieces, variables }
            }
            None => match self.table.recoverer(function) {
                Some(recoverer) => Taken::Recovered(recoverer),
                None => Taken::Not(reason(&self.table.functions[function], text)),
            },
        }
    }
}

impl Watcher for Recorder<'_> {
    fn applied(&mut self, waiting: usize, function: usize, text: &[u8], chosen: Option<(usize, &Values)>) {
        self.steps += 1;
        self.note(waiting, |recorder| {
            let taken = recorder.taken(function, text, chosen);
            Kind::Application(Application { step: recorder.steps, function, text: quoted(text), taken })
        });
    }

    fn emitted(&mut self, waiting: usize, name: &[u8], argument: &[u8]) {
        let line = [name, b" ", argument].concat();
        self.record += line.len() + 1;
        self.note(waiting, |recorder| Kind::Emission { line, record: recorder.record });
    }

    fn computed(&mut self, waiting: usize, operation: Operation, argument: &[u8], result: &Result<Vec<u8>, u64>) {
        self.note(waiting, |_| {
            let name = named(operation.name());
            let result = result.as_ref().map(|angle| quoted(angle)).map_err(|&answer| answer);
            Kind::Angles { name, argument: quoted(argument), result }
        });
    }
}

fn name(kind: char, identifier: &[u8]) -> String {
    format!("{kind}{}", String::from_utf8_lossy(identifier))
}

/// The different variables in the pattern's order, each with its text.
fn variables(sentence: &Sentence, text: &[u8], values: &Values) -> Vec<(String, String)> {
    let mut found: Vec<(String, String)> = Vec::new();
    for (index, template) in sentence.templates.iter().enumerate() {
        if let Some(part) = index.checked_sub(1) {
            let (from, to) = values.parts[part];
            found.push((name('e', &sentence.parts[part]), quoted(&text[from..to])));
        }
        for letter in template {
            let Letter::Symbol(symbol) = *letter else { continue };
            let variable = name('s', &sentence.symbols[symbol]);
            if !found.iter().any(|(known, _)| *known == variable) {
                found.push((variable, quoted(values.symbols[symbol].as_slice())));
            }
        }
    }
    found
}

/// The text cut at the borders of characters, s-variables and e-variables; neighbouring characters are one piece.
fn pieces(sentence: &Sentence, text: &[u8], values: &Values) -> Vec<Piece> {
    let mut pieces: Vec<Piece> = Vec::new();
    let mut characters = Vec::new();
    let mut add = |characters: &mut Vec<u8>, variable: Option<String>, bytes: &[u8]| {
        if !characters.is_empty() {
            pieces.push(Piece { variable: None, text: cut(characters, PIECE_WIDTH) });
            characters.clear();
        }
        if variable.is_some() {
            pieces.push(Piece { variable, text: cut(bytes, PIECE_WIDTH) });
        }
    };
    for (index, template) in sentence.templates.iter().enumerate() {
        if let Some(part) = index.checked_sub(1) {
            let (from, to) = values.parts[part];
            add(&mut characters, Some(name('e', &sentence.parts[part])), &text[from..to]);
        }
        for letter in template {
            match *letter {
                Letter::Byte(byte) => characters.push(byte),
                Letter::Symbol(symbol) => {
                    let variable = name('s', &sentence.symbols[symbol]);
                    add(&mut characters, Some(variable), values.symbols[symbol].as_slice());
                }
            }
        }
    }
    add(&mut characters, None, &[]);
    pieces
}
