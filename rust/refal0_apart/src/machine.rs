//! The two-stack string machine on any words of code, without end or on lent rooms, with what it needs.

use crate::angles::Operation;
use crate::decoding::{Head, Trial, Words};
use crate::outcome::{Applications, Outcome, Stop};
use crate::reader::{NESTING_LIMIT, SYMBOL_LIMIT};
use crate::translation::{Action, Base, Cell, Length, Metric, Register, Test};
use std::ops::RangeInclusive;

pub const FRAMES: usize = 256;

/// Room for a run: cells of in and out, bytes of the record, frames. Also what a run needs of them.
#[derive(Clone, Copy, PartialEq, Eq, Debug)]
pub struct Rooms {
    pub stack_in: usize,
    pub stack_out: usize,
    pub record: usize,
    pub frames: usize,
}

impl Rooms {
    pub const WITHOUT_END: Rooms =
        Rooms { stack_in: usize::MAX, stack_out: usize::MAX, record: usize::MAX, frames: usize::MAX };

    pub fn lent(stack_in: usize, stack_out: usize, record: usize) -> Rooms {
        Rooms { stack_in, stack_out, record, frames: FRAMES }
    }
}

/// The run without end, stopped before the first instruction that passes a lent room; with the most it needed.
pub fn run(code: &[u32], start: usize, text: &[u8], allowance: u32, rooms: Rooms) -> (Outcome, Rooms) {
    let nothing = Rooms { stack_in: text.len(), stack_out: 0, record: 0, frames: 0 };
    let Some(words) = Words::sound(code) else {
        return (Outcome::refused(18), nothing);
    };
    if start == 0 || start > words.functions() {
        return (Outcome::refused(9), nothing);
    }
    if text.len() > rooms.stack_in {
        return (Outcome::refused(10), nothing);
    }
    let mut machine = Machine::on(words, text, allowance, rooms);
    let end = machine.finish(start);
    let text = std::mem::take(&mut machine.stack_out);
    (Outcome::of(end.map(|()| text), machine.applications, machine.record), machine.need)
}

/// How many actions the run without end performs; the code is a translation and the start declared.
pub fn actions(code: &[u32], start: usize, text: &[u8], allowance: u32) -> u64 {
    let words = Words::sound(code).expect("a translation is sound");
    let mut machine = Machine::on(words, text, allowance, Rooms::WITHOUT_END);
    // a run that stops early has performed actions too
    let _ = machine.finish(start);
    machine.performed
}

struct Machine<'c> {
    words: Words<'c>,
    rooms: Rooms,
    need: Rooms,
    applications: Applications,
    performed: u64,
    /// Stack in from its right end to p: the cell at p is the last one here.
    stack_in: Vec<u8>,
    stack_out: Vec<u8>,
    record: Vec<u8>,
    /// The values of r kept by the BeginSeqs that are open, those of the current application last.
    sequences: Vec<usize>,
    frames: Vec<Frame>,
}

struct Frame {
    /// The place of the next action.
    next: usize,
    stored: Stored,
    field: Field,
    /// How many cells of in lie from q to its right end.
    beyond: usize,
    /// How many BeginSeqs were open when the application began.
    outer: usize,
}

/// The bytes kept by the stores of a sentence.
#[derive(Clone, Copy, Default)]
struct Stored {
    bytes: [u8; SYMBOL_LIMIT],
    count: usize,
}

/// The sentence that fits, or the number of the function that recovers, 0 for none.
enum Choice {
    Fits(Head, Field),
    Recovered(usize),
}

/// d and i - p of a field; without a middle template i is p.
#[derive(Clone, Copy)]
struct Field {
    d: usize,
    dl: usize,
}

impl Field {
    /// How far a span reaches; below zero counts as zero.
    fn measure(self, length: Length) -> usize {
        let base = match length.base {
            Base::Null => 0,
            Base::D => self.d,
            Base::Dl => self.dl,
            Base::Dr => self.d - self.dl,
        };
        (base + length.add).saturating_sub(length.back)
    }

    /// How far from p a cell of the field lies; q is the one after the last.
    fn bound(self, cell: Cell) -> Option<usize> {
        let distance = match cell.register {
            Register::P => cell.offset,
            Register::Q => self.d.checked_sub(cell.offset)?,
            Register::I => self.dl + cell.offset,
        };
        (distance <= self.d).then_some(distance)
    }

    /// How far from p a cell lies, if the field has it.
    fn distance(self, cell: Cell) -> Option<usize> {
        self.bound(cell).filter(|&distance| distance < self.d)
    }
}

/// The places from p on at which the middle template may stand, if the field has the lengths that are asked.
fn places(metric: &Metric, d: usize) -> Option<RangeInclusive<usize>> {
    let spare = d.checked_sub(metric.head + metric.middle + metric.tail)?;
    match metric.parts {
        0 if spare > 0 => None,
        2 => Some(metric.head..=metric.head + spare),
        _ => Some(0..=0),
    }
}

/// Notes a need; it stops the run if it passes its room.
fn note(most: &mut usize, need: usize, room: usize, answer: u64) -> Result<(), Stop> {
    if need > room {
        return Err(Stop::because(answer));
    }
    *most = need.max(*most);
    Ok(())
}

/// Words that are no instruction, or name something that isn't there, stop the run where they are reached.
fn there<T>(found: Option<T>) -> Result<T, Stop> {
    found.ok_or(Stop::because(18))
}

impl<'c> Machine<'c> {
    fn on(words: Words<'c>, text: &[u8], allowance: u32, rooms: Rooms) -> Machine<'c> {
        Machine {
            words,
            rooms,
            need: Rooms { stack_in: text.len(), stack_out: 0, record: 0, frames: 0 },
            applications: Applications::allowed(allowance),
            performed: 0,
            stack_in: text.iter().rev().copied().collect(),
            stack_out: Vec::new(),
            record: Vec::new(),
            sequences: Vec::new(),
            frames: Vec::new(),
        }
    }

    fn finish(&mut self, start: usize) -> Result<(), Stop> {
        self.apply(start, 0)?;
        while let Some(frame) = self.frames.last_mut() {
            match there(self.words.action(frame.next))? {
                Some(action) => {
                    frame.next += 1 + if let Action::Emit(name) = action { name.len() } else { 0 };
                    self.performed += 1;
                    self.perform(action)?;
                }
                None => self.give_back(),
            }
        }
        Ok(())
    }

    fn frame(&mut self) -> &mut Frame {
        self.frames.last_mut().expect("an action runs in a frame")
    }

    /// Takes the current frame away, with the BeginSeqs that are still open in it.
    fn drop_frame(&mut self) -> Frame {
        let frame = self.frames.pop().expect("an application has a frame");
        self.sequences.truncate(frame.outer);
        frame
    }

    /// Ends the current application. Its caller's q is where it was, or p where that has passed it.
    fn give_back(&mut self) {
        self.drop_frame();
        let from_p = self.stack_in.len();
        if let Some(caller) = self.frames.last_mut() {
            caller.beyond = caller.beyond.min(from_p);
        }
    }

    fn perform(&mut self, action: Action<&[u32]>) -> Result<(), Stop> {
        match action {
            Action::Go(length) => self.go(length),
            Action::Select(length) => self.select(length),
            Action::Out => self.out(),
            Action::OutC(byte) => self.write(byte),
            Action::OutV(symbol) => self.write_stored(symbol),
            Action::BeginSeq => self.begin_seq(),
            Action::UseSeq => self.use_seq(),
            Action::Call(function) => {
                let beyond = self.frame().beyond;
                self.apply(function, beyond)
            }
            Action::TailCall(function) => {
                let beyond = self.drop_frame().beyond;
                self.apply(function, beyond)
            }
            Action::Emit(name) => self.emit(name),
            Action::Compute(operation) => self.compute(operation),
        }
    }

    fn go(&mut self, length: Length) -> Result<(), Stop> {
        let passed = self.frame().field.measure(length);
        let rest = there(self.stack_in.len().checked_sub(passed))?;
        self.stack_in.truncate(rest);
        self.frame().beyond = rest;
        Ok(())
    }

    fn select(&mut self, length: Length) -> Result<(), Stop> {
        let frame = self.frame();
        frame.beyond = there(frame.beyond.checked_sub(frame.field.measure(length)))?;
        Ok(())
    }

    fn out(&mut self) -> Result<(), Stop> {
        let q = self.frame().beyond;
        let length = self.stack_in.len() - q;
        note(&mut self.need.stack_out, self.stack_out.len() + length, self.rooms.stack_out, 14)?;
        self.stack_out.extend(self.stack_in.drain(q..).rev());
        Ok(())
    }

    fn write(&mut self, byte: u8) -> Result<(), Stop> {
        note(&mut self.need.stack_out, self.stack_out.len() + 1, self.rooms.stack_out, 14)?;
        self.stack_out.push(byte);
        Ok(())
    }

    fn write_stored(&mut self, symbol: usize) -> Result<(), Stop> {
        let Stored { bytes, count } = self.frame().stored;
        let byte = there(bytes[..count].get(symbol).copied())?;
        self.write(byte)
    }

    /// How many BeginSeqs are open in the current application.
    fn open(&mut self) -> usize {
        let outer = self.frame().outer;
        self.sequences.len() - outer
    }

    fn begin_seq(&mut self) -> Result<(), Stop> {
        there((self.open() < NESTING_LIMIT).then_some(()))?;
        self.sequences.push(self.stack_out.len());
        Ok(())
    }

    /// Moves what was written since BeginSeq to just below p; q stays where it is.
    fn use_seq(&mut self) -> Result<(), Stop> {
        there((self.open() > 0).then_some(()))?;
        let begin = self.sequences.pop().expect("a BeginSeq is open");
        let length = self.stack_out.len() - begin;
        note(&mut self.need.stack_in, self.stack_in.len() + length, self.rooms.stack_in, 13)?;
        self.stack_in.extend(self.stack_out.drain(begin..).rev());
        Ok(())
    }

    /// Adds a line to the record; the name's words are bytes.
    fn emit(&mut self, name: &[u32]) -> Result<(), Stop> {
        let q = self.frame().beyond;
        let whole = self.record.len() + name.len() + 1 + (self.stack_in.len() - q) + 1;
        note(&mut self.need.record, whole, self.rooms.record, 16)?;
        self.record.extend(name.iter().map(|&word| word as u8));
        self.record.push(32);
        self.record.extend(self.stack_in.drain(q..).rev());
        self.record.push(10);
        Ok(())
    }

    /// Puts what two angles come to on out, and passes them.
    fn compute(&mut self, operation: Operation) -> Result<(), Stop> {
        let q = self.frame().beyond;
        let argument: Vec<u8> = self.stack_in[q..].iter().rev().copied().collect();
        let result = operation.of_text(&argument).map_err(Stop::because)?;
        note(&mut self.need.stack_out, self.stack_out.len() + result.len(), self.rooms.stack_out, 14)?;
        self.stack_out.extend(result);
        self.stack_in.truncate(q);
        Ok(())
    }

    /// Applies a function in a new frame to the field from p to q, which `beyond` cells lie right of.
    fn apply(&mut self, mut function: usize, beyond: usize) -> Result<(), Stop> {
        self.applications.ask()?;
        note(&mut self.need.frames, self.frames.len() + 1, self.rooms.frames, 15)?;
        let d = self.stack_in.len() - beyond;
        loop {
            self.applications.make(function);
            function = match self.choose(function, d)? {
                Choice::Fits(head, field) => return self.enter(&head, field),
                Choice::Recovered(0) => return Err(Stop { answer: 11, function }),
                Choice::Recovered(recoverer) => there(self.words.declared(recoverer))?,
            };
            self.applications.ask()?;
        }
    }

    /// The first sentence of the function that fits a field of this length.
    fn choose(&self, function: usize, d: usize) -> Result<Choice, Stop> {
        let mut at = self.words.place(function);
        loop {
            let head = match there(self.words.trial(at))? {
                Trial::Sentence(head) => head,
                Trial::EndOfFunction(recoverer) => return Ok(Choice::Recovered(recoverer)),
            };
            if let Some(field) = self.find(&head, d)? {
                return Ok(Choice::Fits(head, field));
            }
            at = head.next_sentence;
        }
    }

    /// Begins a sentence that fits: q is p at first, and no BeginSeq is open.
    fn enter(&mut self, head: &Head, field: Field) -> Result<(), Stop> {
        let mut stored = Stored::default();
        for at in head.stores.clone() {
            stored.bytes[stored.count] = self.byte(field, there(self.words.store(at))?)?;
            stored.count += 1;
        }
        let (beyond, outer) = (self.stack_in.len(), self.sequences.len());
        self.frames.push(Frame { next: head.stores.end, stored, field, beyond, outer });
        Ok(())
    }

    /// The field in which all tests hold, with the middle template at its leftmost such place.
    fn find(&self, head: &Head, d: usize) -> Result<Option<Field>, Stop> {
        let Some(places) = places(&head.metric, d) else { return Ok(None) };
        for dl in places {
            let field = Field { d, dl };
            if self.tests_hold(head, field)? {
                return Ok(Some(field));
            }
        }
        Ok(None)
    }

    /// Makes the tests in their order, up to the first that fails.
    fn tests_hold(&self, head: &Head, field: Field) -> Result<bool, Stop> {
        for at in head.tests.clone() {
            if !self.holds(field, there(self.words.test(at))?)? {
                return Ok(false);
            }
        }
        Ok(true)
    }

    fn byte(&self, field: Field, cell: Cell) -> Result<u8, Stop> {
        let distance = there(field.distance(cell))?;
        Ok(self.stack_in[self.stack_in.len() - 1 - distance])
    }

    /// The cells from one up to another, which is not among them, the last first.
    fn part(&self, field: Field, from: Cell, to: Cell) -> Result<&[u8], Stop> {
        let p = self.stack_in.len();
        let (from, to) = (there(field.bound(from))?, there(field.bound(to))?);
        there(self.stack_in.get(p - to..p - from))
    }

    fn holds(&self, field: Field, test: Test) -> Result<bool, Stop> {
        Ok(match test {
            Test::Look(cell, byte) => self.byte(field, cell)? == byte,
            Test::Compare(one, other) => self.byte(field, one)? == self.byte(field, other)?,
            Test::Predicate(cell, class, expected) => class.holds(self.byte(field, cell)?) == expected,
            Test::PredicatePart(from, to, class, expected) => {
                self.part(field, from, to)?.iter().all(|&byte| class.holds(byte)) == expected
            }
        })
    }
}
