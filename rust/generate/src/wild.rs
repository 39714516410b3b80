//! Wild code: valid instructions in any order, changed translations, and words that never were any.

use crate::angles;
use crate::random::Random;
use crate::trees;
use refal0_apart::angles::Operation;
use refal0_apart::class::Class;
use refal0_apart::corpus::Lending;
use refal0_apart::machine::{FRAMES, Rooms};
use refal0_apart::packing::{self, BASES, REGISTERS, number, pack};
use refal0_apart::reader::{FUNCTION_LIMIT, NAME_LIMIT, NESTING_LIMIT, SYMBOL_LIMIT};
use refal0_apart::translation::{Action, Base, Cell, Code, FunctionCode, Length, Metric, Program, Register, Test};

/// Few different bytes, so that tests often hold.
const BYTES: &[u8] = b"aab/0 ";

/// Code, and how many functions it was made with.
pub fn code(random: &mut Random) -> (Vec<u32>, usize) {
    match random.below(8) {
        0 => (rubbish(random), 1),
        1 | 2 => {
            let table = trees::table(random);
            (changed(random, packing::code(&table)), table.functions.len())
        }
        _ => {
            let program = program(random);
            let words = pack(&program);
            let words = if random.one_in(4) { changed(random, words) } else { words };
            (words, program.functions.len())
        }
    }
}

/// What a run of wild code is lent: rooms often small, the start mostly one of its functions.
pub fn lending(random: &mut Random, functions: usize) -> Lending {
    let text: Vec<u8> = match random.below(12) {
        0 => angles::argument(random),
        _ => (0..random.below(13)).map(|_| random.pick(BYTES)).collect(),
    };
    let start =
        if random.one_in(25) { random.pick(&[0, functions + 1, 5, usize::MAX]) } else { 1 + random.below(functions) };
    let stack_in = if random.one_in(40) { random.below(text.len() + 1) } else { text.len() + room(random, 4) };
    let rooms = Rooms::lent(stack_in, room(random, 9), room(random, 20));
    let allowance = if random.one_in(12) { FRAMES - 1 + random.below(4) } else { random.below(30) };
    Lending { start, text, allowance: allowance as u32, rooms }
}

fn room(random: &mut Random, small: usize) -> usize {
    if random.one_in(4) { random.below(small) } else { 100 }
}

/// Words that never were code.
fn rubbish(random: &mut Random) -> Vec<u32> {
    let length = random.below(40);
    let mut words: Vec<u32> = (0..length).map(|_| word(random)).collect();
    if length > 1 && !random.one_in(4) {
        // a sound function table, so that the words are run
        words[..2].copy_from_slice(&[1, 2]);
    }
    words
}

fn word(random: &mut Random) -> u32 {
    match random.below(8) {
        0 => random.number() as u32,
        1 => u32::MAX - random.below(3) as u32,
        2 => 1 << random.below(32),
        3 => random.below(300) as u32,
        4 => instruction(random),
        // an instruction with small operands
        _ => instruction(random) + ((random.below(4) + (random.below(3) << 8) + (random.below(3) << 16)) << 8) as u32,
    }
}

/// A word's number, seldom one that no word has.
fn instruction(random: &mut Random) -> u32 {
    random.below(usize::from(number::LAST) + 2) as u32
}

fn changed(random: &mut Random, mut code: Vec<u32>) -> Vec<u32> {
    for _ in 0..1 + random.below(4) {
        change(random, &mut code);
    }
    code
}

fn change(random: &mut Random, code: &mut Vec<u32>) {
    if code.is_empty() {
        return;
    }
    let at = random.below(code.len());
    let other = random.below(code.len());
    match random.below(10) {
        0 => code[at] = word(random),
        1 => code[at] ^= 1 << random.below(32),
        2 => code[at] = code[at].wrapping_add(1),
        3 => code[at] = code[at].wrapping_sub(1),
        4..=5 => code[at] = operand_changed(random, code[at]),
        6 => code.swap(at, other),
        7 => code[at] = code[other],
        8 => drop(code.remove(at)),
        _ if random.one_in(2) => code.insert(at, word(random)),
        _ => code.truncate(at),
    }
}

/// The word with another number, mostly small, for one of its operands.
fn operand_changed(random: &mut Random, word: u32) -> u32 {
    let mut bytes = word.to_le_bytes();
    let number = if random.one_in(3) { random.byte() } else { random.below(20) as u8 };
    // the first operand is the one that most words have
    bytes[random.pick(&[1, 1, 2, 3])] = number;
    u32::from_le_bytes(bytes)
}

/// Valid instructions in any order: functions that call each other, sentences with sound heads.
fn program(random: &mut Random) -> Program {
    // at times about as many as are counted
    let count = if random.one_in(200) { FUNCTION_LIMIT - 1 + random.below(3) } else { 1 + random.below(4) };
    Program { functions: (0..count).map(|_| function(random, count)).collect() }
}

fn function(random: &mut Random, functions: usize) -> FunctionCode {
    let count = random.below(3);
    let mut sentences: Vec<Code> = (0..count).map(|_| sentence(random, functions)).collect();
    if !random.one_in(6) {
        sentences.push(catch_all(random, functions));
    }
    let recoverer = if random.one_in(2) { callee(random, functions) } else { 0 };
    FunctionCode { sentences, recoverer }
}

/// The number of a function, seldom one that isn't there.
fn callee(random: &mut Random, functions: usize) -> usize {
    if random.one_in(40) {
        return random.pick(&[0, functions + 1, 256, 0xff_ffff]);
    }
    1 + random.below(functions)
}

fn sentence(random: &mut Random, functions: usize) -> Code {
    let metric = metric(random);
    let tests = (0..random.below(3)).map(|_| test(random, &metric)).collect();
    let stores = if random.one_in(100) { SYMBOL_LIMIT + random.below(2) } else { random.below(3) };
    let store = (0..stores).map(|_| cell(random, &metric)).collect();
    Code { metric, tests, store, actions: actions(random, functions, stores) }
}

/// A sentence that fits every field, so that runs go on.
fn catch_all(random: &mut Random, functions: usize) -> Code {
    let metric = Metric { head: 0, middle: 0, tail: 0, parts: 1 + random.below(2) };
    Code { metric, tests: Vec::new(), store: Vec::new(), actions: actions(random, functions, 0) }
}

fn metric(random: &mut Random) -> Metric {
    let mut length = || random.pick(&[0, 0, 0, 1, 1, 2]);
    let (head, middle, tail) = (length(), length(), length());
    match random.below(6) {
        0 => Metric { head: head + tail, middle: 0, tail: 0, parts: 0 },
        1 | 2 => Metric { head, middle: 0, tail, parts: 1 },
        _ => Metric { head, middle: middle.max(random.below(2)), tail, parts: 2 },
    }
}

/// A cell that is mostly one of a template's, if there is any.
fn cell(random: &mut Random, metric: &Metric) -> Cell {
    let mut templates = vec![(Register::P, metric.head), (Register::Q, metric.tail), (Register::I, metric.middle)];
    templates.retain(|&(_, length)| length > 0);
    if templates.is_empty() || random.one_in(10) {
        return Cell { register: random.pick(&REGISTERS), offset: random.below(3) };
    }
    let (register, length) = random.pick(&templates);
    Cell { register, offset: random.below(length) + usize::from(register == Register::Q) }
}

fn test(random: &mut Random, metric: &Metric) -> Test {
    let one = cell(random, metric);
    match random.below(5) {
        0 => Test::Compare(one, cell(random, metric)),
        1 => part_test(random, metric),
        2 => Test::Predicate(one, random.pick(&Class::ALL), random.one_in(2)),
        _ => Test::Look(one, random.pick(BYTES)),
    }
}

/// A test of a part between templates, at times between any two cells.
fn part_test(random: &mut Random, metric: &Metric) -> Test {
    let place = |register: Register, offset: usize| Cell { register, offset };
    let (mut from, mut to) = (place(Register::P, metric.head), place(Register::Q, metric.tail));
    match random.below(4) {
        0 => (from, to) = (cell(random, metric), cell(random, metric)),
        1 if metric.parts == 2 => to = place(Register::I, 0),
        2 if metric.parts == 2 => from = place(Register::I, metric.middle),
        _ => {}
    }
    Test::PredicatePart(from, to, random.pick(&Class::ALL), random.one_in(2))
}

fn actions(random: &mut Random, functions: usize, stores: usize) -> Vec<Action> {
    let mut actions = Actions { random, functions, stores, open: 0, list: Vec::new() };
    actions.make();
    actions.list
}

/// The actions of a sentence while they are made.
struct Actions<'r> {
    random: &'r mut Random,
    functions: usize,
    stores: usize,
    /// BeginSeqs that are open.
    open: usize,
    list: Vec<Action>,
}

impl Actions<'_> {
    fn make(&mut self) {
        if self.random.one_in(100) {
            self.many_sequences();
        }
        for _ in 0..self.random.below(7) {
            match self.random.below(10) {
                // what the callee leaves is moved or called on again
                0 => self.phrase(&[Self::select, Self::call, Self::moving]),
                1 => self.phrase(&[Self::begin_seq, Self::writing, Self::span, Self::use_seq, Self::moving]),
                2 => self.phrase(&[Self::select, Self::use_seq, Self::moving]),
                3 => self.phrase(&[Self::begin_seq, Self::writing, Self::use_seq, Self::select, Self::moving]),
                4 if self.random.one_in(2) => {
                    self.phrase(&[Self::begin_seq, Self::angles, Self::use_seq, Self::compute])
                }
                _ => self.single(),
            }
        }
        if self.random.one_in(2) {
            self.phrase(&[Self::span, Self::moving]);
        }
        if self.random.one_in(6) {
            let function = callee(self.random, self.functions);
            self.list.push(Action::TailCall(function));
        }
    }

    fn phrase(&mut self, parts: &[fn(&mut Self)]) {
        for part in parts {
            part(self);
            if self.random.one_in(6) {
                self.single();
            }
        }
    }

    fn single(&mut self) {
        let parts: &[fn(&mut Self)] =
            &[Self::span, Self::select, Self::moving, Self::writing, Self::begin_seq, Self::use_seq, Self::call];
        let part = self.random.pick(parts);
        part(self);
    }

    /// As many as may be open, or one more.
    fn many_sequences(&mut self) {
        for _ in 0..NESTING_LIMIT - 1 + self.random.below(3) {
            self.begin_seq();
        }
    }

    fn begin_seq(&mut self) {
        self.open += 1;
        self.list.push(Action::BeginSeq);
    }

    fn use_seq(&mut self) {
        if self.open > 0 || self.random.one_in(10) {
            self.open = self.open.saturating_sub(1);
            self.list.push(Action::UseSeq);
        }
    }

    fn span(&mut self) {
        let length = self.length();
        self.list.push(if self.random.one_in(3) { Action::Go(length) } else { Action::Select(length) });
    }

    fn select(&mut self) {
        let length = self.length();
        self.list.push(Action::Select(length));
    }

    fn length(&mut self) -> Length {
        let random = &mut *self.random;
        if !random.one_in(3) {
            return Length { base: Base::Null, add: random.pick(&[0, 0, 1, 1, 2]), back: 0 };
        }
        if random.one_in(60) {
            return Length { base: random.pick(&BASES), add: random.below(256), back: random.below(256) };
        }
        Length { base: random.pick(&BASES), add: random.pick(&[0, 0, 0, 1]), back: random.pick(&[0, 1, 2, 4, 6]) }
    }

    /// Something that takes what is selected.
    fn moving(&mut self) {
        match self.random.below(7) {
            0 => self.call(),
            1 => self.emission(),
            2 if self.random.one_in(2) => self.compute(),
            _ => self.list.push(Action::Out),
        }
    }

    fn writing(&mut self) {
        // seldom one more than there are
        let stored = self.stores + usize::from(self.random.one_in(20));
        self.list.push(match self.random.below(3) {
            0 if stored > 0 => Action::OutV(self.random.below(stored)),
            1 => Action::Out,
            _ => Action::OutC(self.random.pick(BYTES)),
        });
    }

    /// Two angles, byte by byte.
    fn angles(&mut self) {
        let argument = angles::argument(self.random);
        self.list.extend(argument.into_iter().map(Action::OutC));
    }

    fn compute(&mut self) {
        let operation = self.random.pick(&Operation::ALL);
        self.list.push(Action::Compute(operation));
    }

    fn call(&mut self) {
        let function = callee(self.random, self.functions);
        self.list.push(Action::Call(function));
    }

    fn emission(&mut self) {
        let length = if self.random.one_in(20) { NAME_LIMIT + self.random.below(200) } else { self.random.below(5) };
        let name = (0..length).map(|_| self.random.byte()).collect();
        self.list.push(Action::Emit(name));
    }
}
