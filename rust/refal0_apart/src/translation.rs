//! The translation of a tree for the two-stack string machine, as instructions without packing.

use crate::angles::Operation;
use crate::class::Class;
use crate::reader::NAME_LIMIT;
use crate::tree::{Callee, Condition, Item, Letter, Name, Sentence, Subject, Table};

#[derive(Clone, PartialEq, Eq, Debug)]
pub struct Program {
    pub functions: Vec<FunctionCode>,
}

/// The code of one function's sentences.
#[derive(Clone, PartialEq, Eq, Debug)]
pub struct FunctionCode {
    pub sentences: Vec<Code>,
    /// The number, from 1, of the function that recovers this one; 0 for none.
    pub recoverer: usize,
}

/// The code of one sentence.
#[derive(Clone, PartialEq, Eq, Debug)]
pub struct Code {
    pub metric: Metric,
    pub tests: Vec<Test>,
    pub store: Vec<Cell>,
    pub actions: Vec<Action>,
}

/// Lengths of the templates; `parts` e-variables lie between them.
#[derive(Clone, Copy, PartialEq, Eq, Debug)]
pub struct Metric {
    pub head: usize,
    pub middle: usize,
    pub tail: usize,
    pub parts: usize,
}

#[derive(Clone, Copy, PartialEq, Eq, Debug)]
pub enum Register {
    P,
    Q,
    I,
}

/// A cell of the field: an offset from a register, counted back from 1 if the register is q.
#[derive(Clone, Copy, PartialEq, Eq, Debug)]
pub struct Cell {
    pub register: Register,
    pub offset: usize,
}

#[derive(Clone, Copy, PartialEq, Eq, Debug)]
pub enum Test {
    Look(Cell, u8),
    Compare(Cell, Cell),
    Predicate(Cell, Class, bool),
    /// Asks the cells from the first of these up to the second, which is not among them.
    PredicatePart(Cell, Cell, Class, bool),
}

/// d = q - p, dl = i - p and dr = q - i, all as they are when the sentence has fitted.
#[derive(Clone, Copy, PartialEq, Eq, Debug)]
pub enum Base {
    Null,
    D,
    Dl,
    Dr,
}

/// A base plus `add` minus `back`.
#[derive(Clone, Copy, PartialEq, Eq, Debug)]
pub struct Length {
    pub base: Base,
    pub add: usize,
    pub back: usize,
}

/// What is done with the text; calls name a function by its number, from 1, and emissions have a name of type `N`.
#[derive(Clone, Copy, PartialEq, Eq, Debug)]
pub enum Action<N = Name> {
    Go(Length),
    Select(Length),
    Out,
    OutC(u8),
    OutV(usize),
    BeginSeq,
    UseSeq,
    Call(usize),
    TailCall(usize),
    Emit(N),
    Compute(Operation),
}

/// What becomes of a part that ends both the pattern and a tail call's argument.
#[derive(Clone, Copy, PartialEq, Eq)]
enum Ending {
    /// It stays on in.
    Left,
    /// It is moved to out and back, like any other part.
    Moved,
}

pub fn translate(table: &Table) -> Program {
    translate_with(table, Ending::Left)
}

/// The translation as it was before such endings were left where they are; its runs need at least as much room.
pub fn translate_earlier(table: &Table) -> Program {
    translate_with(table, Ending::Moved)
}

fn translate_with(table: &Table, ending: Ending) -> Program {
    Program { functions: (0..table.functions.len()).map(|number| function_code(table, number, ending)).collect() }
}

fn function_code(table: &Table, number: usize, ending: Ending) -> FunctionCode {
    let sentences = &table.functions[number].sentences;
    FunctionCode {
        sentences: sentences.iter().map(|sentence| sentence_code(table, sentence, ending)).collect(),
        recoverer: table.recoverer(number).map_or(0, |recoverer| recoverer + 1),
    }
}

impl Program {
    /// The most words the code may take: 8 an instruction, 24 a name besides, 8 a sentence and a function, 16.
    pub fn word_bound(&self) -> usize {
        let action_words = |action: &Action| if let Action::Emit(_) = action { 8 + NAME_LIMIT } else { 8 };
        let sentence_words = |code: &Code| {
            8 * (code.tests.len() + code.store.len() + 1) + code.actions.iter().map(action_words).sum::<usize>()
        };
        let function_words = |function: &FunctionCode| 8 + function.sentences.iter().map(sentence_words).sum::<usize>();
        16 + self.functions.iter().map(function_words).sum::<usize>()
    }
}

fn sentence_code(table: &Table, sentence: &Sentence, ending: Ending) -> Code {
    let lengths: Vec<usize> = sentence.templates.iter().map(Vec::len).collect();
    let parts = sentence.parts.len();
    let metric = Metric {
        head: lengths[0],
        middle: if parts == 2 { lengths[1] } else { 0 },
        tail: if parts == 0 { 0 } else { lengths[parts] },
        parts,
    };
    let (mut tests, store) = pattern_tests(sentence, &metric);
    tests.extend(sentence.conditions.iter().map(|condition| condition_test(condition, &store, &metric)));
    Code { metric, tests, store, actions: expression_actions(table, sentence, &metric, ending) }
}

fn condition_test(condition: &Condition, store: &[Cell], metric: &Metric) -> Test {
    let Condition { class, subject, expected } = *condition;
    match subject {
        Subject::Symbol(symbol) => Test::Predicate(store[symbol], class, expected),
        Subject::Part(part) => {
            let (from, to) = part_bounds(metric, part);
            Test::PredicatePart(from, to, class, expected)
        }
    }
}

/// Where an e-variable's part begins, and the cell after its last.
fn part_bounds(metric: &Metric, part: usize) -> (Cell, Cell) {
    let after_head = Cell { register: Register::P, offset: metric.head };
    let tail = Cell { register: Register::Q, offset: metric.tail };
    match (metric.parts, part) {
        (1, _) => (after_head, tail),
        (_, 0) => (after_head, Cell { register: Register::I, offset: 0 }),
        (_, _) => (Cell { register: Register::I, offset: metric.middle }, tail),
    }
}

/// The tests of the templates, and where each different s-variable stands first.
fn pattern_tests(sentence: &Sentence, metric: &Metric) -> (Vec<Test>, Vec<Cell>) {
    let mut tests = Vec::new();
    let mut store: Vec<Cell> = Vec::new();
    for (number, template) in sentence.templates.iter().enumerate() {
        for (offset, letter) in template.iter().enumerate() {
            let cell = match number {
                0 => Cell { register: Register::P, offset },
                _ if number == metric.parts => Cell { register: Register::Q, offset: metric.tail - offset },
                _ => Cell { register: Register::I, offset },
            };
            match *letter {
                Letter::Byte(byte) => tests.push(Test::Look(cell, byte)),
                Letter::Symbol(symbol) if symbol < store.len() => tests.push(Test::Compare(store[symbol], cell)),
                Letter::Symbol(_) => store.push(cell),
            }
        }
    }
    (tests, store)
}

/// Where p stands in the field: only e-variables and the last Go move it.
#[derive(Clone, Copy, PartialEq, Eq)]
enum Position {
    Start,
    AfterPart(usize),
}

fn expression_actions(table: &Table, sentence: &Sentence, metric: &Metric, ending: Ending) -> Vec<Action> {
    let items = &sentence.expression;
    let tail_call = sentence.tail_call();
    let mut actions = Vec::new();
    let mut position = Position::Start;
    for (number, item) in items.iter().enumerate() {
        // this item among them
        let items_left = items.len() - number;
        match *item {
            Item::Byte(byte) => actions.push(Action::OutC(byte)),
            Item::Symbol(symbol) => actions.push(Action::OutV(symbol)),
            Item::Part(part) => {
                actions.push(Action::Go(way_to_part(metric, position, part)));
                let left = items_left == 2 && ends_pattern(metric, part) && ending == Ending::Left;
                if let Some(function) = tail_call.filter(|_| left) {
                    push_call(&mut actions, part_length(metric, part), Action::TailCall(function + 1));
                    return actions;
                }
                actions.push(Action::Select(part_length(metric, part)));
                actions.push(Action::Out);
                position = Position::AfterPart(part);
            }
            Item::Open(_) => actions.push(Action::BeginSeq),
            Item::Close(Callee::Function(function)) if items_left == 1 => {
                actions.push(Action::Go(way_to_end(metric, position)));
                push_call(&mut actions, NOTHING, Action::TailCall(function + 1));
                return actions;
            }
            Item::Close(callee) => push_call(&mut actions, NOTHING, call_action(table, callee)),
        }
    }
    actions.push(Action::Go(way_to_end(metric, position)));
    actions
}

/// The action of a call that is no tail call.
fn call_action(table: &Table, callee: Callee) -> Action {
    match callee {
        Callee::Function(function) => Action::Call(function + 1),
        Callee::Emission(number) => Action::Emit(table.emissions[number].clone()),
        Callee::Angles(operation) => Action::Compute(operation),
    }
}

fn ends_pattern(metric: &Metric, part: usize) -> bool {
    part + 1 == metric.parts && metric.tail == 0
}

/// Nothing more than the argument is selected.
const NOTHING: Length = Length { base: Base::Null, add: 0, back: 0 };

/// The argument is put just below p. q is p before that, so it is selected already, and what is left after it is added.
fn push_call(actions: &mut Vec<Action>, left: Length, call: Action) {
    actions.extend([Action::UseSeq, Action::Select(left), call]);
}

fn length(base: Base, add: usize, back: usize) -> Length {
    Length { base, add, back }
}

fn way_to_part(metric: &Metric, position: Position, part: usize) -> Length {
    match (position, part) {
        (Position::Start, 0) => length(Base::Null, metric.head, 0),
        (Position::Start, _) => length(Base::Dl, metric.middle, 0),
        (Position::AfterPart(_), _) => length(Base::Null, metric.middle, 0),
    }
}

fn part_length(metric: &Metric, part: usize) -> Length {
    match (metric.parts, part) {
        (1, _) => length(Base::D, 0, metric.head + metric.tail),
        (_, 0) => length(Base::Dl, 0, metric.head),
        (_, _) => length(Base::Dr, 0, metric.middle + metric.tail),
    }
}

fn way_to_end(metric: &Metric, position: Position) -> Length {
    match position {
        Position::Start => length(Base::D, 0, 0),
        Position::AfterPart(part) if part + 1 == metric.parts => length(Base::Null, metric.tail, 0),
        Position::AfterPart(_) => length(Base::Dr, 0, 0),
    }
}
