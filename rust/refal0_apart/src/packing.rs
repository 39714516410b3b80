//! Code in 32-bit words, as docs/CODE.md lays them down: the packing of a translation.

use crate::angles::Operation;
use crate::class::Class;
use crate::translation::{Action, Base, Cell, Code, FunctionCode, Length, Metric, Program, Register, Test, translate};
use crate::tree::Table;

/// The lowest byte of a word says what it is.
pub mod number {
    pub const LOOK: u8 = 1;
    pub const COMPARE: u8 = 2;
    pub const PREDICATE: u8 = 3;
    pub const STORE: u8 = 4;
    pub const GO: u8 = 5;
    pub const SELECT: u8 = 6;
    pub const OUT: u8 = 7;
    pub const OUT_C: u8 = 8;
    pub const OUT_V: u8 = 9;
    pub const BEGIN_SEQ: u8 = 10;
    pub const USE_SEQ: u8 = 11;
    pub const CALL: u8 = 12;
    pub const TAIL_CALL: u8 = 13;
    pub const EMISSION: u8 = 14;
    pub const ACTIONS_END: u8 = 15;
    pub const EXACTLY: u8 = 16;
    pub const ENDS: u8 = 17;
    pub const MIDDLE: u8 = 18;
    pub const SENTENCES_END: u8 = 19;
    pub const PREDICATE_PART: u8 = 20;
    pub const COMPUTE: u8 = 21;
    /// The highest number that a word may have.
    pub const LAST: u8 = COMPUTE;
}

/// What the parts of an operand that holds several count: a second register, or the truth value after one; and in a
/// Predicate over a part, after two registers, the truth value and the class.
pub mod operand {
    pub const REGISTERS: usize = 4;
    pub const PART_TRUTH: usize = REGISTERS * REGISTERS;
    pub const PART_CLASS: usize = 2 * PART_TRUTH;
}

pub const REGISTERS: [Register; 3] = [Register::P, Register::Q, Register::I];
pub const BASES: [Base; 4] = [Base::Null, Base::D, Base::Dl, Base::Dr];

/// The code of a table.
pub fn code(table: &Table) -> Vec<u32> {
    pack(&translate(table))
}

pub fn pack(program: &Program) -> Vec<u32> {
    let functions: Vec<Vec<u32>> = program.functions.iter().map(function_words).collect();
    let mut words = vec![functions.len() as u32];
    let mut place = 1 + functions.len();
    for function in &functions {
        words.push(place as u32);
        place += function.len();
    }
    words.extend(functions.concat());
    words
}

fn function_words(function: &FunctionCode) -> Vec<u32> {
    let mut words: Vec<u32> = function.sentences.iter().flat_map(sentence_words).collect();
    words.push(word(number::SENTENCES_END, function.recoverer, 0, 0));
    words
}

fn sentence_words(code: &Code) -> Vec<u32> {
    let mut rest: Vec<u32> = code.tests.iter().map(test_word).collect();
    rest.extend(code.store.iter().map(|cell| word(number::STORE, register(cell), cell.offset, 0)));
    for action in &code.actions {
        rest.push(action_word(action));
        if let Action::Emit(name) = action {
            rest.extend(name.iter().map(|&byte| u32::from(byte)));
        }
    }
    rest.push(bare(number::ACTIONS_END));
    let counts = code.tests.len() + (code.store.len() << 8) + (rest.len() << 16);
    [vec![metric_word(&code.metric), counts as u32], rest].concat()
}

fn word(number: u8, first: usize, second: usize, third: usize) -> u32 {
    u32::from(number) + ((first + (second << 8) + (third << 16)) << 8) as u32
}

fn bare(number: u8) -> u32 {
    word(number, 0, 0, 0)
}

fn metric_word(metric: &Metric) -> u32 {
    match metric.parts {
        0 => word(number::EXACTLY, metric.head, 0, 0),
        1 => word(number::ENDS, metric.head, metric.tail, 0),
        _ => word(number::MIDDLE, metric.head, metric.middle, metric.tail),
    }
}

fn test_word(test: &Test) -> u32 {
    match test {
        Test::Look(cell, byte) => word(number::LOOK, register(cell), cell.offset, usize::from(*byte)),
        Test::Compare(one, other) => {
            word(number::COMPARE, register(one) + operand::REGISTERS * register(other), one.offset, other.offset)
        }
        Test::Predicate(cell, class, expected) => {
            let first = register(cell) + operand::REGISTERS * usize::from(*expected);
            word(number::PREDICATE, first, cell.offset, class_number(*class))
        }
        Test::PredicatePart(from, to, class, expected) => {
            let registers = register(from) + operand::REGISTERS * register(to);
            let asked = operand::PART_TRUTH * usize::from(*expected) + operand::PART_CLASS * class_number(*class);
            word(number::PREDICATE_PART, registers + asked, from.offset, to.offset)
        }
    }
}

fn action_word(action: &Action) -> u32 {
    match action {
        Action::Go(length) => length_word(number::GO, length),
        Action::Select(length) => length_word(number::SELECT, length),
        Action::Out => bare(number::OUT),
        Action::OutC(byte) => word(number::OUT_C, usize::from(*byte), 0, 0),
        Action::OutV(symbol) => word(number::OUT_V, *symbol, 0, 0),
        Action::BeginSeq => bare(number::BEGIN_SEQ),
        Action::UseSeq => bare(number::USE_SEQ),
        Action::Call(function) => word(number::CALL, *function, 0, 0),
        Action::TailCall(function) => word(number::TAIL_CALL, *function, 0, 0),
        Action::Emit(name) => word(number::EMISSION, name.len(), 0, 0),
        Action::Compute(operation) => word(number::COMPUTE, operation_number(*operation), 0, 0),
    }
}

fn length_word(number: u8, length: &Length) -> u32 {
    let base = BASES.iter().position(|&base| base == length.base).expect("every base has its number");
    word(number, base, length.add, length.back)
}

fn register(cell: &Cell) -> usize {
    REGISTERS.iter().position(|&register| register == cell.register).expect("every register has its number")
}

fn operation_number(operation: Operation) -> usize {
    Operation::ALL.iter().position(|&other| other == operation).expect("every operation has its number")
}

fn class_number(class: Class) -> usize {
    Class::ALL.iter().position(|&other| other == class).expect("every class has its number")
}
