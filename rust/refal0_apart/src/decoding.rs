//! Any 32-bit words taken as code, as docs/CODE.md says: what stands at a place, or nothing where words are no code.

use crate::angles::Operation;
use crate::class::Class;
use crate::packing::{BASES, REGISTERS, number, operand};
use crate::reader::SYMBOL_LIMIT;
use crate::translation::{Action, Cell, Length, Metric, Register, Test};

/// Words whose function table is sound.
#[derive(Clone, Copy)]
pub struct Words<'c>(&'c [u32]);

/// What stands where a sentence is to be tried.
pub enum Trial {
    Sentence(Head),
    /// No sentence is left; the number of the function that recovers this one, 0 for none.
    EndOfFunction(usize),
}

/// A sentence's first two words, with the places of what follows them.
pub struct Head {
    pub metric: Metric,
    pub tests: std::ops::Range<usize>,
    pub stores: std::ops::Range<usize>,
    pub next_sentence: usize,
}

impl<'c> Words<'c> {
    /// Nothing if the code lacks its count, an entry, or a place that an entry names.
    pub fn sound(code: &'c [u32]) -> Option<Words<'c>> {
        let count = *code.first()? as usize;
        let entries = code[1..].get(..count)?;
        let sound = entries.iter().all(|&place| (place as usize) < code.len());
        sound.then_some(Words(code))
    }

    pub fn functions(self) -> usize {
        self.0[0] as usize
    }

    /// Where a declared function begins.
    pub fn place(self, function: usize) -> usize {
        self.0[function] as usize
    }

    /// The number and the operands of the word at a place.
    fn word(self, at: usize) -> Option<(u8, [usize; 3])> {
        let [number, first, second, third] = self.0.get(at)?.to_le_bytes();
        Some((number, [first, second, third].map(usize::from)))
    }

    /// The number of a function, if it is declared.
    pub fn declared(self, number: usize) -> Option<usize> {
        (1..=self.functions()).contains(&number).then_some(number)
    }

    pub fn trial(self, at: usize) -> Option<Trial> {
        let (number, operands) = self.word(at)?;
        let [first, second, third] = operands;
        let metric = match number {
            number::EXACTLY => Metric { head: first, middle: 0, tail: 0, parts: 0 },
            number::ENDS => Metric { head: first, middle: 0, tail: second, parts: 1 },
            number::MIDDLE => Metric { head: first, middle: second, tail: third, parts: 2 },
            number::SENTENCES_END => return Some(Trial::EndOfFunction(joined(operands))),
            _ => return None,
        };
        let counts = *self.0.get(at + 1)? as usize;
        let (tests, stores, words) = (counts & 0xff, counts >> 8 & 0xff, counts >> 16);
        if stores > SYMBOL_LIMIT {
            return None;
        }
        let begin = at + 2;
        let stored = begin + tests;
        let next_sentence = begin + words;
        Some(Trial::Sentence(Head { metric, tests: begin..stored, stores: stored..stored + stores, next_sentence }))
    }

    pub fn test(self, at: usize) -> Option<Test> {
        let (number, [first, second, third]) = self.word(at)?;
        Some(match number {
            number::LOOK => Test::Look(cell(first, second)?, third as u8),
            number::COMPARE => {
                Test::Compare(cell(first % operand::REGISTERS, second)?, cell(first / operand::REGISTERS, third)?)
            }
            number::PREDICATE => {
                let cell = cell(first % operand::REGISTERS, second)?;
                Test::Predicate(cell, *Class::ALL.get(third)?, first / operand::REGISTERS == 1)
            }
            number::PREDICATE_PART => {
                let from = cell(first % operand::REGISTERS, second)?;
                let to = cell(first / operand::REGISTERS % operand::REGISTERS, third)?;
                let class = *Class::ALL.get(first / operand::PART_CLASS)?;
                Test::PredicatePart(from, to, class, first / operand::PART_TRUTH % 2 == 1)
            }
            _ => return None,
        })
    }

    pub fn store(self, at: usize) -> Option<Cell> {
        let (number, [first, second, _]) = self.word(at)?;
        if number == number::STORE { cell(first, second) } else { None }
    }

    /// The action at a place, or nothing inside at the end of the actions. An emission's name stays in its words.
    pub fn action(self, at: usize) -> Option<Option<Action<&'c [u32]>>> {
        let (number, operands) = self.word(at)?;
        let [first, second, third] = operands;
        let length = || Some(Length { base: *BASES.get(first)?, add: second, back: third });
        let function = || self.declared(joined(operands));
        Some(Some(match number {
            number::GO => Action::Go(length()?),
            number::SELECT => Action::Select(length()?),
            number::OUT => Action::Out,
            number::OUT_C => Action::OutC(first as u8),
            number::OUT_V => Action::OutV(first),
            number::BEGIN_SEQ => Action::BeginSeq,
            number::USE_SEQ => Action::UseSeq,
            number::CALL => Action::Call(function()?),
            number::TAIL_CALL => Action::TailCall(function()?),
            number::EMISSION => Action::Emit(self.name(at + 1, first)?),
            number::COMPUTE => Action::Compute(*Operation::ALL.get(first)?),
            number::ACTIONS_END => return Some(None),
            _ => return None,
        }))
    }

    fn name(self, at: usize, length: usize) -> Option<&'c [u32]> {
        let words = self.0.get(at..at + length)?;
        words.iter().all(|&word| word <= 255).then_some(words)
    }
}

/// The number that takes all three operands.
fn joined([first, second, third]: [usize; 3]) -> usize {
    first + (second << 8) + (third << 16)
}

fn cell(register: usize, offset: usize) -> Option<Cell> {
    let register: Register = *REGISTERS.get(register)?;
    Some(Cell { register, offset })
}
