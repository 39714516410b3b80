//! The tree of an accepted table; functions, emissions and variables stand in it by number.

use crate::angles::Operation;
use crate::class::{Class, RECOVER};

pub type Name = Vec<u8>;

#[derive(Clone, PartialEq, Eq, Debug, Default)]
pub struct Table {
    pub functions: Vec<Function>,
    /// The names of the emissions that are called, by first appearance.
    pub emissions: Vec<Name>,
}

#[derive(Clone, PartialEq, Eq, Debug)]
pub struct Function {
    pub name: Name,
    pub sentences: Vec<Sentence>,
}

/// A pattern is its templates with the e-variables between them: one template more than parts.
#[derive(Clone, PartialEq, Eq, Debug)]
pub struct Sentence {
    pub templates: Vec<Vec<Letter>>,
    /// Identifiers of the different s-variables, by first appearance.
    pub symbols: Vec<Name>,
    /// Identifiers of the e-variables.
    pub parts: Vec<Name>,
    pub conditions: Vec<Condition>,
    pub expression: Vec<Item>,
}

#[derive(Clone, Copy, PartialEq, Eq, Debug)]
pub enum Letter {
    Byte(u8),
    Symbol(usize),
}

#[derive(Clone, Copy, PartialEq, Eq, Debug)]
pub struct Condition {
    pub class: Class,
    pub subject: Subject,
    pub expected: bool,
}

/// The variable that a condition asks about: an s-variable's byte, or every byte of an e-variable's part.
#[derive(Clone, Copy, PartialEq, Eq, Debug)]
pub enum Subject {
    Symbol(usize),
    Part(usize),
}

/// A call is its opening bracket, the items of its argument and its closing bracket.
#[derive(Clone, Copy, PartialEq, Eq, Debug)]
pub enum Item {
    Byte(u8),
    Symbol(usize),
    Part(usize),
    Open(Callee),
    Close(Callee),
}

#[derive(Clone, Copy, PartialEq, Eq, Debug)]
pub enum Callee {
    Function(usize),
    Emission(usize),
    Angles(Operation),
}

impl Sentence {
    /// The sentence with an empty pattern and an empty expression.
    pub fn empty() -> Sentence {
        Sentence {
            templates: vec![Vec::new()],
            symbols: Vec::new(),
            parts: Vec::new(),
            conditions: Vec::new(),
            expression: Vec::new(),
        }
    }

    /// How many characters and s-variables the pattern has.
    pub fn letters(&self) -> usize {
        self.templates.iter().map(Vec::len).sum()
    }

    /// The function that is called by a tail call: a declared call that is the last item outermost.
    pub fn tail_call(&self) -> Option<usize> {
        match self.expression.last() {
            Some(&Item::Close(Callee::Function(function))) => Some(function),
            _ => None,
        }
    }

    pub fn last_template(&mut self) -> &mut Vec<Letter> {
        self.templates.last_mut().expect("a pattern has a template")
    }
}

impl Table {
    /// The number of an emission's name, which is added if it is new.
    pub fn emission(&mut self, name: &[u8]) -> usize {
        let known = self.emissions.iter().position(|other| other == name);
        known.unwrap_or_else(|| {
            self.emissions.push(name.to_vec());
            self.emissions.len() - 1
        })
    }

    /// The function that is applied to the same text where none of this one's sentences fits.
    pub fn recoverer(&self, function: usize) -> Option<usize> {
        let name = self.functions[function].name.as_slice();
        if name.starts_with(RECOVER) {
            return None;
        }
        self.functions.iter().position(|other| other.name.strip_prefix(RECOVER) == Some(name))
    }

    pub fn callee_name(&self, callee: Callee) -> &[u8] {
        match callee {
            Callee::Function(number) => &self.functions[number].name,
            Callee::Emission(number) => &self.emissions[number],
            Callee::Angles(operation) => operation.name(),
        }
    }
}
