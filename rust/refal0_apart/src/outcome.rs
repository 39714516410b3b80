//! What a run comes to, for the rewriter and the machine alike.

use crate::reader::FUNCTION_LIMIT;
use std::fmt;

#[derive(Clone, PartialEq, Eq, Debug)]
pub struct Outcome {
    pub answer: u64,
    /// The number of the function no sentence of which fits; 0 but with answer 11.
    pub function: usize,
    pub steps: u64,
    pub counts: Counts,
    pub text: Vec<u8>,
    pub record: Vec<u8>,
}

/// Why a run ends before its text is finished.
#[derive(Clone, Copy, PartialEq, Eq, Debug)]
pub struct Stop {
    pub answer: u64,
    pub function: usize,
}

impl Stop {
    pub fn because(answer: u64) -> Stop {
        Stop { answer, function: 0 }
    }
}

impl Outcome {
    /// A run that is refused before it begins.
    pub fn refused(answer: u64) -> Outcome {
        Outcome { answer, function: 0, steps: 0, counts: Counts::none(), text: Vec::new(), record: Vec::new() }
    }

    /// Whether the run was refused before it began, and nothing lent is changed.
    pub fn before_run(&self) -> bool {
        // a run that has begun makes its first step before any other word is looked at
        matches!(self.answer, 9 | 10) || (self.answer == 18 && self.steps == 0)
    }

    /// The outcome of a run that finished with a text, or was stopped and has none.
    pub fn of(end: Result<Vec<u8>, Stop>, applications: Applications, record: Vec<u8>) -> Outcome {
        let Applications { steps, counts, .. } = applications;
        let (text, Stop { answer, function }) = match end {
            Ok(text) => (text, Stop::because(0)),
            Err(stop) => (Vec::new(), stop),
        };
        Outcome { answer, function, steps, counts, text, record }
    }
}

/// How often each function was applied, by its number from 1. No table has more than 64 functions; those of other code
/// past the 64th are not counted.
#[derive(Clone, PartialEq, Eq)]
pub struct Counts(pub Box<[u64; FUNCTION_LIMIT]>);

impl Counts {
    pub fn none() -> Counts {
        Counts(Box::new([0; FUNCTION_LIMIT]))
    }

    /// Counts of the first functions, and 0 for the rest.
    pub fn of(first: &[u64]) -> Option<Counts> {
        let mut counts = Counts::none();
        counts.0.get_mut(..first.len())?.copy_from_slice(first);
        Some(counts)
    }

    fn add(&mut self, function: usize) {
        if let Some(count) = self.0.get_mut(function - 1) {
            *count += 1;
        }
    }

    /// The counts up to the last that isn't 0.
    pub fn met(&self) -> &[u64] {
        let last = self.0.iter().rposition(|&count| count > 0);
        &self.0[..last.map_or(0, |last| last + 1)]
    }
}

impl fmt::Debug for Counts {
    fn fmt(&self, formatter: &mut fmt::Formatter) -> fmt::Result {
        self.met().fmt(formatter)
    }
}

/// The applications of a run: how many are allowed, how many were made, and of which functions.
pub struct Applications {
    allowance: u64,
    pub steps: u64,
    pub counts: Counts,
}

impl Applications {
    pub fn allowed(allowance: u32) -> Applications {
        Applications { allowance: u64::from(allowance), steps: 0, counts: Counts::none() }
    }

    /// Stops the run with 12 if no step is left.
    pub fn ask(&self) -> Result<(), Stop> {
        if self.steps == self.allowance { Err(Stop::because(12)) } else { Ok(()) }
    }

    /// Counts one step of a function, by its number from 1.
    pub fn make(&mut self, function: usize) {
        self.steps += 1;
        self.counts.add(function);
    }
}
