//! The proved Refal-0 engine for Rust: safe functions over its exports.
//!
//! A table is read once, and its [`Code`] kept; each text is then run on it. What a run emitted is handed out only if
//! the run is done.
//!
//! ```
//! use refal0::{Cells, Code, Ended};
//!
//! let table = b"Line { 'STOP ' eValue, <IsDigit eValue>: 'T' = <EmitStop eValue> 'ok' }";
//! let code = Code::of(table)?;
//! let mut cells = Cells::new(256, 256, 256);
//! match code.run(1, b"STOP 60", &mut cells, 1_000) {
//!     Ended::Done { text, record, .. } => assert_eq!((text, record), (&b"ok"[..], &b"EmitStop 60\n"[..])),
//!     Ended::Early { answer, .. } => panic!("{answer}"),
//! }
//! assert!(matches!(code.run(1, b"STOP 6O", &mut cells, 1_000), Ended::Early { function: Some(1), .. }));
//! # Ok::<(), refal0::Refused>(())
//! ```

mod answer;
pub mod exports;

pub use answer::Answer;

/// A table has at most so many functions; a run counts the applications of so many.
pub const FUNCTIONS: usize = 64;

/// Enough words for the code of a table of this length.
pub const fn code_words(table_length: usize) -> usize {
    2 * table_length + 16
}

/// Enough bytes for the listing of a table of this length.
pub const fn listing_bytes(table_length: usize) -> usize {
    4 * table_length
}

/// Why a table is refused, and at which of its bytes.
#[derive(Clone, Copy, PartialEq, Eq, Debug)]
pub struct Refused {
    pub answer: Answer,
    pub place: usize,
}

impl std::fmt::Display for Refused {
    fn fmt(&self, formatter: &mut std::fmt::Formatter) -> std::fmt::Result {
        write!(formatter, "refused at byte {}: {}", self.place, self.answer)
    }
}

impl std::error::Error for Refused {}

/// What a table's answer counts, or its refusal.
fn accepted([number, place, count]: [u64; 3]) -> Result<usize, Refused> {
    match Answer::of(number) {
        Answer::Done => Ok(count as usize),
        answer => Err(Refused { answer, place: place as usize }),
    }
}

/// How many functions a table has, if it is accepted.
pub fn read(table: &[u8]) -> Result<usize, Refused> {
    let mut answer = [0; 3];
    exports::read(table, &mut answer);
    accepted(answer)
}

/// How many functions a table has, if it is accepted and calls declared functions by tail calls alone.
#[inline]
pub fn flat(table: &[u8]) -> Result<usize, Refused> {
    let mut answer = [0; 3];
    exports::flat(table, &mut answer);
    accepted(answer)
}

/// A table's listing, if it is accepted.
pub fn list(table: &[u8]) -> Result<Vec<u8>, Refused> {
    let mut listing = vec![0; listing_bytes(table.len())];
    let mut answer = [0; 3];
    exports::list(table, &mut listing, &mut answer);
    listing.truncate(accepted(answer)?);
    Ok(listing)
}

/// The code of a table.
#[derive(Clone, PartialEq, Eq, Debug)]
pub struct Code(Vec<u32>);

impl Code {
    /// Translates a table, if it is accepted.
    pub fn of(table: &[u8]) -> Result<Code, Refused> {
        let mut code = vec![0; code_words(table.len())];
        let mut answer = [0; 3];
        exports::translate(table, &mut code, &mut answer);
        code.truncate(accepted(answer)?);
        Ok(Code(code))
    }

    /// Words that were translated elsewhere. They have no check sum: where they were changed on the way, a run may end
    /// with [`Answer::NoCode`], or give something else.
    pub fn from_words(words: Vec<u32>) -> Code {
        Code(words)
    }

    pub fn words(&self) -> &[u32] {
        &self.0
    }

    /// Applies a function, counted from 1, to a text, with at most so many steps.
    pub fn run<'c>(&self, start: usize, text: &[u8], cells: &'c mut Cells, allowance: u32) -> Ended<'c> {
        let mut answer = [0; 5];
        exports::run(&self.0, start, text, cells.lent(), allowance, &mut answer);
        cells.ended(answer)
    }

    /// The same, with how often each of the first 64 functions was applied.
    pub fn profile<'c>(
        &self,
        start: usize,
        text: &[u8],
        cells: &'c mut Cells,
        allowance: u32,
    ) -> (Ended<'c>, [u64; FUNCTIONS]) {
        let (mut answer, mut counts) = ([0; 5], [0; FUNCTIONS]);
        exports::profile(&self.0, start, text, cells.lent(), allowance, &mut answer, &mut counts);
        (cells.ended(answer), counts)
    }
}

/// The cells that runs are lent, one run after another.
#[derive(Clone, Debug)]
pub struct Cells {
    stack_in: Vec<u8>,
    stack_out: Vec<u8>,
    record: Vec<u8>,
}

impl Cells {
    /// So many bytes for stack in, stack out and the record.
    pub fn new(stack_in: usize, stack_out: usize, record: usize) -> Cells {
        Cells { stack_in: vec![0; stack_in], stack_out: vec![0; stack_out], record: vec![0; record] }
    }

    fn lent(&mut self) -> exports::Cells<'_> {
        let Cells { stack_in, stack_out, record } = self;
        exports::Cells { stack_in, stack_out, record }
    }

    fn ended(&self, [number, function, steps, text, record]: [u64; 5]) -> Ended<'_> {
        match Answer::of(number) {
            Answer::Done => {
                let (text, record) = (&self.stack_out[..text as usize], &self.record[..record as usize]);
                Ended::Done { text, record, steps }
            }
            answer => Ended::Early { answer, function: (function > 0).then_some(function as usize), steps },
        }
    }
}

/// How a run ended. Only one that is done has a text and emissions to use.
#[derive(Clone, Copy, PartialEq, Eq, Debug)]
pub enum Ended<'c> {
    Done {
        text: &'c [u8],
        /// A line for each emission.
        record: &'c [u8],
        steps: u64,
    },
    Early {
        answer: Answer,
        /// The function no sentence of which fits, counted from 1.
        function: Option<usize>,
        steps: u64,
    },
}
