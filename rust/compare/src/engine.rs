//! Calls of the engine with guarded buffers: what they leave, or which guard they broke.

use crate::lent::Lent;
use refal0::exports::{self, Cells};
use refal0_apart::corpus::Lending;
use refal0_apart::outcome::Counts;

const BYTE_MARK: u8 = 0xa5;
const WORD_MARK: u32 = 0xa5a5_a5a5;
const ANSWER_MARK: u64 = 0xa5a5_a5a5_a5a5_a5a5;

/// What a call leaves, or what it wrote that was not lent for writing.
pub type Kept<T> = Result<T, String>;

fn whole(name: &str, kept: bool) -> Kept<()> {
    if kept { Ok(()) } else { Err(format!("the engine wrote round {name}, or into it where it is only read")) }
}

/// Room for an answer of `N` words between guards.
struct Answer<const N: usize>(Lent<u64>);

impl<const N: usize> Answer<N> {
    fn new() -> Answer<N> {
        Answer(Lent::new(&[ANSWER_MARK; N], ANSWER_MARK))
    }

    fn words(&mut self) -> &mut [u64; N] {
        self.0.contents_mut().try_into().expect("an answer has its length")
    }

    fn kept(mut self) -> Kept<[u64; N]> {
        whole("the answer", self.0.guards_whole())?;
        Ok(*self.words())
    }
}

/// Number, place, functions.
pub fn read(table: &[u8]) -> Kept<[u64; 3]> {
    asked_of_table(table, exports::read)
}

/// Number, place, functions.
pub fn flat(table: &[u8]) -> Kept<[u64; 3]> {
    asked_of_table(table, exports::flat)
}

/// One call of the engine that reads a table and answers, and writes nothing else.
fn asked_of_table(table: &[u8], call: fn(&[u8], &mut [u64; 3])) -> Kept<[u64; 3]> {
    let table = Lent::new(table, BYTE_MARK);
    let mut answer = Answer::new();
    call(table.contents(), answer.words());
    whole("the table", table.unchanged())?;
    answer.kept()
}

/// Number, place, length of the listing; and the buffer of `room` bytes.
#[cfg(feature = "listing")]
pub fn list(table: &[u8], room: usize) -> Kept<([u64; 3], Lent<u8>)> {
    let table = Lent::new(table, BYTE_MARK);
    let mut listing = Lent::new(&used(room), BYTE_MARK);
    let mut answer = Answer::new();
    exports::list(table.contents(), listing.contents_mut(), answer.words());
    whole("the table", table.unchanged())?;
    whole("the listing", listing.guards_whole())?;
    Ok((answer.kept()?, listing))
}

/// Number, place, words of code; and the code buffer of `room` words.
pub fn translate(table: &[u8], room: usize) -> Kept<([u64; 3], Vec<u32>)> {
    let table = Lent::new(table, BYTE_MARK);
    let mut code = Lent::new(&vec![WORD_MARK; room], WORD_MARK);
    let mut answer = Answer::new();
    exports::translate(table.contents(), code.contents_mut(), answer.words());
    whole("the table", table.unchanged())?;
    whole("the code", code.guards_whole())?;
    Ok((answer.kept()?, code.contents().to_vec()))
}

/// What a run left behind.
#[derive(PartialEq)]
pub struct Left {
    /// Answer, function, steps, length of the text, length of the emissions.
    pub answer: [u64; 5],
    pub stack_in: Lent<u8>,
    pub stack_out: Lent<u8>,
    pub record: Lent<u8>,
}

/// Bytes that a lent buffer holds before a call: none of them 0.
fn used(length: usize) -> Vec<u8> {
    (0..length).map(|place| 1 + (place % 251) as u8).collect()
}

pub fn run(code: &[u32], lending: &Lending) -> Kept<Left> {
    lent_run(code, lending, |code, text, cells, answer| {
        exports::run(code, lending.start, text, cells, lending.allowance, answer);
    })
}

/// What a run left behind, and the functions' applications.
pub fn profile(code: &[u32], lending: &Lending) -> Kept<(Left, Counts)> {
    let mut counts = Answer::new();
    let left = lent_run(code, lending, |code, text, cells, answer| {
        exports::profile(code, lending.start, text, cells, lending.allowance, answer, counts.words());
    })?;
    Ok((left, Counts(Box::new(counts.kept()?))))
}

/// One call of the engine with code, text, the cells lent for a run and room for its answer.
fn lent_run(code: &[u32], lending: &Lending, call: impl FnOnce(&[u32], &[u8], Cells, &mut [u64; 5])) -> Kept<Left> {
    let code = Lent::new(code, WORD_MARK);
    let text = Lent::new(&lending.text, BYTE_MARK);
    let mut stack_in = Lent::new(&used(lending.rooms.stack_in), BYTE_MARK);
    let mut stack_out = Lent::new(&used(lending.rooms.stack_out), BYTE_MARK);
    let mut record = Lent::new(&used(lending.rooms.record), BYTE_MARK);
    let mut answer = Answer::new();
    let cells =
        Cells { stack_in: stack_in.contents_mut(), stack_out: stack_out.contents_mut(), record: record.contents_mut() };
    call(code.contents(), text.contents(), cells, answer.words());
    whole("the code", code.unchanged())?;
    whole("the text", text.unchanged())?;
    whole("stack in", stack_in.guards_whole())?;
    whole("stack out", stack_out.guards_whole())?;
    whole("the record", record.guards_whole())?;
    Ok(Left { answer: answer.kept()?, stack_in, stack_out, record })
}
