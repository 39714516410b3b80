//! The comparisons of one call of the engine with the system written apart.

use crate::engine::{self, Left};
use refal0_apart::corpus::Lending;
use refal0_apart::flat::flat_answer;
use refal0_apart::outcome::Outcome;
use refal0_apart::packing::pack;
use refal0_apart::reader::{Refusal, read};
use refal0_apart::rewriter::rewrite;
use refal0_apart::translation::translate;
use refal0_apart::tree::Table;

pub type Check<T = ()> = Result<T, String>;

/// Words lent for the code of a table that is refused.
const REFUSED_ROOM: usize = 40;

pub fn equal<T: PartialEq + std::fmt::Debug>(what: &str, expected: T, found: T) -> Check {
    if expected == found {
        return Ok(());
    }
    Err(format!("{what}\n  expected: {expected:?}\n  found:    {found:?}"))
}

fn holds(what: &str, held: bool) -> Check {
    if held { Ok(()) } else { Err(what.to_string()) }
}

fn answer(number: u64, place: usize, count: usize) -> [u64; 3] {
    [number, place as u64, count as u64]
}

pub fn reading(table: &[u8]) -> Check {
    let expected = match read(table) {
        Ok(tree) => answer(0, 0, tree.functions.len()),
        Err(Refusal { number, place }) => answer(number, place, 0),
    };
    equal("reading: number, place, functions", expected, engine::read(table)?)
}

pub fn flatness(table: &[u8]) -> Check {
    equal("flat: number, place, functions", flat_answer(table), engine::flat(table)?)
}

/// Translating a table that must be refused.
pub fn refused_translation(table: &[u8], refusal: Refusal) -> Check {
    let (found, code) = engine::translate(table, REFUSED_ROOM)?;
    equal("translating: number, place, words", answer(refusal.number, refusal.place, 0), found)?;
    holds("the code buffer of a refused table is not all zero", code.iter().all(|&word| word == 0))
}

/// Translating with a buffer at least as long as the code, or shorter.
pub fn translation_room(table: &[u8], code: &[u32], room: usize) -> Check {
    let (found, buffer) = engine::translate(table, room)?;
    if room < code.len() {
        equal("translating: number, place, words", answer(17, 0, 0), found)?;
        return holds("the code buffer that is too short is not all zero", buffer.iter().all(|&word| word == 0));
    }
    equal("translating: number, place, words", answer(0, 0, code.len()), found)?;
    equal("translating: words", code, &buffer[..code.len()])?;
    holds("a word after the code is not zero", buffer[code.len()..].iter().all(|&word| word == 0))
}

/// The lent run's outcome, which must be the rewriting's where the run without end keeps within the rooms.
pub fn expected_outcome(tree: &Table, code: &[u32], lending: &Lending) -> Check<Outcome> {
    let outcome = lending.run(code);
    if !matches!(outcome.answer, 10 | 13..=16) {
        let rewritten = rewrite(tree, lending.start, &lending.text, lending.allowance);
        equal("rewriter and machine of this system", rewritten, outcome.clone())?;
    }
    Ok(outcome)
}

pub fn run(tree: &Table, code: &[u32], lending: &Lending) -> Check {
    runs_to(&expected_outcome(tree, code, lending)?, code, lending)
}

/// A run of any words as code.
pub fn wild_run(code: &[u32], lending: &Lending) -> Check {
    runs_to(&lending.run(code), code, lending)
}

/// The engine's run comes to this outcome; profiled, it leaves the same, and the counts.
fn runs_to(expected: &Outcome, code: &[u32], lending: &Lending) -> Check {
    let left = engine::run(code, lending)?;
    left_as_expected(expected, &left)?;
    let (profiled, counts) = engine::profile(code, lending)?;
    holds("a profiled run leaves something else than the run", profiled == left)?;
    equal("profiling: applications by function", &expected.counts, &counts)
}

fn left_as_expected(expected: &Outcome, left: &Left) -> Check {
    let Outcome { answer, function, steps, text, record, .. } = expected;
    let whole = [*answer, *function as u64, *steps, text.len() as u64, record.len() as u64];
    equal("running: answer, function, steps, length of text and emissions", whole, left.answer)?;
    if expected.before_run() {
        let unchanged = left.stack_in.unchanged() && left.stack_out.unchanged() && left.record.unchanged();
        return holds("a refused start has changed what was lent", unchanged);
    }
    holds("stack in is not all zero after the run", left.stack_in.contents().iter().all(|&cell| cell == 0))?;
    let (result, rest) = left.stack_out.contents().split_at(text.len());
    equal("running: result", text.as_slice(), result)?;
    holds("stack out is not zero after the result", rest.iter().all(|&cell| cell == 0))?;
    let (emissions, rest) = left.record.contents().split_at(record.len());
    equal("running: emissions", record.as_slice(), emissions)?;
    holds("the record past the emissions is changed", *rest == left.record.before()[record.len()..])
}

#[cfg(feature = "listing")]
pub fn listing(table: &[u8], spare: usize) -> Check {
    let (expected, listing) = match read(table) {
        Ok(tree) => {
            let listing = refal0_apart::listing::list(&tree);
            (answer(0, 0, listing.len()), listing)
        }
        Err(refusal) => (answer(refusal.number, refusal.place, 0), Vec::new()),
    };
    let (found, buffer) = engine::list(table, listing.len() + spare)?;
    equal("listing: number, place, length", expected, found)?;
    equal("listing", listing.as_slice(), &buffer.contents()[..listing.len()])?;
    let rest = listing.len()..;
    holds("bytes after the listing are changed", buffer.contents()[rest.clone()] == buffer.before()[rest])?;
    if listing.is_empty() {
        return Ok(());
    }
    let (found, buffer) = engine::list(table, listing.len() - 1)?;
    equal("listing: number, place, length", answer(17, 0, 0), found)?;
    holds("a listing buffer that is too short is changed", buffer.unchanged())
}

/// All that is compared of a table alone; the tree with its code if it is accepted.
pub fn table(text: &[u8]) -> Check<Option<(Table, Vec<u32>)>> {
    reading(text)?;
    flatness(text)?;
    #[cfg(feature = "listing")]
    listing(text, 5)?;
    match read(text) {
        Err(refusal) => refused_translation(text, refusal).map(|()| None),
        Ok(tree) => {
            let program = translate(&tree);
            let code = pack(&program);
            translation_room(text, &code, program.word_bound())?;
            Ok(Some((tree, code)))
        }
    }
}
