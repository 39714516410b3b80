//! Whether a table is flat: it calls declared functions only by tail calls.

use crate::reader::{Read, Refusal, read_with_places};
use crate::tree::{Callee, Item, Sentence};

/// How many functions a flat table has; else its refusal, 1 to 8, or 19 at the leftmost declared call that is no tail
/// call.
pub fn flat(text: &[u8]) -> Read<usize> {
    let (table, places) = read_with_places(text)?;
    let sentences = table.functions.iter().flat_map(|function| &function.sentences);
    let nested = sentences.flat_map(nested_calls).zip(places).find(|&(nested, _)| nested);
    match nested {
        Some((_, place)) => Err(Refusal { number: 19, place }),
        None => Ok(table.functions.len()),
    }
}

/// The test's answer: number, place, functions.
pub fn flat_answer(text: &[u8]) -> [u64; 3] {
    match flat(text) {
        Ok(functions) => [0, 0, functions as u64],
        Err(Refusal { number, place }) => [number, place as u64, 0],
    }
}

/// Of each declared call, in the order of the text, whether it is no tail call.
fn nested_calls(sentence: &Sentence) -> Vec<bool> {
    let mut nested = Vec::new();
    let mut open = Vec::new();
    for (at, item) in sentence.expression.iter().enumerate() {
        match item {
            Item::Open(Callee::Function(_)) => {
                open.push(nested.len());
                nested.push(true);
            }
            Item::Close(Callee::Function(_)) => {
                let call = open.pop().expect("a call that closes is open");
                // what closes a declared call as the last item closes the tail call
                nested[call] = at + 1 < sentence.expression.len();
            }
            _ => {}
        }
    }
    nested
}
