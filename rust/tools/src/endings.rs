//! What a run ended with, in words.

use crate::shown::named;
use crate::tokens::tokens;
use refal0_apart::tree::Table;

/// The name of a function by its number from 1.
fn name(table: &Table, function: usize) -> String {
    let declared = function.checked_sub(1).and_then(|index| table.functions.get(index));
    declared.map_or(String::new(), |function| named(&function.name))
}

/// What the function of this number recovers, if it recovers any.
fn recovering(table: &Table, function: usize) -> String {
    let recovered = (0..table.functions.len()).find(|&other| table.recoverer(other) == Some(function - 1));
    recovered.map_or(String::new(), |other| format!(", which recovers {},", name(table, other + 1)))
}

/// What a table's text has in place of functions.
fn no_function(text: &[u8]) -> &'static str {
    let tokens = tokens(text);
    match (text, &tokens[..]) {
        ([], _) => "the table is empty",
        (_, []) => "the table has nothing but blanks",
        _ => "the table has nothing but comments",
    }
}

/// The sentence for an answer other than 0, and the function that it names; `text` is the table's.
pub fn ending(text: &[u8], table: &Table, answer: u64, function: usize) -> String {
    let said = match answer {
        9 => no_function(text),
        10 => "the sheet has more than 32768 bytes",
        11 => {
            let (name, recovering) = (name(table, function), recovering(table, function));
            return format!("no sentence of {name} (function {function}){recovering} fits the text that it was given");
        }
        12 => "all steps of the allowance are used; a function may be calling itself on a text that never gets shorter",
        13 => "stack in is full: a call has an argument that, with what its callers keep, passes 32768 bytes",
        14 => "stack out is full: the result and the arguments that are being written pass 32768 bytes",
        15 => {
            "the frames are used up: 256 applications wait for one another; \
             one whose last item is the call doesn't wait"
        }
        16 => "the record is full: the emissions pass 32768 bytes",
        20 => "DmAdd and DmSub take two angles with one blank between, like 12:30 -0:45",
        21 => "a sum or difference of angles passes 359:59 either way",
        _ => "the code is no code; this is a fault of the engine and not of the table",
    };
    String::from(said)
}
