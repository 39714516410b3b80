//! What is accepted, but is hardly meant: what a run never uses, and comments that go on too far.

use crate::near::{near, nearest};
use crate::shown::named;
use crate::spot::spot;
use crate::tokens::{Shape, Token, declared, tokens};
use refal0_apart::class::RECOVER;
use refal0_apart::tree::{Callee, Item, Letter, Sentence, Subject, Table};

/// The shortest variable that is compared with another by its spelling.
const SPELT: usize = 4;

/// What a person should look at, a line each, with the line of the table.
pub fn warnings(text: &[u8], table: &Table) -> Vec<String> {
    let tokens = tokens(text);
    let (names, starts) = (declared(&tokens), sentence_starts(&tokens));
    let line = |place: usize| spot(text, place).line;
    let mut found = Vec::new();
    for function in 0..table.functions.len() {
        let name = names[function].shown();
        if !called(table, function) {
            found.push(format!(
                "line {}: {name} is never called{}",
                line(names[function].place),
                unrecovered(table, function)
            ));
        }
        for (sentence, said) in of_sentences(table, function) {
            found.push(format!("line {}: in {name} {said}", line(starts[function][sentence])));
        }
    }
    found.extend(comments(text, &tokens));
    found
}

/// Where each sentence of each function begins, in an accepted table.
fn sentence_starts(tokens: &[Token]) -> Vec<Vec<usize>> {
    let mut starts: Vec<Vec<usize>> = Vec::new();
    let mut begins = false;
    for token in tokens.iter().filter(|token| token.shape != Shape::Comment) {
        if token.is("{") {
            starts.push(Vec::new());
            begins = true;
        } else if token.is(";") {
            begins = true;
        } else if token.is("}") {
            begins = false;
        } else if begins && !starts.is_empty() {
            starts.last_mut().expect("a function was begun").push(token.place);
            begins = false;
        }
    }
    starts
}

/// Whether a run can come to a function from another one, or starts there.
fn called(table: &Table, function: usize) -> bool {
    let calls = |other: usize| {
        let items = table.functions[other].sentences.iter().flat_map(|sentence| &sentence.expression);
        items.into_iter().any(|&item| item == Item::Open(Callee::Function(function)))
    };
    let others = 0..table.functions.len();
    function == 0
        || others
            .into_iter()
            .any(|other| other != function && (calls(other) || table.recoverer(other) == Some(function)))
}

/// What a function with the name of a recovery would recover, where there is no such function.
fn unrecovered(table: &Table, function: usize) -> String {
    let wanted = table.functions[function].name.strip_prefix(RECOVER).filter(|wanted| !wanted.is_empty());
    let Some(wanted) = wanted else { return String::new() };
    let names = table.functions.iter().map(|other| other.name.as_slice());
    match nearest(wanted, names) {
        Some(near) => format!(", and recovers nothing: did you mean Recover{}?", named(near)),
        None => format!(", and there is no {} that it could recover", named(wanted)),
    }
}

/// The sentences that should be looked at, by their index, and why.
fn of_sentences(table: &Table, function: usize) -> Vec<(usize, String)> {
    let sentences = &table.functions[function].sentences;
    let mut found = Vec::new();
    if let Some(wide) = sentences.iter().position(takes_everything).filter(|wide| wide + 1 < sentences.len()) {
        found.push((
            wide + 1,
            format!("sentence {} is never tried, since sentence {} takes every text", wide + 2, wide + 1),
        ));
    }
    for (index, sentence) in sentences.iter().enumerate() {
        if let Some((unused, other)) = unused_variable(sentence) {
            let said = format!("sentence {} doesn't use {unused}, and {other} is nearly the same name", index + 1);
            found.push((index, said));
        }
    }
    found
}

/// One e-variable and nothing else: no later sentence is ever tried.
fn takes_everything(sentence: &Sentence) -> bool {
    sentence.letters() == 0 && sentence.parts.len() == 1 && sentence.conditions.is_empty()
}

/// A variable that stands in the pattern alone, once, while another of nearly the same name is there.
fn unused_variable(sentence: &Sentence) -> Option<(String, String)> {
    let variables = |kind: char, names: &[Vec<u8>]| -> Vec<String> {
        names.iter().map(|name| format!("{kind}{}", named(name))).collect()
    };
    let (symbols, parts) = (variables('s', &sentence.symbols), variables('e', &sentence.parts));
    let symbol_used = |symbol: usize| {
        let places = sentence.templates.iter().flatten().filter(|&&letter| letter == Letter::Symbol(symbol)).count();
        places > 1 || uses(sentence, Item::Symbol(symbol), Subject::Symbol(symbol))
    };
    let part_used = |part: usize| uses(sentence, Item::Part(part), Subject::Part(part));
    let unused = (0..symbols.len()).filter(|&symbol| !symbol_used(symbol)).map(|symbol| &symbols[symbol]);
    let mut unused = unused.chain((0..parts.len()).filter(|&part| !part_used(part)).map(|part| &parts[part]));
    unused.find_map(|name| {
        let mut others = symbols.iter().chain(&parts);
        let other =
            others.find(|other| *other != name && name.len() >= SPELT && near(name.as_bytes(), other.as_bytes()))?;
        Some((name.clone(), other.clone()))
    })
}

fn uses(sentence: &Sentence, item: Item, subject: Subject) -> bool {
    sentence.expression.contains(&item) || sentence.conditions.iter().any(|condition| condition.subject == subject)
}

/// Comments in which another one begins: what stands between them is no part of the table.
fn comments<'t>(text: &'t [u8], tokens: &'t [Token<'t>]) -> impl Iterator<Item = String> + 't {
    let comments = tokens.iter().filter(|token| token.shape == Shape::Comment);
    comments.filter_map(|comment| {
        let inner = 2 + comment.text[2..].windows(2).position(|pair| pair == b"/*")?;
        let (outer, inner) = (spot(text, comment.place).line, spot(text, comment.place + inner).line);
        Some(format!("line {outer}: this comment goes on up to a */ after the /* of line {inner}"))
    })
}
