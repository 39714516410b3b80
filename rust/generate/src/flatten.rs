//! Makes tables flat, or one call off it.

use crate::random::Random;
use refal0_apart::reader::{ITEM_LIMIT, NESTING_LIMIT};
use refal0_apart::tree::{Callee, Item, Sentence, Table};

/// Takes away the declared calls that are no tail calls and puts in tail calls; at times one more call.
pub fn flatten(random: &mut Random, table: &mut Table) {
    let functions = table.functions.len();
    for sentence in table.functions.iter_mut().flat_map(|function| &mut function.sentences) {
        take_nested_away(sentence);
        if random.one_in(2) {
            add_tail_call(random, sentence, functions);
        }
    }
    if random.one_in(2) {
        let function = random.below(functions);
        let sentences = &mut table.functions[function].sentences;
        let sentence = random.below(sentences.len());
        add_call(random, &mut sentences[sentence], functions);
    }
}

/// The arguments of the calls stay in their places.
fn take_nested_away(sentence: &mut Sentence) {
    let items = std::mem::take(&mut sentence.expression);
    let mut open = Vec::new();
    let mut kept = vec![true; items.len()];
    for (at, item) in items.iter().enumerate() {
        match item {
            Item::Open(Callee::Function(_)) => open.push(at),
            Item::Close(Callee::Function(_)) => {
                let begin = open.pop().expect("a call that closes is open");
                let tail = at + 1 == items.len();
                (kept[begin], kept[at]) = (tail, tail);
            }
            _ => {}
        }
    }
    sentence.expression = items.into_iter().zip(kept).filter(|&(_, kept)| kept).map(|(item, _)| item).collect();
}

/// Lets the last items outermost be the argument of a call, if that isn't a second tail call or too much.
fn add_tail_call(random: &mut Random, sentence: &mut Sentence, functions: usize) {
    let items = &mut sentence.expression;
    let calls = items.iter().any(|item| matches!(item, Item::Open(Callee::Function(_))));
    let nestings = nestings(items);
    let deepest = nestings.iter().max().copied().unwrap_or(0);
    if calls || count(items) == ITEM_LIMIT || deepest == NESTING_LIMIT {
        return;
    }
    let outermost: Vec<usize> = (0..=items.len()).filter(|&at| nestings[at] == 0).collect();
    let callee = Callee::Function(random.below(functions));
    items.insert(random.pick(&outermost), Item::Open(callee));
    items.push(Item::Close(callee));
}

/// Puts a call without an argument anywhere, if it isn't too much.
fn add_call(random: &mut Random, sentence: &mut Sentence, functions: usize) {
    let items = &mut sentence.expression;
    let at = random.below(items.len() + 1);
    if count(items) < ITEM_LIMIT && nestings(items)[at] < NESTING_LIMIT {
        let callee = Callee::Function(random.below(functions));
        items.splice(at..at, [Item::Open(callee), Item::Close(callee)]);
    }
}

/// How many items the limit counts: a call is one.
fn count(items: &[Item]) -> usize {
    items.iter().filter(|item| !matches!(item, Item::Close(_))).count()
}

/// How many calls are open before each item, and after the last.
fn nestings(items: &[Item]) -> Vec<usize> {
    let mut open = 0;
    let mut nestings = vec![open];
    for item in items {
        match item {
            Item::Open(_) => open += 1,
            Item::Close(_) => open -= 1,
            _ => {}
        }
        nestings.push(open);
    }
    nestings
}
