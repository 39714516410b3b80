//! The rewriter: Refal-0's own rules on the tree, without stacks in and out, cells or frames.

use crate::angles::Operation;
use crate::outcome::{Applications, Outcome, Stop};
use crate::reader::SYMBOL_LIMIT;
use crate::tree::{Callee, Function, Item, Letter, Sentence, Subject, Table};

/// Who is told what a rewriting does, while it does it. `waiting` is how many applications wait for this one.
pub trait Watcher {
    /// A function, by its index, is applied to a text: the sentence that fits, by its index, with its variables.
    fn applied(&mut self, _waiting: usize, _function: usize, _text: &[u8], _chosen: Option<(usize, &Values)>) {}
    /// A line is added to the record.
    fn emitted(&mut self, _waiting: usize, _name: &[u8], _argument: &[u8]) {}
    /// An angle call has a result, or the answer that stops the run.
    fn computed(&mut self, _waiting: usize, _operation: Operation, _argument: &[u8], _result: &Result<Vec<u8>, u64>) {}
}

/// Nobody is told.
struct Nobody;

impl Watcher for Nobody {}

/// Applies function `start`, counted from 1, to the text.
pub fn rewrite(table: &Table, start: usize, text: &[u8], allowance: u32) -> Outcome {
    rewrite_watched(table, start, text, allowance, &mut Nobody)
}

/// The same, with somebody who is told of each application, emission and angle call.
pub fn rewrite_watched<W: Watcher>(
    table: &Table,
    start: usize,
    text: &[u8],
    allowance: u32,
    watcher: &mut W,
) -> Outcome {
    if start == 0 || start > table.functions.len() {
        return Outcome::refused(9);
    }
    let mut rewriter = Rewriter {
        table,
        applications: Applications::allowed(allowance),
        record: Vec::new(),
        result: Vec::new(),
        open: Vec::new(),
        waiting: Vec::new(),
        watcher,
    };
    let end = rewriter.run(start - 1, text);
    let result = std::mem::take(&mut rewriter.result);
    Outcome::of(end.map(|()| result), rewriter.applications, rewriter.record)
}

struct Rewriter<'t, W> {
    table: &'t Table,
    applications: Applications,
    record: Vec<u8>,
    /// All text that is ready, the arguments of open calls last.
    result: Vec<u8>,
    /// Where the argument of each open call begins in the result.
    open: Vec<usize>,
    /// The expressions not yet finished, the innermost last.
    waiting: Vec<Substitution<'t>>,
    watcher: &'t mut W,
}

/// An expression to be put in a call's place, with its next item and the values of its variables.
struct Substitution<'t> {
    items: &'t [Item],
    next: usize,
    text: Vec<u8>,
    values: Values,
}

/// The bytes of the s-variables and where the e-variables' parts lie in the text.
#[derive(Clone, Copy, Default)]
pub struct Values {
    pub symbols: [Option<u8>; SYMBOL_LIMIT],
    pub parts: [(usize, usize); 2],
}

impl<W: Watcher> Rewriter<'_, W> {
    fn run(&mut self, start: usize, text: &[u8]) -> Result<(), Stop> {
        self.apply(start, text.to_vec())?;
        while let Some(current) = self.waiting.last_mut() {
            let Some(&item) = current.items.get(current.next) else {
                self.waiting.pop();
                continue;
            };
            current.next += 1;
            match item {
                Item::Byte(byte) => self.result.push(byte),
                Item::Symbol(symbol) => self.result.extend(current.values.symbols[symbol]),
                Item::Part(part) => {
                    let (from, to) = current.values.parts[part];
                    self.result.extend_from_slice(&current.text[from..to]);
                }
                Item::Open(_) => self.open.push(self.result.len()),
                Item::Close(callee) => self.call(callee)?,
            }
        }
        Ok(())
    }

    fn call(&mut self, callee: Callee) -> Result<(), Stop> {
        let begin = self.open.pop().expect("a call that closes is open");
        let argument = self.result.split_off(begin);
        match callee {
            Callee::Emission(number) => {
                self.watcher.emitted(self.waiting.len(), &self.table.emissions[number], &argument);
                self.record.extend_from_slice(&self.table.emissions[number]);
                self.record.push(32);
                self.record.extend(argument);
                self.record.push(10);
                Ok(())
            }
            Callee::Angles(operation) => {
                let result = operation.of_text(&argument);
                self.watcher.computed(self.waiting.len(), operation, &argument, &result);
                self.result.extend(result.map_err(Stop::because)?);
                Ok(())
            }
            Callee::Function(number) => {
                self.let_go();
                self.apply(number, argument)
            }
        }
    }

    /// Frees what the current expression has no more use for, so that long recursions stay small.
    fn let_go(&mut self) {
        let current = self.waiting.last_mut().expect("a call stands in an expression");
        let rest = &current.items[current.next..];
        if rest.is_empty() {
            self.waiting.pop();
        } else if !rest.iter().any(|item| matches!(item, Item::Part(_))) {
            current.text = Vec::new();
        }
    }

    /// Applies a function, and where none of its sentences fits the one that recovers it.
    fn apply(&mut self, mut number: usize, text: Vec<u8>) -> Result<(), Stop> {
        loop {
            self.applications.ask()?;
            self.applications.make(number + 1);
            let function = &self.table.functions[number];
            let chosen = choose(function, &text);
            let told = chosen.as_ref().map(|(sentence, values)| (*sentence, values));
            self.watcher.applied(self.waiting.len(), number, &text, told);
            if let Some((sentence, values)) = chosen {
                let items = &function.sentences[sentence].expression;
                self.waiting.push(Substitution { items, next: 0, text, values });
                return Ok(());
            }
            number = self.table.recoverer(number).ok_or(Stop { answer: 11, function: number + 1 })?;
        }
    }
}

/// The first sentence of the function that fits, by its index, with the values of its variables.
pub fn choose(function: &Function, text: &[u8]) -> Option<(usize, Values)> {
    let mut sentences = function.sentences.iter().enumerate();
    sentences.find_map(|(index, sentence)| Some((index, fit(sentence, text)?)))
}

/// The values with which the sentence's pattern is the text and its conditions hold.
fn fit(sentence: &Sentence, text: &[u8]) -> Option<Values> {
    let spare = text.len().checked_sub(sentence.letters())?;
    let mut values = Values::default();
    let end = text.len();
    match sentence.templates.as_slice() {
        [whole] => (spare == 0 && take(whole, text, &mut values) && hold(sentence, text, &values)).then_some(values),
        [head, tail] => {
            values.parts[0] = (head.len(), end - tail.len());
            let taken = take(head, text, &mut values) && take(tail, &text[end - tail.len()..], &mut values);
            (taken && hold(sentence, text, &values)).then_some(values)
        }
        [head, middle, tail] => {
            let taken = take(head, text, &mut values) && take(tail, &text[end - tail.len()..], &mut values);
            if !taken {
                return None;
            }
            (head.len()..=head.len() + spare).find_map(|place| {
                let mut tried = values;
                tried.parts = [(head.len(), place), (place + middle.len(), end - tail.len())];
                (take(middle, &text[place..], &mut tried) && hold(sentence, text, &tried)).then_some(tried)
            })
        }
        _ => unreachable!("a pattern has at most two e-variables"),
    }
}

/// Lets a template take the first bytes of the text; equal s-variables take equal bytes.
fn take(template: &[Letter], text: &[u8], values: &mut Values) -> bool {
    template.iter().zip(text).all(|(letter, &byte)| match *letter {
        Letter::Byte(wanted) => wanted == byte,
        Letter::Symbol(symbol) => *values.symbols[symbol].get_or_insert(byte) == byte,
    })
}

/// An s-variable's byte is in the class, or every byte of an e-variable's part, as each condition expects it.
fn hold(sentence: &Sentence, text: &[u8], values: &Values) -> bool {
    sentence.conditions.iter().all(|condition| {
        let within = match condition.subject {
            Subject::Symbol(symbol) => {
                condition.class.holds(values.symbols[symbol].expect("a condition's variable stands in the pattern"))
            }
            Subject::Part(part) => {
                let (from, to) = values.parts[part];
                text[from..to].iter().all(|&byte| condition.class.holds(byte))
            }
        };
        within == condition.expected
    })
}
