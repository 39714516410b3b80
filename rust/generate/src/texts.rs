//! Texts for a function: mostly such as one of its patterns fits, else random ones.

use crate::angles;
use crate::random::Random;
use crate::trees::{LINE_ENDS, USUAL, usual_byte};
use refal0_apart::tree::{Function, Letter, Sentence, Subject};

/// Bytes of one class, or of two.
const FEW_CLASSES: &[&[u8]] = &[b"01", b"ab", b"A", b"aA", b" \t\n\r", b"a1", b" 1"];
const TRIES: usize = 8;

pub fn text(random: &mut Random, function: &Function) -> Vec<u8> {
    if random.one_in(4) {
        return filling(random);
    }
    let sentence = &function.sentences[random.below(function.sentences.len())];
    let mut text = fitting(random, sentence);
    if random.one_in(8) && !text.is_empty() {
        let at = random.below(text.len());
        text[at] = usual_byte(random);
    }
    text
}

fn filling(random: &mut Random) -> Vec<u8> {
    if random.one_in(8) {
        return if random.one_in(2) { angles::angle(random) } else { angles::argument(random) };
    }
    let length = if random.one_in(60) { random.below(400) } else { random.below(8) };
    if random.one_in(2) {
        let bytes = random.pick(FEW_CLASSES);
        return (0..length).map(|_| random.pick(bytes)).collect();
    }
    (0..length).map(|_| usual_byte(random)).collect()
}

/// The pattern with bytes for its variables.
fn fitting(random: &mut Random, sentence: &Sentence) -> Vec<u8> {
    let symbols: Vec<u8> = (0..sentence.symbols.len()).map(|symbol| symbol_byte(random, sentence, symbol)).collect();
    let mut text = Vec::new();
    for (number, template) in sentence.templates.iter().enumerate() {
        if number > 0 {
            text.extend(part_bytes(random, sentence, number - 1));
        }
        text.extend(template.iter().map(|letter| match *letter {
            Letter::Byte(byte) => byte,
            Letter::Symbol(symbol) => symbols[symbol],
        }));
    }
    text
}

/// Whether the conditions on a variable hold if it stands for these bytes.
fn hold(sentence: &Sentence, subject: Subject, bytes: &[u8]) -> bool {
    let mut conditions = sentence.conditions.iter().filter(|condition| condition.subject == subject);
    conditions.all(|condition| bytes.iter().all(|&byte| condition.class.holds(byte)) == condition.expected)
}

/// A byte for which the conditions hold, if a few tries find one.
fn symbol_byte(random: &mut Random, sentence: &Sentence, symbol: usize) -> u8 {
    let tried = if random.one_in(4) { LINE_ENDS } else { USUAL };
    let holds = |byte: &u8| hold(sentence, Subject::Symbol(symbol), &[*byte]);
    let fitting: Vec<u8> = tried.iter().copied().filter(holds).collect();
    if fitting.is_empty() { usual_byte(random) } else { random.pick(&fitting) }
}

/// Bytes for which the conditions hold, if a few tries find such.
fn part_bytes(random: &mut Random, sentence: &Sentence, part: usize) -> Vec<u8> {
    let mut bytes = filling(random);
    for _ in 0..TRIES {
        if hold(sentence, Subject::Part(part), &bytes) {
            break;
        }
        bytes = filling(random);
    }
    bytes
}
