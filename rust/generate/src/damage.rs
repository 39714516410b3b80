//! Damaged tables: small changes to a sound text, most of which the reader must refuse somewhere.

use crate::random::Random;
use refal0_apart::class::Class;
use refal0_apart::lexer::in_name;
use std::ops::Range;

#[rustfmt::skip]
const SNIPPETS: &[&str] = &[
    "'", "\"", "\\", "/*", "*/", "/", "<", ">", "{", "}", ";", "=", ",", ":", " ", "\n", "\0", "\u{e9}", "_", "-",
    "0", "''", "'T'", "'F'", "'\\84'", "'\\256'", "'\\255'", "'a'", "'\\n'", "'\\q'", "e1", "e2", "s1", "s0", "s",
    "e", "S1", "x", "s1_", "e91", "e92", "s123456789", "e123456789", "s12345678", "IsDigit", "Emit", "EmitA", "F0",
    "F1", "<F0>", "<F0", "<Nowhere>", "<IsDigit s0>", ", <IsDigit s0>: 'T'", ", <F0 s0>: 'F'", ",<IsBlank e91>:'T'",
    ",<IsDigit e92>:'F'", "<IsDigit e91>", "Recover", "RecoverF0", "}RecoverF0{e1=e1}", "<RecoverF1>",
    "DmAdd", "DmSub", "<DmAdd '1:00 2:00'>", "<DmSub", "}DmAdd{e1=e1}", ", <DmSub s0>: 'T'", "<DmAdd2>", "<DmAdd>",
    "= ''", ";;", "}F0{", "} Gone { = }", "<EmitB 'x'>", "< F0>", "</**/F0>", "/* open", "NameOfTwentyFiveBytes-123",
    "<NameOfTwentyFiveBytes-123>", "'\\0000000000000000000000255'", "'a\\\nb'", "'a\\\r\nb'",
];

pub fn damage(random: &mut Random, text: &[u8]) -> Vec<u8> {
    let mut damaged = text.to_vec();
    for _ in 0..1 + random.below(3) {
        match random.below(8) {
            0 => cut(random, &mut damaged),
            1 | 2 => insert(random, &mut damaged),
            3 => replace_byte(random, &mut damaged),
            4 => copy_span(random, &mut damaged),
            5 => swap_words(random, &mut damaged),
            6 => turn_subject(random, &mut damaged),
            _ => truncate(random, &mut damaged),
        }
    }
    damaged
}

/// A short span that lies in the text.
fn span(random: &mut Random, text: &[u8]) -> Range<usize> {
    let from = random.below(text.len() + 1);
    let length = random.pick(&[1, 1, 1, 2, 3, 8, 30]);
    from..(from + length).min(text.len())
}

fn cut(random: &mut Random, text: &mut Vec<u8>) {
    let span = span(random, text);
    text.drain(span);
}

fn insert(random: &mut Random, text: &mut Vec<u8>) {
    let at = random.below(text.len() + 1);
    let snippet = random.pick(SNIPPETS).bytes();
    text.splice(at..at, snippet);
}

fn replace_byte(random: &mut Random, text: &mut Vec<u8>) {
    let span = span(random, text);
    let snippet = random.pick(SNIPPETS).bytes();
    text.splice(span, snippet);
}

fn copy_span(random: &mut Random, text: &mut Vec<u8>) {
    let copied = text[span(random, text)].to_vec();
    let at = random.below(text.len() + 1);
    text.splice(at..at, copied);
}

/// Puts one word of the text in another's place: names and variables that are known but wrong here.
fn swap_words(random: &mut Random, text: &mut Vec<u8>) {
    let words = words(text);
    if words.is_empty() {
        return;
    }
    let from = words[random.below(words.len())].clone();
    let to = words[random.below(words.len())].clone();
    let word = text[from].to_vec();
    text.splice(to, word);
}

/// Turns the s-variable of a condition into an e-variable, or the other way round.
fn turn_subject(random: &mut Random, text: &mut [u8]) {
    let words = words(text);
    let asked = |pair: &&[Range<usize>]| Class::of_predicate(&text[pair[0].clone()]).is_some();
    let subjects: Vec<usize> = words.windows(2).filter(asked).map(|pair| pair[1].start).collect();
    if subjects.is_empty() {
        return;
    }
    let at = random.pick(&subjects);
    text[at] = if text[at] == b's' { b'e' } else { b's' };
}

fn words(text: &[u8]) -> Vec<Range<usize>> {
    let mut words = Vec::new();
    let mut at = 0;
    for word in text.split(|&byte| !in_name(byte)) {
        if !word.is_empty() {
            words.push(at..at + word.len());
        }
        at += word.len() + 1;
    }
    words
}

fn truncate(random: &mut Random, text: &mut Vec<u8>) {
    if random.one_in(3) {
        let length = random.below(text.len() + 1);
        text.truncate(length);
    }
}

/// Bytes without any sense, or a heap of snippets.
pub fn rubbish(random: &mut Random) -> Vec<u8> {
    let length = random.below(30);
    if random.one_in(2) {
        return (0..length).map(|_| random.byte()).collect();
    }
    (0..length).flat_map(|_| random.pick(SNIPPETS).bytes()).collect()
}
