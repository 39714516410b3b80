//! Matching against its plain meaning: every way to part the text is tried, the shortest first part first.

use generate::random::Random;
use generate::{texts, trees};
use refal0_apart::machine::{self, Rooms};
use refal0_apart::packing::code;
use refal0_apart::rewriter::rewrite;
use refal0_apart::tree::{Item, Letter, Sentence, Subject, Table};

/// The bytes of the s-variables and the e-variables' parts, if the text is the pattern with first part of this length.
fn separated(sentence: &Sentence, text: &[u8], first: usize) -> Option<(Vec<u8>, Vec<Vec<u8>>)> {
    let spare = text.len().checked_sub(sentence.letters())?;
    let lengths = match sentence.parts.len() {
        0 if spare == 0 && first == 0 => vec![],
        1 if first == spare => vec![first],
        2 if first <= spare => vec![first, spare - first],
        _ => return None,
    };
    let mut bytes = vec![None; sentence.symbols.len()];
    let mut parts = Vec::new();
    let mut rest = text;
    for (number, template) in sentence.templates.iter().enumerate() {
        if number > 0 {
            let (part, after) = rest.split_at(lengths[number - 1]);
            parts.push(part.to_vec());
            rest = after;
        }
        for letter in template {
            let wanted = match *letter {
                Letter::Byte(byte) => byte,
                Letter::Symbol(symbol) => *bytes[symbol].get_or_insert(rest[0]),
            };
            if wanted != rest[0] {
                return None;
            }
            rest = &rest[1..];
        }
    }
    let bytes: Vec<u8> = bytes.into_iter().flatten().collect();
    let hold = sentence.conditions.iter().all(|asked| {
        let subject = match asked.subject {
            Subject::Symbol(symbol) => &bytes[symbol..=symbol],
            Subject::Part(part) => &parts[part],
        };
        subject.iter().all(|&byte| asked.class.holds(byte)) == asked.expected
    });
    hold.then_some((bytes, parts))
}

/// Makes the expression show what each variable has taken.
fn show_values(sentence: &mut Sentence) {
    sentence.expression = (0..sentence.symbols.len()).map(Item::Symbol).collect();
    for part in 0..sentence.parts.len() {
        sentence.expression.extend([Item::Byte(b'|'), Item::Part(part)]);
    }
}

#[test]
fn the_first_fitting_parts_are_taken() {
    let mut random = Random::new(5);
    let (mut fitted, mut fitted_by_parts) = (0, 0);
    for _ in 0..20_000 {
        let mut function = trees::table(&mut random).functions.swap_remove(0);
        function.sentences.truncate(1);
        show_values(&mut function.sentences[0]);
        let text = texts::text(&mut random, &function);
        let table = Table { functions: vec![function], emissions: Vec::new() };
        let sentence = &table.functions[0].sentences[0];
        let found = (0..=text.len()).find_map(|first| separated(sentence, &text, first));
        let outcome = rewrite(&table, 1, &text, 9);
        assert_eq!(machine::run(&code(&table), 1, &text, 9, Rooms::WITHOUT_END).0, outcome);
        let Some((bytes, parts)) = found else {
            assert_eq!((outcome.answer, outcome.function), (11, 1));
            continue;
        };
        fitted += 1;
        let asks_part = sentence.conditions.iter().any(|asked| matches!(asked.subject, Subject::Part(_)));
        fitted_by_parts += usize::from(asks_part);
        let shown = parts.iter().fold(bytes, |shown, part| [shown.as_slice(), b"|", part].concat());
        assert_eq!((outcome.answer, outcome.text), (0, shown));
    }
    assert!(fitted > 5_000, "{fitted} fitted");
    assert!(fitted_by_parts > 1_000, "{fitted_by_parts} with conditions on parts fitted");
}
