//! Whatever is wrong with a table, a sentence is said of it.

use generate::damage::{damage, rubbish};
use generate::dress::dress;
use generate::random::Random;
use generate::trees;
use refal0_apart::reader::read;
use std::fs;
use tools::emits::unknown_emission;
use tools::mistakes::said;
use tools::tokens::{Shape, tokens};
use tools::warnings::warnings;

const COUNT: usize = 20_000;

#[test]
fn every_refusal_is_said_in_a_sentence() {
    let mut random = Random::new(30);
    let mut refused = 0;
    for round in 0..COUNT {
        let table = trees::table(&mut random);
        let text = dress(&mut random, &table);
        let text = if round % 8 == 0 { rubbish(&mut random) } else { damage(&mut random, &text) };
        match read(&text) {
            Ok(tree) => drop((warnings(&text, &tree), unknown_emission("table", &text, &[]))),
            Err(refusal) => {
                refused += 1;
                let sentence = said("table", &text, refusal.number, refusal.place);
                assert!(sentence.starts_with("table"), "{sentence}");
                assert!(sentence.lines().last().is_some_and(|line| line.len() > 10), "{sentence}");
            }
        }
    }
    assert!(refused > COUNT / 4, "{refused} refused");
}

/// What is said of a table, without the place.
fn sentence(table: &[u8]) -> String {
    let refusal = read(table).expect_err("the table is refused");
    let said = said("table", table, refusal.number, refusal.place);
    String::from(said.lines().last().unwrap_or_default())
}

#[test]
fn bytes_that_no_document_can_show_are_named() {
    let plain = "outside strings and comments a table is plain ASCII";
    assert_eq!(sentence(b"\xff\xfeF\0 \0{\0"), "the table is saved as UTF-16: save it as plain text");
    assert_eq!(sentence(b"F { e1 = e1 }\n\x1a"), format!("byte 26 can't stand here: {plain}"));
    assert_eq!(sentence(b"F { e1 = \0 e1 }"), format!("byte 0 can't stand here: {plain}"));
    assert_eq!(sentence(b"Gr\xf6\xdfe { e1 = e1 }"), format!("byte 246 can't stand here: {plain}"));
    assert_eq!(
        sentence(b"F { e1 = 'a\\\r\nb' }\r\n"),
        "\\ joins two lines only right before byte 10, and this table's line ends have two bytes, 13 and 10"
    );
}

#[test]
fn a_string_that_is_too_long_is_no_sentence_too_many() {
    let table = format!("F {{ '{}' = }}", "0".repeat(65));
    assert_eq!(
        sentence(table.as_bytes()),
        "a pattern has at most 64 characters and s-variables, and these are too many"
    );
}

#[test]
fn a_recovery_of_nothing_is_warned_of() {
    let warned = |text: &[u8]| warnings(text, &read(text).expect("the table is sound")).join("\n");
    let names = "line 1: RecoverLines is never called, and recovers nothing: did you mean RecoverLine?";
    assert_eq!(warned(b"Line { 'A' = } RecoverLines { e1 = }"), names);
    let none = "line 1: RecoverStop is never called, and there is no Stop that it could recover";
    assert_eq!(warned(b"Line { 'A' = } RecoverStop { e1 = }"), none);
    assert_eq!(warned(b"Line { 'A' = } RecoverLine { e1 = }"), "");
}

/// What is said where a mark of a sound table was forgotten: one of these, for a string's quotes at its two ends.
const FORGOTTEN: [(&str, &[&str]); 10] = [
    ("{", &["{ has to follow"]),
    ("}", &["has no }"]),
    (";", &["; is missing", "a second ="]),
    ("=", &["has no =", "one ; too many"]),
    ("<", &["a call is written <", "a predicate stands between < and >"]),
    (">", &["has no >", "a > is missing"]),
    (",", &["a , has to stand before a condition"]),
    (":", &["a : is missing"]),
    ("'", &["' is missing before", "no closing '"]),
    ("closing '", &["no closing '"]),
];

/// The sentence for a table without one of its bytes, if it is refused.
fn without(table: &[u8], place: usize) -> Option<String> {
    let shorter = [&table[..place], &table[place + 1..]].concat();
    read(&shorter).is_err().then(|| sentence(&shorter))
}

fn check_forgotten(table: &[u8], place: usize, mark: &str) -> bool {
    let (_, causes) = FORGOTTEN.iter().find(|(known, _)| *known == mark).expect("the mark is known");
    let Some(said) = without(table, place) else { return false };
    assert!(causes.iter().any(|cause| said.contains(cause)), "without the {mark} at byte {place}: {said}");
    true
}

#[test]
fn each_forgotten_mark_is_named() {
    let examples = concat!(env!("CARGO_MANIFEST_DIR"), "/../../examples");
    let folders = fs::read_dir(examples).expect("the examples are there");
    let tables = folders.filter_map(|folder| fs::read(folder.ok()?.path().join("table.rf")).ok());
    let mut refused = 0;
    for table in tables {
        for token in tokens(&table) {
            let shown = token.shown();
            let tried = match token.shape {
                Shape::String => {
                    refused += usize::from(check_forgotten(&table, token.place, "'"));
                    check_forgotten(&table, token.end() - 1, "closing '")
                }
                Shape::Mark | Shape::Open => check_forgotten(&table, token.place, &shown),
                Shape::Word | Shape::Number | Shape::Comment => false,
            };
            refused += usize::from(tried);
        }
    }
    assert!(refused > 800, "{refused} refused");
}
