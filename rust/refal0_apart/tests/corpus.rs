//! The stored corpus: every case comes to what is stored, none stands twice, and every answer is met.

use refal0_apart::corpus::{Case, Expected, Lending, Source, escape, outcome, parse, unescape};
use refal0_apart::flat::flat_answer;
use refal0_apart::listing::list;
use refal0_apart::reader::{TABLE_LIMIT, read};
use std::collections::BTreeSet;
use std::fs;
use std::path::Path;

fn corpus() -> Vec<(String, Case)> {
    let directory = Path::new(env!("CARGO_MANIFEST_DIR")).join("../corpus");
    let mut cases = Vec::new();
    for entry in fs::read_dir(directory).expect("the corpus is there") {
        let path = entry.expect("the corpus is read").path();
        let file = fs::read(&path).expect("a corpus file is read");
        let name = path.file_name().unwrap().to_string_lossy().into_owned();
        for case in parse(&file).unwrap_or_else(|fault| panic!("{name}, {fault}")) {
            cases.push((format!("{name}, line {}", case.line), case));
        }
    }
    cases
}

#[test]
fn every_case_comes_to_what_is_stored() {
    for (origin, case) in corpus() {
        let (lending, expected) = match case.expected {
            Expected::Refused(refusal) => (Lending::default(), Err(refusal)),
            Expected::Run(lending, expected) => (lending, Ok(expected)),
            Expected::Flat(expected) => {
                let Source::Table(table) = &case.source else { panic!("{origin}: only a table is flat") };
                assert_eq!(flat_answer(table), expected, "{origin}");
                continue;
            }
        };
        assert_eq!(outcome(&case.source, &lending), expected, "{origin}");
    }
}

#[test]
fn every_listing_is_read_back() {
    for (origin, case) in corpus() {
        let Source::Table(table) = &case.source else { continue };
        if let Ok(tree) = read(table) {
            let listing = list(&tree);
            assert!(listing.len() <= TABLE_LIMIT, "{origin}");
            assert_eq!(read(&listing), Ok(tree), "{origin}");
        }
    }
}

#[test]
fn the_corpus_is_large_and_various() {
    let cases = corpus();
    assert!(cases.len() >= 300, "{} cases", cases.len());
    let mut seen = BTreeSet::new();
    let mut answers = BTreeSet::new();
    for (origin, case) in &cases {
        let key = match &case.expected {
            Expected::Refused(refusal) => {
                answers.insert(refusal.number);
                String::new()
            }
            Expected::Flat([number, ..]) => {
                answers.insert(*number);
                String::from("flat")
            }
            Expected::Run(lending, expected) => {
                answers.insert(expected.answer);
                format!("{lending:?}")
            }
        };
        assert!(seen.insert((format!("{:?}", case.source), key)), "{origin} stands twice");
    }
    assert_eq!(answers, BTreeSet::from_iter((0..=16).chain(18..=21)));
}

#[test]
fn escapes() {
    let bytes: Vec<u8> = (0..=255).collect();
    assert_eq!(unescape(escape(&bytes).as_bytes()), Some(bytes));
    assert_eq!(escape(b" a b "), "\\x20a b\\x20");
    assert_eq!(unescape(b"\\q"), None);
}
