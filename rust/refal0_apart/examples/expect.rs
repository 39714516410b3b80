//! Writes a corpus file from standard input with the outcomes this system finds, for review before it is kept.

use refal0_apart::corpus::{Expected, Lending, Source, escape, key_and_value, outcome, parse};
use refal0_apart::flat::flat_answer;
use refal0_apart::outcome::Outcome;
use refal0_apart::reader::Refusal;
use std::io::{Read, Write};

fn main() {
    let mut file = Vec::new();
    std::io::stdin().read_to_end(&mut file).expect("standard input is read");
    let cases = parse(&file).expect("the lines are well formed");
    let mut output = Vec::new();
    for (number, line) in file.strip_suffix(b"\n").unwrap_or(&file).split(|&byte| byte == 10).enumerate() {
        let key = key_and_value(line).map(|(key, _)| key);
        if !matches!(key, Some(b"gives" | b"counts" | b"result" | b"record" | b"refused" | b"flat")) {
            output.extend_from_slice(line);
            output.push(10);
        }
        if let Some(case) = cases.iter().find(|case| case.line == number + 1) {
            output.extend(expectation(&case.source, &case.expected).into_bytes());
        }
    }
    std::io::stdout().write_all(&output).expect("standard output is written");
}

fn expectation(source: &Source, expected: &Expected) -> String {
    let refused = |key: &str, refusal: Refusal| format!("{key}: {} {}\n", refusal.number, refusal.place);
    match expected {
        Expected::Refused(_) => match outcome(source, &Lending::default()) {
            Err(refusal) => refused("refused", refusal),
            Ok(_) => refused("refused", Refusal { number: 0, place: 0 }),
        },
        Expected::Flat(_) => {
            let Source::Table(table) = source else { panic!("only a table is flat") };
            let [number, place, functions] = flat_answer(table);
            format!("flat: {number} {place} {functions}\n")
        }
        Expected::Run(lending, _) => match outcome(source, lending) {
            Err(refusal) => refused("gives: refused", refusal),
            Ok(outcome) => run_lines(&outcome),
        },
    }
}

fn run_lines(outcome: &Outcome) -> String {
    let mut lines = format!("gives: {} {} {}\n", outcome.answer, outcome.function, outcome.steps);
    let counts: Vec<String> = outcome.counts.met().iter().map(u64::to_string).collect();
    if !counts.is_empty() {
        lines.push_str(&format!("counts: {}\n", counts.join(" ")));
    }
    for (key, bytes) in [("result", &outcome.text), ("record", &outcome.record)] {
        if !bytes.is_empty() {
            lines.push_str(&format!("{key}: {}\n", escape(bytes)));
        }
    }
    lines
}
