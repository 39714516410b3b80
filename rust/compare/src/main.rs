//! Compares the engine with the system written apart: the stored corpus, then generated cases and wild code.
//!
//! `compare` runs the fixed seeds; `compare --seed S --count N` runs at least N cases of one seed, and
//! `compare --seed S --wild N` N wild codes of it.

use compare::tally::{self, Tally};
use generate::random::Random;
use refal0_apart::corpus::parse;
use std::fs;
use std::path::Path;
use std::process::ExitCode;

const SEEDS: [u64; 4] = [1, 2, 3, 4];
/// Cases and wild codes of each of these seeds.
const COUNT: u64 = 60_000;
const WILD: u64 = 12_500;

/// What is run: the seeds, and of each how many cases and how many wild codes.
struct Plan {
    seeds: Vec<u64>,
    count: u64,
    wild: u64,
}

fn main() -> ExitCode {
    let Some(Plan { seeds, count, wild }) = arguments() else {
        eprintln!("usage: compare [--seed S] [--count N] [--wild N]");
        return ExitCode::FAILURE;
    };
    tally::watch(format!("seeds {seeds:?}"));
    let mut tally = Tally::default();
    corpus(&mut tally);
    println!("corpus: {} cases", tally.count());
    for seed in seeds {
        let begun = tally.count();
        generated(&mut tally, seed, count);
        let made = tally.count();
        wild_codes(&mut tally, seed, wild);
        println!("seed {seed}: {} cases, {} wild codes", made - begun, tally.count() - made);
    }
    println!("{} passed, {} failed", tally.passed, tally.failed);
    if tally.failed == 0 { ExitCode::SUCCESS } else { ExitCode::FAILURE }
}

/// The fixed plan, or what the arguments ask for alone; nothing if an argument isn't known.
fn arguments() -> Option<Plan> {
    let mut seeds = SEEDS.to_vec();
    let (mut count, mut wild) = (None, None);
    let mut arguments = std::env::args().skip(1);
    while let Some(name) = arguments.next() {
        let number = arguments.next()?.parse().ok()?;
        match name.as_str() {
            "--seed" => seeds = vec![number],
            "--count" => count = Some(number),
            "--wild" => wild = Some(number),
            _ => return None,
        }
    }
    let (count, wild) = match (count, wild) {
        (None, None) => (COUNT, WILD),
        asked => (asked.0.unwrap_or(0), asked.1.unwrap_or(0)),
    };
    Some(Plan { seeds, count, wild })
}

fn corpus(tally: &mut Tally) {
    let directory = Path::new(env!("CARGO_MANIFEST_DIR")).join("../corpus");
    let entries = fs::read_dir(directory).expect("the corpus is there");
    let mut files: Vec<_> = entries.map(|entry| entry.expect("the corpus is read").path()).collect();
    files.sort();
    for file in files {
        let name = file.file_name().unwrap_or_default().to_string_lossy().into_owned();
        let cases = parse(&fs::read(&file).expect("a corpus file is read")).expect("a corpus file is well formed");
        for case in cases {
            tally.stored(&format!("{name}, line {}", case.line), &case);
        }
    }
}

fn generated(tally: &mut Tally, seed: u64, count: u64) {
    let mut random = Random::new(seed);
    let end = tally.count() + count;
    for round in 0.. {
        if tally.count() >= end {
            return;
        }
        tally.generated(&mut random, &format!("round {round} of seed {seed}"));
    }
}

fn wild_codes(tally: &mut Tally, seed: u64, count: u64) {
    let mut random = Random::new(seed);
    for round in 0..count {
        tally.wild(&mut random, &format!("wild code {round} of seed {seed}"));
    }
}
