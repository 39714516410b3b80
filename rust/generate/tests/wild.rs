//! Wild code runs to an end on this system alone, in the rooms that are lent, and meets every answer of a run.

use generate::random::Random;
use generate::wild;
use std::collections::BTreeMap;

const CASES: usize = 40_000;

#[test]
fn wild_code_meets_every_answer() {
    let mut random = Random::new(6);
    let mut met = BTreeMap::new();
    for _ in 0..CASES {
        let (code, functions) = wild::code(&mut random);
        let lending = wild::lending(&mut random, functions);
        let outcome = lending.run(&code);
        assert!(outcome.steps <= u64::from(lending.allowance));
        assert!(outcome.text.len() <= lending.rooms.stack_out && outcome.record.len() <= lending.rooms.record);
        assert!(outcome.answer == 0 || outcome.text.is_empty());
        *met.entry((outcome.answer, outcome.before_run())).or_insert(0) += 1;
    }
    let begun = [0, 11, 12, 13, 14, 15, 16, 18, 20, 21].map(|answer| (answer, false));
    for answer in begun.into_iter().chain([9, 10, 18].map(|answer| (answer, true))) {
        assert!(met.get(&answer).is_some_and(|&times| times > CASES / 1_000), "answers met: {met:?}");
    }
}
