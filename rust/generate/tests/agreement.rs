//! Properties on generated cases: reading, listing, and the machine against the rewriter.

use generate::damage::{damage, rubbish};
use generate::dress::dress;
use generate::edges::edge;
use generate::random::Random;
use generate::{texts, trees};
use refal0_apart::angles::{NOT_ANGLES, OUT_OF_RANGE};
use refal0_apart::flat::flat;
use refal0_apart::listing::list;
use refal0_apart::machine::{self, Rooms};
use refal0_apart::outcome::Outcome;
use refal0_apart::packing::pack;
use refal0_apart::reader::{Refusal, TABLE_LIMIT, read};
use refal0_apart::rewriter::rewrite;
use refal0_apart::translation::{Action, Program, translate, translate_earlier};
use refal0_apart::tree::Table;
use std::collections::BTreeMap;

const CASES: usize = 4_000;

#[test]
fn a_dressed_tree_is_read_as_this_tree() {
    let mut random = Random::new(1);
    for _ in 0..CASES {
        let tree = trees::table(&mut random);
        let text = dress(&mut random, &tree);
        if text.len() <= TABLE_LIMIT {
            assert_eq!(read(&text).as_ref(), Ok(&tree), "{}", String::from_utf8_lossy(&text));
        }
    }
}

#[test]
fn a_listing_is_read_back_as_the_same_tree() {
    let mut random = Random::new(2);
    for _ in 0..CASES {
        let tree = trees::table(&mut random);
        let listing = list(&tree);
        if listing.len() <= TABLE_LIMIT {
            assert_eq!(read(&listing).as_ref(), Ok(&tree), "{}", String::from_utf8_lossy(&listing));
        }
    }
}

/// Counts how often each number is met, so that the generators are known to reach all of them.
fn met(texts: impl Iterator<Item = Vec<u8>>) -> BTreeMap<u64, usize> {
    let mut met = BTreeMap::new();
    for text in texts {
        let number = match read(&text) {
            Ok(tree) => {
                let listing = list(&tree);
                assert!(listing.len() > TABLE_LIMIT || read(&listing).as_ref() == Ok(&tree));
                0
            }
            Err(refusal) => {
                assert!(refusal.place <= text.len());
                refusal.number
            }
        };
        *met.entry(number).or_default() += 1;
    }
    met
}

#[test]
fn damaged_tables_meet_every_refusal() {
    let mut random = Random::new(3);
    let damaged = met((0..CASES).map(|_| {
        let tree = trees::table(&mut random);
        let text = dress(&mut random, &tree);
        damage(&mut random, &text)
    }));
    for number in [0, 2, 3, 4, 5, 6, 7, 8] {
        assert!(damaged.contains_key(&number), "no damaged table meets {number}: {damaged:?}");
    }
    let edges = met((0..CASES).map(|_| edge(&mut random)));
    for number in [0, 1, 2, 3, 4, 5, 6, 7, 8] {
        assert!(edges.contains_key(&number), "no edge meets {number}: {edges:?}");
    }
    let rubbish = met((0..CASES).map(|_| rubbish(&mut random)));
    assert!(rubbish[&3] > 0);
}

/// The answers that a run may have when one room is taken below what the run without end needs.
fn narrowed(code: &[u32], start: usize, text: &[u8], allowance: u32, whole: &Outcome, need: Rooms) {
    let narrow = |rooms: Rooms, answer: u64| {
        let (outcome, _) = machine::run(code, start, text, allowance, rooms);
        assert_eq!((outcome.answer, outcome.function), (answer, 0));
        assert!(outcome.text.is_empty() && outcome.steps <= whole.steps);
        assert!(whole.record.starts_with(&outcome.record));
    };
    if need.stack_in > 0 {
        let answer = if need.stack_in == text.len() { 10 } else { 13 };
        narrow(Rooms { stack_in: need.stack_in - 1, ..need }, answer);
    }
    if need.stack_out > 0 {
        narrow(Rooms { stack_out: need.stack_out - 1, ..need }, 14);
    }
    if need.record > 0 {
        narrow(Rooms { record: need.record - 1, ..need }, 16);
    }
    if need.frames > 1 {
        narrow(Rooms { frames: need.frames - 1, ..need }, 15);
    }
}

/// Whether no call of the code adds a frame.
fn is_flat(program: &Program) -> bool {
    let mut sentences = program.functions.iter().flat_map(|function| &function.sentences);
    sentences.all(|code| !code.actions.iter().any(|action| matches!(action, Action::Call(_))))
}

#[test]
fn a_table_is_flat_where_its_code_has_no_call_that_adds_a_frame() {
    let mut random = Random::new(7);
    let (mut flat_tables, mut others) = (0, 0);
    for _ in 0..CASES {
        let tree = trees::table(&mut random);
        let text = dress(&mut random, &tree);
        match flat(&text) {
            Ok(functions) => {
                assert!(functions == tree.functions.len() && is_flat(&translate(&tree)));
                flat_tables += 1;
            }
            Err(Refusal { number: 19, place }) => {
                assert!(!is_flat(&translate(&tree)));
                assert!(place > 0 && text[place - 1] == b'<');
                others += 1;
            }
            Err(refusal) => assert_eq!(refusal, Refusal { number: 1, place: 0 }),
        }
    }
    assert!(flat_tables > CASES / 8 && others > CASES / 8, "{flat_tables} flat, {others} not");
}

/// Whether a function and the one that recovers it were both applied.
fn recovers(tree: &Table, outcome: &Outcome) -> bool {
    let applied = |function: usize| outcome.counts.0[function] > 0;
    (0..tree.functions.len()).any(|failing| applied(failing) && tree.recoverer(failing).is_some_and(applied))
}

#[test]
fn the_machine_comes_to_the_rewriting() {
    let mut random = Random::new(4);
    let mut answers = BTreeMap::new();
    let (mut recovered, mut flat_runs) = (0, 0);
    for _ in 0..5 * CASES {
        let tree = trees::table(&mut random);
        let program = translate(&tree);
        let code = pack(&program);
        assert!(code.len() <= program.word_bound());
        let start = 1 + random.below(tree.functions.len());
        let text = texts::text(&mut random, &tree.functions[start - 1]);
        let allowance = random.below(120) as u32;
        let rewritten = rewrite(&tree, start, &text, allowance);
        let (outcome, need) = machine::run(&code, start, &text, allowance, Rooms::WITHOUT_END);
        assert_eq!(outcome, rewritten, "{}", String::from_utf8_lossy(&list(&tree)));
        assert_eq!(outcome.counts.0.iter().sum::<u64>(), outcome.steps);
        assert_eq!(machine::run(&code, start, &text, allowance, need), (rewritten, need));
        narrowed(&code, start, &text, allowance, &outcome, need);
        *answers.entry(outcome.answer).or_insert(0) += 1;
        recovered += usize::from(recovers(&tree, &outcome));
        if is_flat(&program) {
            assert!(need.frames <= 1);
            flat_runs += 1;
        }
    }
    assert!(flat_runs > CASES, "{flat_runs} runs of flat tables");
    assert!(recovered > CASES / 10, "{recovered} runs recover");
    for answer in [0, 11, 12] {
        assert!(answers[&answer] > CASES / 4, "answers met: {answers:?}");
    }
    for answer in [NOT_ANGLES, OUT_OF_RANGE] {
        assert!(answers[&answer] > CASES / 20, "answers met: {answers:?}");
    }
}

/// Whether what the first needs keeps within what the second needs.
fn within(need: Rooms, rooms: Rooms) -> bool {
    need.stack_in <= rooms.stack_in
        && need.stack_out <= rooms.stack_out
        && need.record <= rooms.record
        && need.frames <= rooms.frames
}

#[test]
fn no_run_needs_more_than_under_the_earlier_translation() {
    let mut random = Random::new(8);
    let mut less = 0;
    for _ in 0..5 * CASES {
        let tree = trees::table(&mut random);
        let (code, earlier) = (pack(&translate(&tree)), pack(&translate_earlier(&tree)));
        assert!(code.len() <= earlier.len());
        let start = 1 + random.below(tree.functions.len());
        let text = texts::text(&mut random, &tree.functions[start - 1]);
        let allowance = random.below(120) as u32;
        let run = |code: &[u32], rooms: Rooms| machine::run(code, start, &text, allowance, rooms);
        let (outcome, need) = run(&code, Rooms::WITHOUT_END);
        let (earlier_outcome, earlier_need) = run(&earlier, Rooms::WITHOUT_END);
        assert_eq!(outcome, earlier_outcome);
        assert!(within(need, earlier_need), "{}", String::from_utf8_lossy(&list(&tree)));
        assert_eq!(run(&code, earlier_need), (outcome, need));
        less += usize::from(need.stack_out < earlier_need.stack_out);
    }
    assert!(less > CASES / 4, "{less} runs need less");
}
