//! A history has every step and every emission of its run, and stops where the run stopped.

use generate::dress::dress;
use generate::random::Random;
use generate::{texts, trees};
use refal0_apart::corpus::Lending;
use refal0_apart::machine::Rooms;
use refal0_apart::reader::read;
use refal0_apart::tree::Table;
use tools::history::{History, Kind, Taken, history, lent_history};

const COUNT: usize = 3_000;
/// Cells of in and out and bytes of the record, in runs that pass one of them.
const ROOM: usize = 300;

/// The steps and the record that the events tell of, and whether the last one is an application that nothing took.
fn told(history: &History) -> (u64, Vec<u8>, bool) {
    let (mut steps, mut record, mut failed) = (0, Vec::new(), false);
    for event in &history.events {
        failed = false;
        match &event.kind {
            Kind::Application(application) => {
                steps += 1;
                assert_eq!(application.step, steps);
                failed = matches!(application.taken, Taken::Not(_));
            }
            Kind::Emission { line, record: length } => {
                record.extend([line.as_slice(), b"\n"].concat());
                assert_eq!(record.len(), *length);
            }
            Kind::Angles { .. } => {}
        }
    }
    (steps, record, failed)
}

fn is_told_whole(table: &Table, lending: &Lending) -> u64 {
    let history = lent_history(table, lending, usize::MAX);
    let outcome = &history.outcome;
    assert_eq!(told(&history), (outcome.steps, outcome.record.clone(), outcome.answer == 11));
    outcome.answer
}

#[test]
fn generated_runs_are_told_whole() {
    let mut random = Random::new(11);
    let mut answers = [0; 25];
    for _ in 0..COUNT {
        let tree = trees::table(&mut random);
        let Ok(table) = read(&dress(&mut random, &tree)) else { continue };
        let text = texts::text(&mut random, &table.functions[0]);
        let rooms = Rooms::lent(text.len() + random.below(30), random.below(60), random.below(60));
        let lending = Lending { text, allowance: 300, rooms, ..Lending::default() };
        answers[is_told_whole(&table, &lending) as usize] += 1;
    }
    assert!([0, 11, 12, 13, 14, 16].iter().all(|&answer| answers[answer] > 0), "{answers:?}");
}

#[test]
fn runs_that_pass_a_room_are_told_up_to_there() {
    let rooms: [(&[u8], usize, u64); 5] = [
        (b"Line { s1 e2 = <Mark '* ' s1> e2 } Mark { e1 = e1 }", ROOM, 13),
        (b"Grow { e1 = <Grow e1 'a'> }", 0, 14),
        (b"Dots { ' ' e1 = <Dots e1> '.'; = }", 256, 15),
        (b"Loop { = <EmitAgain 'x'> <Loop> }", 0, 16),
        (b"F { s1 e2 = <EmitA e2> <EmitB 'b'> <G s1> } G { e1 = e1 }", ROOM - 8, 16),
    ];
    for (table, blanks, answer) in rooms {
        let table = read(table).expect("the table is sound");
        let rooms = Rooms::lent(ROOM, ROOM, ROOM);
        let lending = Lending { text: vec![b' '; blanks], rooms, ..Lending::default() };
        assert_eq!(is_told_whole(&table, &lending), answer);
    }
}

#[test]
fn the_last_events_are_kept() {
    let table = read(b"F { '0' e1 = <F e1>; e1 = e1 }").expect("the table is sound");
    let history = history(&table, b"0060", 1);
    assert_eq!((history.events.len(), history.before), (1, 2));
    let Kind::Application(application) = &history.events[0].kind else { panic!("an application") };
    assert_eq!((application.step, application.text.as_str()), (3, "'60'"));
}
