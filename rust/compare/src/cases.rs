//! The cases: stored ones, sound tables with rooms round what they need, damaged tables, deep runs, wild code.

use crate::check;
use crate::tally::{Subject, Tally};
use generate::damage::{damage, rubbish};
use generate::dress::dress;
use generate::edges::edge;
use generate::random::Random;
use generate::{texts, trees, wild};
use refal0_apart::corpus::{Case, Expected, Lending, Source, outcome};
use refal0_apart::flat::flat_answer;
use refal0_apart::machine::{self, Rooms};
use refal0_apart::tree::Table;

const SLACK: usize = 40;

/// Tables whose runs go as deep as their text is long.
const DEEP: &[&str] = &[
    "G { s1 e2 = <G e2> s1; = }",
    "G { s1 e2 = s1 <G e2> '.'; = }",
    "G { s1 e2 = <H <G e2>>; = 'x' } H { e1 = e1 'y' }",
    "A { s1 e2 = <B e2> s1; = } B { s1 e2 = 'x' <A e2> s1; = '!' }",
    "G { s1 e2 = <EmitD <G e2>>; = 'e' }",
    "G { s1 e2 = <G e2> <EmitD s1>; = }",
    "G { s1 e2 = <T <G e2>> s1; = } T { 'x' e1 = <T e1>; e1 = 'x' e1 }",
    "G { s1 e2 = <L e2> <L 'a'>; = <L 'end'> } L { e1 s2 = <G e1> s2; e1 = e1 }",
];

/// A table that is compared, with all that is needed for its runs.
struct Sound<'c> {
    origin: &'c str,
    text: &'c [u8],
    tree: Table,
    code: Vec<u32>,
}

impl Tally {
    /// Compares what is made of a table alone; gives what its runs need if it is accepted.
    fn table<'c>(&mut self, origin: &'c str, text: &'c [u8]) -> Option<Sound<'c>> {
        let subject = Subject { origin, table: Some(text), ..Subject::default() };
        let checked = check::table(text);
        self.note(subject, checked.as_ref().map(|_| ()).map_err(String::clone));
        let (tree, code) = checked.ok()??;
        Some(Sound { origin, text, tree, code })
    }

    fn run(&mut self, sound: &Sound, lending: &Lending) {
        let result = check::run(&sound.tree, &sound.code, lending);
        let table = Some(sound.text);
        self.note(Subject { origin: sound.origin, table, lending: Some(lending), code: None }, result);
    }

    /// One case of the corpus: this system and the engine must both come to what is stored.
    pub fn stored(&mut self, origin: &str, case: &Case) {
        let lending = match &case.expected {
            Expected::Run(lending, _) => Some(lending),
            Expected::Refused(_) | Expected::Flat(_) => None,
        };
        let subject = Subject { origin, lending, ..Subject::default() };
        match &case.source {
            Source::Table(table) => {
                self.note(Subject { table: Some(table), ..subject }, as_stored(case));
                if let (Some(sound), Some(lending)) = (self.table(origin, table), lending) {
                    self.run(&sound, lending);
                }
            }
            Source::Code(code) => {
                self.note(Subject { code: Some(code), ..subject }, as_stored(case));
                if let Some(lending) = lending {
                    self.wild_run(origin, code, lending);
                }
            }
        }
    }

    fn wild_run(&mut self, origin: &str, code: &[u32], lending: &Lending) {
        let subject = Subject { origin, lending: Some(lending), code: Some(code), ..Subject::default() };
        self.note(subject, check::wild_run(code, lending));
    }

    /// Wild code with a text, in rooms that are often small.
    pub fn wild(&mut self, random: &mut Random, origin: &str) {
        let (code, functions) = wild::code(random);
        let lending = wild::lending(random, functions);
        self.wild_run(origin, &code, &lending);
    }

    /// One generated case or a few that belong together.
    pub fn generated(&mut self, random: &mut Random, origin: &str) {
        match random.below(22) {
            0 | 1 => self.sound(random, origin),
            2 | 3 => self.deep(random, origin),
            4 => drop(self.table(origin, &rubbish(random))),
            5..=7 => drop(self.table(origin, &edge(random))),
            _ => {
                let tree = trees::table(random);
                let text = dress(random, &tree);
                self.table(origin, &damage(random, &text));
            }
        }
    }

    fn sound(&mut self, random: &mut Random, origin: &str) {
        let tree = trees::table(random);
        let text = dress(random, &tree);
        let Some(sound) = self.table(origin, &text) else { return };
        let subject = Subject { origin, table: Some(&text), ..Subject::default() };
        let length = sound.code.len();
        for room in [length.saturating_sub(1), length + random.below(20)] {
            self.note(subject, check::translation_room(&text, &sound.code, room));
        }
        let start = 1 + random.below(sound.tree.functions.len());
        let lending = Lending {
            start,
            text: texts::text(random, &sound.tree.functions[start - 1]),
            allowance: random.below(120) as u32,
            rooms: Rooms::lent(random.below(SLACK), 5, 5),
        };
        let absent = random.pick(&[0, sound.tree.functions.len() + 1, usize::MAX]);
        self.run(&sound, &Lending { start: absent, ..lending.clone() });
        // code is often run in a buffer that is longer
        let longer = [sound.code.as_slice(), &[0; 7]].concat();
        let subject = Subject { lending: Some(&lending), code: Some(&longer), ..subject };
        self.note(subject, check::run(&sound.tree, &longer, &lending));
        self.round_need(random, &sound, lending);
    }

    /// Runs with rooms and allowance at, one below and one above what the run without end needs.
    fn round_need(&mut self, random: &mut Random, sound: &Sound, mut lending: Lending) {
        let Lending { start, text, allowance, .. } = &lending;
        let (outcome, need) = machine::run(&sound.code, *start, text, *allowance, Rooms::WITHOUT_END);
        let mut slack = |need: usize| need + random.below(SLACK);
        let ample = Rooms::lent(slack(need.stack_in), slack(need.stack_out), slack(need.record));
        let mut lent = vec![ample, Rooms::lent(need.stack_in, need.stack_out, need.record)];
        for change in 0..3 {
            let near = |need: usize| (need + change).saturating_sub(1);
            lent.push(Rooms { stack_in: near(need.stack_in), ..ample });
            lent.push(Rooms { stack_out: near(need.stack_out), ..ample });
            lent.push(Rooms { record: near(need.record), ..ample });
        }
        let mut part = |need: usize| random.below(need + 2);
        lent.push(Rooms::lent(part(need.stack_in), part(need.stack_out), part(need.record)));
        for rooms in lent {
            lending.rooms = rooms;
            self.run(sound, &lending);
        }
        lending.rooms = ample;
        for change in 0..3 {
            lending.allowance = (outcome.steps as u32 + change).saturating_sub(1);
            self.run(sound, &lending);
        }
    }

    /// Runs of about 256 frames.
    fn deep(&mut self, random: &mut Random, origin: &str) {
        let text = random.pick(DEEP).as_bytes();
        let Some(sound) = self.table(origin, text) else { return };
        let length = random.pick(&[3, 126, 127, 128, 253, 254, 255, 256, 257, 300]);
        let lending = Lending {
            text: (0..length).map(|_| trees::usual_byte(random)).collect(),
            allowance: random.pick(&[100, 255, 256, 257, 258, 2_000]),
            ..Lending::default()
        };
        self.run(&sound, &lending);
        if random.one_in(8) {
            self.round_need(random, &sound, lending);
        }
    }
}

fn as_stored(case: &Case) -> Result<(), String> {
    let (lending, expected) = match &case.expected {
        Expected::Refused(refusal) => (&Lending::default(), Err(*refusal)),
        Expected::Run(lending, expected) => (lending, Ok(expected.clone())),
        Expected::Flat(expected) => {
            let Source::Table(table) = &case.source else { return Err("only a table is flat".to_string()) };
            return check::equal("stored, and found by this system", *expected, flat_answer(table));
        }
    };
    check::equal("stored, and found by this system", expected, outcome(&case.source, lending))
}
