//! Benchmarks: the engine beside the system written apart, in one process on the same inputs, as a Markdown table.
//!
//! `bench --plot` draws the time of a run against the length of its text instead, into docs/speed.svg.

use compare::clock::{self, best, best_of, best_of_rounds};
use compare::plot::{Series, picture, thousands};
use refal0::exports::{self, Cells};
use refal0_apart::flat::flat_answer;
use refal0_apart::machine::{self, Rooms};
use refal0_apart::outcome::Outcome;
use refal0_apart::packing;
use refal0_apart::reader::{TABLE_LIMIT, read};
use refal0_apart::rewriter::rewrite;
use std::hint::black_box;
use std::process::ExitCode;

const CODE_WORDS: usize = 1 << 20;
const LONG: usize = 30_000;
const WHOLE: usize = 32_768;
const MANY: usize = 455;
const SENTENCE_ITEMS: usize = 128;
const SENTENCES: usize = 512;
/// More steps than any text needs that is drawn.
const STEPS: u32 = 100_000;
const EXAMPLE_TABLE: &[u8] = include_bytes!("../../../../examples/sheet/table.rf");
const EXAMPLE_SHEET: &[u8] = include_bytes!("../../../../examples/sheet/sheet.txt");
/// That example as it was when its time was first set as a goal: without the ranges of its numbers.
const EARLIER_EXAMPLE_TABLE: &[u8] = b"
    Sheet { eLine '\\n' eRest = <Line eLine> <Sheet eRest>; eLine = <Line eLine> }
    Line {
      = ;
      'CLINIC ' eName = ;
      'WEARER ' eName = ;
      'STOP ' eValue = <EmitStop <Degrees eValue>>;
      'SWING ' eValue = <EmitSwing <Degrees eValue>>;
      'LOCK ON' = <EmitLock '1'>;
      'LOCK OFF' = <EmitLock '0'>
    }
    Degrees {
      '0' sNext eRest = <Degrees sNext eRest>;
      sFirst eRest, <IsDigit sFirst>: 'T', <IsDigit eRest>: 'T' = sFirst eRest
    }";
const SHEET_TABLE: &[u8] = b"F { 'STOP ' e1 '\\n' e2 = <F e2>; 'SWING ' e1 '\\n' e2 = <F e2>; e1 = e1 }";
const WORDS_TABLE: &[u8] = include_bytes!("../../../../examples/words/table.rf");

/// What is drawn, beside this crate's folder.
const PICTURE: &str = concat!(env!("CARGO_MANIFEST_DIR"), "/../../docs/speed.svg");

fn main() -> ExitCode {
    let words: Vec<String> = std::env::args().skip(1).collect();
    match words.iter().map(String::as_str).collect::<Vec<_>>()[..] {
        [] => rows(),
        ["--plot"] => {
            let drawn = picture(&drawn());
            std::fs::write(PICTURE, drawn).expect("the picture is written");
        }
        _ => {
            eprintln!("usage: bench [--plot]");
            return ExitCode::FAILURE;
        }
    }
    ExitCode::SUCCESS
}

/// A name, a table, and the text of a length that is run on it.
type Drawn = (&'static str, &'static [u8], fn(usize) -> Vec<u8>);

/// What is drawn: tables that people write, each with a text that makes it look at every byte.
const DRAWN: [Drawn; 5] = [
    ("zeros cut off", b"F { '0' e1 = <F e1>; e1 = e1 }", |length| vec![b'0'; length]),
    ("a sheet, line by line", SHEET_TABLE, sheet),
    ("a byte found last", b"F { e1 '7' e2 = }", |length| [vec![b'x'; length - 1], vec![b'7']].concat()),
    ("a class of every byte", b"F { e1, <IsDigit e1>: 'T' = }", |length| vec![b'7'; length]),
    ("the text copied", b"F { e1 = e1 }", |length| vec![b'm'; length]),
];

/// The times of each table on texts of 1, 2, 4 .. 32,768 bytes.
fn drawn() -> Vec<Series> {
    let series = |&(name, table, text): &Drawn| {
        let mut series = Series { name, engine: Vec::new(), rewriter: Vec::new() };
        for length in (0..).map(|power| 1 << power).take_while(|&length| length <= WHOLE) {
            let [engine, rewriter, _] = Ran::of(name, table, &text(length), STEPS).times;
            series.engine.push((length as f64, engine));
            series.rewriter.push((length as f64, rewriter));
        }
        series
    };
    DRAWN.iter().map(series).collect()
}

/// Tables on which the test for a flat table has most to do beside reading: a pattern, a piece of an expression and its
/// items.
const NOTHING_BUT: [(&str, &str, usize); 14] = [
    ("", "<F>", 1),
    ("", "<EmitA>", 1),
    ("", "<DmAdd>", 1),
    ("", "<DmSub>", 1),
    ("", "<EmitA 'abcdefg'>", 8),
    ("", "<F 'abcdefg'>", 8),
    ("", "<DmAdd 'abcdefg'>", 8),
    ("", "<EmitA <EmitA>>", 2),
    ("", "<DmAdd <DmSub>>", 2),
    ("", "<EmitA> 'a'", 2),
    ("s1", "s1 ", 1),
    ("e1", "<F e1>", SENTENCE_ITEMS),
    ("", "'abcdefg'", 7),
    ("", "'abcdefghijklmnopqrst'", 20),
];

/// The rows of the table.
fn rows() {
    println!("| what | engine | Rust | engine : Rust | Rust's machine | engine : machine | |");
    println!("|---|---|---|---|---|---|---|");
    let few = sentences(2, 6);
    reading(&format!("reading a table of {} bytes, no comment", few.len()), &few);
    reading(&format!("reading `examples/words`, {} bytes", WORDS_TABLE.len()), WORDS_TABLE);
    let table = sentences(64, 8);
    reading(&format!("reading a table of {} bytes", thousands(table.len() as u64)), &table);
    translating(&table);
    flatness("reading it and testing whether it is flat", &table);
    for (pattern, piece, items) in NOTHING_BUT {
        let table = nothing_but(pattern, piece, items);
        flatness(&format!("the same of {} bytes of `{}`", thousands(table.len() as u64), piece.trim()), &table);
    }
    let table = nothing_but("", &format!("'{}'", "x".repeat(120)), 120);
    flatness(&format!("the same of {} bytes of strings of 120 characters", thousands(table.len() as u64)), &table);
    reading("reading 32,768 letters without `<`", &[b'a'; TABLE_LIMIT]);
    reading("reading one comment of 32,768 bytes", &comment());
    running("1,000,000 steps of row Z's kind", b"F { '0' e1 = <F e1 '0'>; e1 = e1 }", b"0000", 1_000_000);
    running("row R, 255 deep", b"G { s1 e2 = <G e2> s1; = }", &[b'a'; 255], 1_000);
    let late: Vec<u8> = [vec![b'x'; LONG - 1], vec![b'7']].concat();
    running("a byte found last in 30,000", b"F { e1 '7' e2 = }", &late, 1);
    running("a class found last in 30,000", b"F { e1 s2 e3, <IsDigit s2>: 'T' = s2 }", &late, 1);
    conditions();
    two_parts();
    short_runs();
    running("1,000 tail calls with 30,000 bytes", b"F { e1 = <F e1> }", &[b'm'; LONG], 1_000);
    let moves = running("1,000 tail calls that move 30,000 bytes", b"F { s1 e2 = <F e2 s1> }", &[b'm'; LONG], 1_000);
    moving(moves, 1_000);
    running("row Z on 30,000 zeros", b"F { '0' e1 = <F e1>; e1 = e1 }", &[b'0'; LONG], 100_000);
    running("1,000,000 recoveries", b"X { 'a' = } RecoverX { e1 = <X e1> }", b"b", 2_000_000);
    running("100,000 sums of angles", b"F { e1 = <F <DmAdd e1 ' 0:00'>> }", b"12:30", 100_000);
}

/// Two e-variables: heads, ends and middle templates that fail, on the longest text that stack in may take.
fn two_parts() {
    let text = [b'a'; WHOLE];
    running("a head that fails, 32,768 bytes", b"F { 'K' e1 'b' e2 = ; e1 = }", &text, 1);
    running("an end that fails, 32,768 bytes", b"F { e1 'b' e2 'K' = ; e1 = }", &text, 1);
    let head = format!("F {{ '{}' e1 'b' e2 = ; e1 = }}", "a".repeat(63));
    running("a head of 63 bytes that fits, a middle that fails", head.as_bytes(), &text, 1);
    let middle = format!("F {{ e1 '{}b' e2 = ; e1 = }}", "a".repeat(63));
    running("a middle template of 64 bytes that fails", middle.as_bytes(), &text, 1);
    let mut sentences = String::from("F {");
    (0..MANY).for_each(|_| sentences.push_str(&format!("e1'{}b'e2=;", "a".repeat(63))));
    sentences.push_str("e1=}");
    running_each(
        "one step of 455 such sentences",
        sentences.as_bytes(),
        &text,
        1,
        (WHOLE * MANY, "a byte and sentence"),
    );
    running("a sheet of 28,500 bytes by one function", SHEET_TABLE, &sheet(28_500), 10_000);
}

/// The commands of a sheet of this length, each on a line of its own.
fn sheet(length: usize) -> Vec<u8> {
    b"STOP 120\nSWING 45\n".iter().copied().cycle().take(length).collect()
}

/// Short texts and many small items.
fn short_runs() {
    running("row Z on `0060`", b"F { '0' e1 = <F e1>; e1 = e1 }", b"0060", 100);
    running("row R on `abc`", b"G { s1 e2 = <G e2> s1; = }", b"abc", 100);
    let values = format!("F {{ s1 s2 e3 = {} }}", "s1 s2 ".repeat(48));
    running_each("96 stored bytes in one sentence", values.as_bytes(), b"xy", 1, (96, "a stored byte"));
    let mixed = format!("F {{ s1 e2 ',' e3 = {}e2 {}e3 }}", "s1 'a' ".repeat(24), "'b' s1 ".repeat(23));
    let items = (96, "an item");
    running_each("96 stored bytes, characters and parts in one sentence", mixed.as_bytes(), b"xyz,ab", 1, items);
    running("the example sheet, `examples/sheet`", EXAMPLE_TABLE, EXAMPLE_SHEET, STEPS);
    running("the example sheet without its ranges", EARLIER_EXAMPLE_TABLE, EXAMPLE_SHEET, STEPS);
}

/// Conditions on parts: one over the whole text, and one on each part at every place.
fn conditions() {
    let digits = [b'7'; LONG];
    running("a part's class over 30,000 bytes", b"F { e1, <IsDigit e1>: 'T' = }", &digits, 1);
    let table = b"F { e1 s2 e3, <IsDigit e1>: 'T', <IsDigit e3>: 'T', <IsUpper s2>: 'T' = ; e1 = }";
    let each = (3 * LONG, "a byte and condition");
    running_each("a class asked of both parts at 30,000 places", table, &digits, 1, each);
}

/// A time in nanoseconds with three digits and its unit.
fn shown(time: f64) -> String {
    let (number, unit) = match time {
        0.0..999.5 => (time, "ns"),
        0.0..999.5e3 => (time / 1e3, "µs"),
        0.0..999.5e6 => (time / 1e6, "ms"),
        _ => (time / 1e9, "s"),
    };
    let decimals = if number < 9.995 { 2 } else { usize::from(number < 99.95) };
    format!("{number:.decimals$} {unit}")
}

fn ratio(one: f64, other: f64) -> String {
    let decimals = if one / other < 0.01 { 4 } else { 2 };
    format!("{:.decimals$}", one / other)
}

/// A row of the table; `machine` is there for runs.
fn row(what: &str, engine: f64, rust: f64, machine: Option<f64>, remark: &str) {
    let beside = machine.map_or("| |".into(), |time| format!("{} | {} |", shown(time), ratio(engine, time)));
    println!("| {what} | {} | {} | {} | {beside} {remark} |", shown(engine), shown(rust), ratio(engine, rust));
}

fn reading(what: &str, table: &[u8]) {
    let mut answer = [0; 3];
    let [engine, rust] = best_of([&mut || exports::read(black_box(table), &mut answer), &mut || {
        drop(black_box(read(black_box(table))))
    }]);
    let number = read(table).map_or_else(|refusal| refusal.number, |_| 0);
    assert_eq!(answer[0], number, "{what}");
    row(what, engine, rust, None, &format!("{:.2} ns a byte", engine / table.len() as f64));
}

fn translating(table: &[u8]) {
    let mut answer = [0; 3];
    let mut code = vec![0; CODE_WORDS];
    exports::translate(table, &mut code, &mut answer);
    code.truncate(answer[2] as usize);
    let [engine, rust] = best_of([&mut || exports::translate(black_box(table), &mut code, &mut answer), &mut || {
        drop(black_box(packing::code(&read(black_box(table)).expect("the table is sound"))))
    }]);
    row("reading and translating it", engine, rust, None, &format!("{} words of code", thousands(answer[2])));
}

/// The test for a flat table reads the table: the remark has what it takes besides, so the rounds are short and many.
fn flatness(what: &str, table: &[u8]) {
    let mut answer = [0; 3];
    let mut tested = [0; 3];
    let [reading, engine, rust] = best_of_rounds(
        clock::SHORT,
        [
            &mut || exports::read(black_box(table), &mut answer),
            &mut || exports::flat(black_box(table), &mut tested),
            &mut || _ = black_box(flat_answer(black_box(table))),
        ],
    );
    assert_eq!(answer[0], 0, "the table is sound");
    assert_eq!(tested, flat_answer(table), "whether it is flat");
    let besides = 100.0 * (engine / reading - 1.0);
    let remark = format!("answer {}; reading {}, the test {besides:.1} % besides", tested[0], shown(reading));
    row(what, engine, rust, None, &remark);
}

/// A run on the rooms that it needs: how it ends, and the times of the engine, the rewriter and the machine in Rust.
struct Ran {
    outcome: Outcome,
    actions: u64,
    times: [f64; 3],
}

impl Ran {
    fn of(what: &str, table: &[u8], text: &[u8], allowance: u32) -> Ran {
        let tree = read(table).expect("the table is sound");
        let code = packing::code(&tree);
        let (outcome, need) = machine::run(&code, 1, text, allowance, Rooms::WITHOUT_END);
        let [mut stack_in, mut stack_out, mut record] =
            [need.stack_in, need.stack_out, need.record].map(|length| vec![0; length]);
        let mut answer = [0; 5];
        let times = best_of([
            &mut || {
                let cells = Cells { stack_in: &mut stack_in, stack_out: &mut stack_out, record: &mut record };
                exports::run(black_box(&code), 1, black_box(text), cells, allowance, &mut answer);
            },
            &mut || drop(black_box(rewrite(&tree, 1, black_box(text), allowance))),
            &mut || drop(black_box(machine::run(&code, 1, black_box(text), allowance, Rooms::WITHOUT_END))),
        ]);
        assert_eq!((answer[0], answer[2]), (outcome.answer, outcome.steps), "{what}");
        Ran { actions: machine::actions(&code, 1, text, allowance), outcome, times }
    }
}

/// A row for a run; the engine's time.
fn running(what: &str, table: &[u8], text: &[u8], allowance: u32) -> f64 {
    running_each(what, table, text, allowance, (text.len(), "a byte"))
}

/// The same; the time of a single step is that of so many things, bytes or others.
fn running_each(what: &str, table: &[u8], text: &[u8], allowance: u32, (count, each): (usize, &str)) -> f64 {
    let Ran { outcome, actions, times: [engine, rust, apart] } = Ran::of(what, table, text, allowance);
    let remark = if outcome.steps > 1 {
        let (step, action) = (engine / outcome.steps as f64, engine / actions as f64);
        format!("{step:.2} ns a step, {action:.2} ns an instruction")
    } else {
        format!("{:.2} ns {each}", engine / count as f64)
    };
    row(what, engine, rust, Some(apart), &remark);
    engine
}

/// The bytes that the tail calls above move, from in to out and back, moved by memmove alone.
fn moving(engine: f64, calls: u32) {
    let mut stack_in = vec![b'm'; LONG];
    let mut stack_out = vec![0; LONG];
    let time = best(|| {
        for _ in 0..calls {
            stack_out.copy_from_slice(black_box(&stack_in));
            stack_in.copy_from_slice(black_box(&stack_out));
        }
    });
    let remark = "the engine's time over memmove's";
    println!("| the same bytes by memmove, both ways | | {} | {} | | | {remark} |", shown(time), ratio(engine, time));
}

fn comment() -> Vec<u8> {
    let mut table = vec![b'-'; TABLE_LIMIT];
    table[..2].copy_from_slice(b"/*");
    table[TABLE_LIMIT - 2..].copy_from_slice(b"*/");
    table
}

/// A table whose sentences have a pattern and are nothing but a piece of so many items, as many as the limits allow.
fn nothing_but(pattern: &str, piece: &str, items: usize) -> Vec<u8> {
    let sentence = format!("{pattern}={};", piece.repeat(SENTENCE_ITEMS / items));
    let room = TABLE_LIMIT - "F{}".len();
    format!("F{{{}}}", sentence.repeat(SENTENCES.min(room / sentence.len()))).into_bytes()
}

/// A table of `functions` with `lines` sentences each; with 64 and 8 it is a little shorter than a table may be.
fn sentences(functions: usize, lines: usize) -> Vec<u8> {
    let mut table = String::new();
    for function in 0..functions {
        table.push_str(&format!("Set{function} {{\n"));
        for line in 0..lines {
            let next = (function + line) % functions;
            table.push_str(&format!("  'K{line} ' s1 eV ':' e2, <IsDigit s1>: 'T' = s1 eV <Set{next} e2>;\n"));
        }
        table.push_str("}\n");
    }
    table.into_bytes()
}
