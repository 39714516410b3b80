//! Every row of the paper's 'Runs to hold on to', on the rewriter and on the machine.

use refal0_apart::corpus::Lending;
use refal0_apart::listing::list;
use refal0_apart::machine::{self, Rooms};
use refal0_apart::outcome::{Counts, Outcome};
use refal0_apart::packing::{code, pack};
use refal0_apart::reader::{Refusal, read};
use refal0_apart::rewriter::rewrite;
use refal0_apart::translation::{Program, translate, translate_earlier};

const Z: &[u8] = b"F { '0' e1 = <F e1>; e1 = e1 }";
const R: &[u8] = b"G { s1 e2 = <G e2> s1; = }";
const H: &[u8] = b"H { e1 s2 e3, <IsDigit s2>: 'T' = s2 }";
const K: &[u8] = b"K { s1 e2 s1 e3 = e2 '|' e3 }";
const P: &[u8] = b"P { e1 = <Q 'ab' e1> } Q { e1 = e1 }";
const M: &[u8] = b"M { e1 = <EmitA <N e1>> <EmitB 'x'> } N { e1 = <EmitC e1> 'y' }";

/// A run that is stopped after each function has been applied so often.
fn stopped(answer: u64, function: usize, applications: &[u64]) -> Outcome {
    let counts = Counts::of(applications).expect("a table has at most 64 functions");
    Outcome { answer, function, steps: applications.iter().sum(), counts, text: Vec::new(), record: Vec::new() }
}

fn done(text: &[u8], applications: &[u64]) -> Outcome {
    Outcome { text: text.to_vec(), ..stopped(0, 0, applications) }
}

/// The outcome of rewriting, which must be that of the machine without end; and what the machine needs.
fn ample(table: &[u8], text: &[u8], allowance: u32) -> (Outcome, Rooms) {
    let tree = read(table).expect("the row's table is accepted");
    let rewritten = rewrite(&tree, 1, text, allowance);
    let (run, need) = machine::run(&code(&tree), 1, text, allowance, Rooms::WITHOUT_END);
    assert_eq!(run, rewritten);
    (rewritten, need)
}

fn lent(table: &[u8], text: &[u8], rooms: Rooms) -> Outcome {
    let tree = read(table).expect("the row's table is accepted");
    machine::run(&code(&tree), 1, text, 100_000, rooms).0
}

#[test]
fn row_z() {
    let (outcome, need) = ample(Z, b"0060", 100_000);
    assert_eq!(outcome, done(b"60", &[3]));
    assert_eq!(need.stack_out, 2);
    assert_eq!(need.frames, 1);
    assert_eq!(ample(Z, b"", 100_000).0, done(b"", &[1]));
    assert_eq!(ample(Z, b"0060", 2).0, stopped(12, 0, &[2]));
    assert_eq!(ample(Z, b"0060", 3).0, done(b"60", &[3]));
    assert_eq!(lent(Z, b"0060", Rooms::lent(4, 2, 0)), done(b"60", &[3]));
    assert_eq!(lent(Z, b"0060", Rooms::lent(4, 1, 0)), stopped(14, 0, &[3]));
    assert_eq!(lent(Z, b"0060", Rooms::lent(3, 3, 0)), stopped(10, 0, &[]));
}

/// 01's own row: the part was moved to out and back.
#[test]
fn row_z_under_the_earlier_translation() {
    let earlier = pack(&translate_earlier(&read(Z).expect("row Z is sound")));
    let run = |rooms: Rooms| machine::run(&earlier, 1, b"0060", 100_000, rooms).0;
    assert_eq!(run(Rooms::lent(4, 3, 0)), done(b"60", &[3]));
    assert_eq!(run(Rooms::lent(4, 2, 0)), stopped(14, 0, &[1]));
}

#[test]
fn what_stays_on_in_needs_no_out() {
    let rows: [(&[u8], &[u8], usize); 13] = [
        (b"F{e1=<G e1 ''>}G{e1=}", b"ab", 0),
        (b"F{e1''=<G e1>}G{e1=}", b"ab", 0),
        (b"F{e1'b'e2=<G e1 'x' e2>}G{e1=}", b"abcd", 2),
        (b"F{e1='x'<G e1>}G{e1=}", b"ab", 1),
        (b"F{e1=<G 'x'<EmitA 'yz'>e1>}G{e1=}", b"ab", 3),
        // these are moved as before
        (b"F{'a'e1'd'=<G 'xy' e1>}G{e1=}", b"abcd", 4),
        (b"F{e1=<G e1 'xy'>}G{e1=}", b"ab", 4),
        (b"F{e1=<G <G e1>>}G{e1=}", b"ab", 2),
        (b"F{e1=<EmitA e1>}", b"ab", 2),
        (b"F{e1=<G <EmitA e1>>}G{e1=}", b"ab", 2),
        (b"F{e1=<G e1>'k'}G{e1=}", b"ab", 2),
        (b"F{e1'b'e2=<G e1>}G{e1=}", b"abcd", 1),
        (b"F{e1 s2=<G e1>}G{e1=}", b"abc", 2),
    ];
    for (table, text, need) in rows {
        assert_eq!(ample(table, text, 9).1.stack_out, need, "{}", String::from_utf8_lossy(table));
    }
}

/// Which of two rooms is passed first may change.
#[test]
fn thirteen_comes_where_fourteen_came() {
    let tree = read(b"F{s1 e2=<G 'abc' e2>}G{e1=}").expect("the table is sound");
    let run = |program: Program| machine::run(&pack(&program), 1, b"xyz", 9, Rooms::lent(4, 3, 0)).0;
    assert_eq!(run(translate(&tree)), stopped(13, 0, &[1]));
    assert_eq!(run(translate_earlier(&tree)), stopped(14, 0, &[1]));
}

#[test]
fn row_r() {
    let (outcome, need) = ample(R, b"abc", 100_000);
    assert_eq!(outcome, done(b"cba", &[4]));
    assert_eq!(need, Rooms { stack_in: 3, stack_out: 3, record: 0, frames: 4 });
    assert_eq!(lent(R, b"abc", Rooms::lent(3, 3, 0)), done(b"cba", &[4]));
    assert_eq!(lent(R, b"abc", Rooms::lent(3, 2, 0)), stopped(14, 0, &[4]));
}

#[test]
fn row_r_and_frames() {
    let text: Vec<u8> = (0..=255).map(|number| b'a' + number % 26).collect();
    let turned: Vec<u8> = text[..255].iter().rev().copied().collect();
    let rooms = Rooms::lent(32_768, 32_768, 0);
    assert_eq!(lent(R, &text[..255], rooms), done(&turned, &[256]));
    assert_eq!(ample(R, &text[..255], 100_000).1.frames, 256);
    assert_eq!(lent(R, &text, rooms), stopped(15, 0, &[256]));
    assert_eq!(ample(R, &text, 100_000).0.steps, 257);
}

#[test]
fn rows_h_and_k() {
    assert_eq!(ample(H, b"ab7c9", 100_000).0, done(b"7", &[1]));
    assert_eq!(ample(H, b"abc", 100_000).0, stopped(11, 1, &[1]));
    assert_eq!(ample(K, b"abcab", 100_000).0, done(b"bc|b", &[1]));
    assert_eq!(ample(K, b"aa", 100_000).0, done(b"|", &[1]));
    assert_eq!(ample(K, b"ab", 100_000).0, stopped(11, 1, &[1]));
}

#[test]
fn row_p() {
    assert_eq!(ample(P, b"c", 100_000).0, done(b"abc", &[1, 1]));
    assert_eq!(lent(P, b"c", Rooms::lent(3, 3, 0)), done(b"abc", &[1, 1]));
    assert_eq!(lent(P, b"c", Rooms::lent(2, 3, 0)), stopped(13, 0, &[1]));
}

#[test]
fn row_m() {
    let record = b"EmitC q\nEmitA y\nEmitB x\n".to_vec();
    let (outcome, need) = ample(M, b"q", 100_000);
    assert_eq!(outcome, Outcome { record: record.clone(), ..done(b"", &[1, 1]) });
    assert_eq!(need.record, record.len());
    let short = lent(M, b"q", Rooms::lent(9, 9, record.len() - 1));
    assert_eq!(short, Outcome { record: b"EmitC q\nEmitA y\n".to_vec(), ..stopped(16, 0, &[1, 1]) });
}

#[test]
fn rows_of_reading() {
    let refused = |text: &[u8]| read(text).expect_err("the row's table is refused");
    assert_eq!(refused(b"F{e1 '' e2=}"), Refusal { number: 6, place: 8 });
    assert_eq!(refused(b"F{e1=e1 e1}"), Refusal { number: 7, place: 8 });
    assert_eq!(refused(b"F{=<G>}"), Refusal { number: 8, place: 4 });
    assert_eq!(refused(b"F{='\\256'}"), Refusal { number: 2, place: 3 });
    assert_eq!(ample(b"F{='\\255'}", b"", 100_000).0, done(&[255], &[1]));
    assert_eq!(refused(b"F{e1 s1='\\256'}"), Refusal { number: 6, place: 5 });
}

#[test]
fn listing_of_row_r() {
    assert_eq!(list(&read(R).unwrap()), b"G {\ns1 e2 = <G e2> s1;\n=;\n}\n");
}

/// What the program prints of a run: answer, function, steps; the record; the result; a line for each function; the
/// total.
fn printed(table: &[u8], text: &[u8]) -> String {
    let tree = read(table).expect("the row's table is accepted");
    let outcome = Lending { text: text.to_vec(), ..Lending::default() }.run(&code(&tree));
    let mut output = format!("{} {} {}\n", outcome.answer, outcome.function, outcome.steps).into_bytes();
    output.extend(&outcome.record);
    output.extend(&outcome.text);
    output.push(10);
    for (number, (function, count)) in tree.functions.iter().zip(*outcome.counts.0).enumerate() {
        let name = String::from_utf8_lossy(&function.name);
        output.extend(format!("{} {name} {count}\n", number + 1).into_bytes());
    }
    output.extend(format!("total {}\n", outcome.steps).into_bytes());
    String::from_utf8(output).expect("the row's output is readable")
}

#[test]
fn the_program_on_the_rows() {
    assert_eq!(printed(R, b"abc"), "0 0 4\ncba\n1 G 4\ntotal 4\n");
    assert_eq!(printed(H, b"abc"), "11 1 1\n\n1 H 1\ntotal 1\n");
    assert_eq!(printed(M, b"q"), "0 0 2\nEmitC q\nEmitA y\nEmitB x\n\n1 M 1\n2 N 1\ntotal 2\n");
    assert_eq!(printed(b"", b"abc"), "9 0 0\n\ntotal 0\n");
    assert_eq!(printed(P, &[b'x'; 32_769]), "10 0 0\n\n1 P 0\n2 Q 0\ntotal 0\n");
}

#[test]
fn a_failed_application_is_counted_and_one_that_is_not_made_is_not() {
    assert_eq!(ample(b"F{e1=<G e1>'k'}G{'x'=}", b"q", 100_000).0, stopped(11, 2, &[1, 1]));
    assert_eq!(ample(b"F{e1=<G e1>'k'}G{'x'=}", b"q", 1).0, stopped(12, 0, &[1]));
}

#[test]
fn a_recovery_is_a_step_in_the_same_frame() {
    let alone = b"X{'a'=}RecoverX{e1='r'e1}";
    let (outcome, need) = ample(alone, b"b", 100_000);
    assert_eq!(outcome, done(b"rb", &[1, 1]));
    assert_eq!(need.frames, 1);
    assert_eq!(ample(alone, b"b", 1).0, stopped(12, 0, &[1]));
    assert_eq!(ample(b"X{'a'=}RecoverX{'c'=}", b"b", 9).0, stopped(11, 2, &[1, 1]));
    let inside = b"F{e1=<X e1>'k'}X{'a'=}RecoverX{e1='r'}";
    let frames = |frames: usize| lent(inside, b"b", Rooms { frames, ..Rooms::lent(9, 9, 0) });
    assert_eq!(frames(1), stopped(15, 0, &[1]));
    assert_eq!(frames(2), done(b"rk", &[1, 1, 1]));
    assert_eq!(lent(alone, b"b", Rooms { frames: 1, ..Rooms::lent(1, 2, 0) }), done(b"rb", &[1, 1]));
}

#[test]
fn only_the_function_that_fails_is_recovered() {
    assert_eq!(ample(b"X{e1=<Y e1>'k'}RecoverX{e1='r'}Y{'a'=}", b"b", 9).0, stopped(11, 3, &[1, 0, 1]));
}

#[test]
fn the_three_wrong_turns() {
    // the place is settled together with its condition, not before it
    assert_eq!(ample(b"F{e1 s2 'x' e3, <IsDigit s2>:'T' = s2 e3}", b"ax7xb", 9).0, done(b"7b", &[1]));
    // byte 5 then `7`
    let tree = read(b"F{='\\5' '7'}").unwrap();
    assert_eq!(list(&tree), b"F {\n= '\\5\\55';\n}\n");
    // a tail call takes no frame
    assert_eq!(ample(b"F{'0' e1=<F e1>; e1=e1}", &[b'0'; 1000], 2000).1.frames, 1);
}

#[test]
fn long_and_deep_rewriting_needs_no_native_stack() {
    let tree = read(R).unwrap();
    let deep = rewrite(&tree, 1, &[b'a'; 30_000], 100_000);
    assert_eq!((deep.answer, deep.steps, deep.text.len()), (0, 30_001, 30_000));
    let tree = read(b"F { e1 = <F e1> }").unwrap();
    assert_eq!(rewrite(&tree, 1, b"a", 300_000), stopped(12, 0, &[300_000]));
}
