//! Flat tables: which are, and where the leftmost declared call stands that is no tail call.

use refal0_apart::flat::flat;
use refal0_apart::machine::{self, Rooms};
use refal0_apart::packing::code;
use refal0_apart::reader::{Refusal, read};

/// (0, functions) of a flat table, else number and place.
fn check(rows: &[(&str, (u64, usize))]) {
    for (text, expected) in rows {
        let found = match flat(text.as_bytes()) {
            Ok(functions) => (0, functions),
            Err(Refusal { number, place }) => (number, place),
        };
        assert_eq!(found, *expected, "{text}");
    }
}

#[test]
fn declared_calls_that_are_tail_calls() {
    check(&[
        ("", (0, 0)),
        ("F{=}", (0, 1)),
        ("F{=<F>}", (0, 1)),
        ("F{=<F>''}", (0, 1)),
        ("F{=''<F ''>''''}", (0, 1)),
        ("F{=<EmitA 'x'><F <EmitB>>}", (0, 1)),
        ("F{=<EmitA <EmitB>>}", (0, 1)),
        ("F{e1=<F e1>;=<G>}G{=<F>}", (0, 2)),
        ("X{'a'=}RecoverX{e1=<X 'a'>}", (0, 2)),
    ]);
}

#[test]
fn declared_calls_that_are_not() {
    check(&[
        ("F{=<F><EmitA>}", (19, 4)),
        ("F{=<EmitA <F>>}", (19, 11)),
        ("F{=<F <G>>'x'}G{=}", (19, 4)),
        ("F{=<F <G>>}G{=}", (19, 7)),
        ("F{=<F><F>}", (19, 4)),
        ("F{=<EmitA><F <EmitB <F>>>}", (19, 21)),
        ("F{=}G{=<G><G>}", (19, 8)),
        ("F{=;s1=<F>s1;=<F>}", (19, 8)),
        ("X{'a'=}RecoverX{e1=<X 'a'>'k'}", (19, 20)),
    ]);
}

#[test]
fn other_refusals_come_first() {
    check(&[
        ("F{=<F><H>}", (8, 7)),
        ("F{=<F>'x'}G{=s1}", (7, 13)),
        ("F{=<F>'x'}F{=}", (5, 10)),
        ("F{=<F>'x'", (3, 9)),
        ("F{=<F>'x", (2, 6)),
    ]);
    assert_eq!(flat(&[b' '; 32_769]), Err(Refusal { number: 1, place: 0 }));
    assert_eq!(flat(&[b' '; 32_768]), Ok(0));
}

#[test]
fn a_flat_table_runs_in_one_frame() {
    let tree = read(b"X{'a'=}RecoverX{e1=<EmitA e1><X 'a'>}").expect("the table is sound");
    let rooms = Rooms { frames: 1, ..Rooms::lent(9, 9, 9) };
    let (outcome, need) = machine::run(&code(&tree), 1, b"b", 9, rooms);
    assert_eq!((outcome.answer, outcome.steps, need.frames), (0, 3, 1));
}
