//! The machine's instructions on code that no table is translated to: 000's example 4.3.1, q, i and spans.

use refal0_apart::class::Class;
use refal0_apart::corpus::Lending;
use refal0_apart::machine::Rooms;
use refal0_apart::outcome::Outcome;
use refal0_apart::packing::{code, pack};
use refal0_apart::reader::read;
use refal0_apart::translation::{Action, Base, Cell, Code, FunctionCode, Length, Metric, Program, Register, Test};

use Action::{BeginSeq, Call, Emit, Go, Out, OutC, OutV, Select, TailCall, UseSeq};
use Base::{D, Dl, Dr, Null};
use Register::{I, P, Q};

const ANY: Metric = Metric { head: 0, middle: 0, tail: 0, parts: 1 };

fn length(base: Base, add: usize, back: usize) -> Length {
    Length { base, add, back }
}

fn go(base: Base, add: usize, back: usize) -> Action {
    Go(length(base, add, back))
}

fn select(base: Base, add: usize, back: usize) -> Action {
    Select(length(base, add, back))
}

fn cell(register: Register, offset: usize) -> Cell {
    Cell { register, offset }
}

/// A sentence that tests the bytes of one template, which begins at this cell.
fn looking(metric: Metric, begin: Cell, bytes: &[u8], actions: Vec<Action>) -> Code {
    let place = |offset: usize| match begin.register {
        Q => cell(Q, begin.offset - offset),
        register => cell(register, begin.offset + offset),
    };
    let tests = bytes.iter().enumerate().map(|(offset, &byte)| Test::Look(place(offset), byte)).collect();
    Code { metric, tests, store: Vec::new(), actions }
}

/// A sentence that fits every field.
fn always(actions: Vec<Action>) -> Code {
    looking(ANY, cell(P, 0), b"", actions)
}

/// Functions that none recovers.
fn packed(functions: Vec<Vec<Code>>) -> Vec<u32> {
    let alone = |sentences: Vec<Code>| FunctionCode { sentences, recoverer: 0 };
    pack(&Program { functions: functions.into_iter().map(alone).collect() })
}

fn run(functions: Vec<Vec<Code>>, text: &[u8]) -> Outcome {
    Lending { text: text.to_vec(), ..Lending::default() }.run(&packed(functions))
}

/// The result of a run that finishes.
fn result(functions: Vec<Vec<Code>>, text: &[u8]) -> String {
    let outcome = run(functions, text);
    assert_eq!((outcome.answer, outcome.function), (0, 0));
    String::from_utf8(outcome.text).expect("the result is readable")
}

/// The answer of one function that does these actions on any text.
fn answer(actions: Vec<Action>, text: &[u8]) -> u64 {
    run(vec![vec![always(actions)]], text).answer
}

/// Example 4.3.1 as printed: OutS is Select 1 and Out, Loop a tail call, and what is left on in is moved to out.
fn solve_path() -> Vec<Vec<Code>> {
    let head = |head: usize| Metric { head, ..ANY };
    let middle = |middle: usize| Metric { head: 0, middle, tail: 0, parts: 2 };
    let again = TailCall(1);
    let solve = vec![
        looking(
            head(4),
            cell(P, 0),
            b"/../",
            vec![BeginSeq, select(Null, 1, 0), Out, go(Null, 3, 0), select(D, 0, 4), UseSeq, again.clone()],
        ),
        looking(head(3), cell(P, 0), b"../", vec![select(Null, 3, 0), Out, select(D, 0, 3), again.clone()]),
        looking(
            middle(4),
            cell(I, 0),
            b"/../",
            vec![BeginSeq, select(Dl, 0, 0), Call(2), Out, go(Null, 4, 0), select(Dr, 0, 4), UseSeq, again.clone()],
        ),
        looking(
            Metric { tail: 3, ..ANY },
            cell(Q, 3),
            b"/..",
            vec![select(D, 0, 3), Call(2), Out, go(Null, 3, 0), again],
        ),
        always(vec![select(D, 0, 0), Out]),
    ];
    let level_up = vec![
        looking(middle(1), cell(I, 0), b"/", vec![select(Dl, 1, 0), Out, select(Dr, 0, 1), TailCall(2)]),
        always(vec![go(D, 0, 0)]),
    ];
    vec![solve, level_up]
}

#[test]
fn example_4_3_1() {
    for (path, solved) in [
        ("/../ab", "/ab"),
        ("../a", "../a"),
        ("../../a", "../../a"),
        ("a/b/../c", "a/c"),
        ("/a/b/../../c", "/c"),
        ("a/b/..", "a/"),
        ("a/b", "a/b"),
        ("", ""),
    ] {
        assert_eq!(result(solve_path(), path.as_bytes()), solved, "{path}");
    }
}

#[test]
fn use_seq_leaves_q_where_it_is() {
    let sequence = vec![BeginSeq, OutC(b'x'), select(D, 0, 0), UseSeq, Out];
    assert_eq!(result(vec![vec![always(sequence)]], b"ab"), "xab");
    let nested = vec![BeginSeq, OutC(b'x'), BeginSeq, OutC(b'y'), select(Null, 1, 0), UseSeq, UseSeq, Out];
    assert_eq!(result(vec![vec![always(nested)]], b"ab"), "xya");
}

#[test]
fn a_call_leaves_q_where_it_was() {
    let caller = always(vec![select(D, 0, 0), Call(2), Out]);
    let with = |actions: Vec<Action>| result(vec![vec![caller.clone()], vec![always(actions)]], b"ab");
    assert_eq!(with(vec![]), "ab");
    assert_eq!(with(vec![go(Null, 1, 0)]), "b");
    assert_eq!(with(vec![go(D, 0, 0)]), "");
    assert_eq!(with(vec![BeginSeq, OutC(b'x'), UseSeq]), "xab");
    // the callee's own q is another
    assert_eq!(with(vec![select(Null, 1, 0)]), "ab");
}

#[test]
fn where_a_callee_has_passed_q_it_is_p() {
    let caller = always(vec![select(Null, 1, 0), Call(2), select(Null, 1, 0), Out]);
    let with = |actions: Vec<Action>| result(vec![vec![caller.clone()], vec![always(actions)]], b"abcd");
    assert_eq!(with(vec![]), "ab");
    assert_eq!(with(vec![go(Null, 2, 0)]), "c");
    // passed and come back
    assert_eq!(with(vec![BeginSeq, OutC(b'x'), OutC(b'y'), go(Null, 2, 0), UseSeq]), "xy");
}

#[test]
fn a_tail_call_takes_the_frame_and_its_callers_q() {
    let caller = always(vec![select(D, 0, 0), Call(2), Out]);
    let passing = always(vec![select(Null, 1, 0), TailCall(3)]);
    let functions = vec![vec![caller], vec![passing], vec![always(vec![OutC(b'.'), go(D, 0, 0)])]];
    assert_eq!(result(functions.clone(), b"abc"), ".bc");
    let rooms = Rooms { frames: 2, ..Rooms::lent(3, 9, 0) };
    let lending = Lending { text: b"abc".to_vec(), rooms, ..Lending::default() };
    assert_eq!(lending.run(&packed(functions)).answer, 0);
}

#[test]
fn go_lets_q_follow_p() {
    assert_eq!(result(vec![vec![always(vec![select(D, 0, 0), go(Null, 1, 0), Out])]], b"ab"), "");
}

#[test]
fn lengths_stay_those_of_the_match() {
    let actions = vec![go(Null, 1, 0), select(D, 0, 1), Out];
    assert_eq!(result(vec![vec![always(actions)]], b"abc"), "bc");
    let actions = vec![BeginSeq, OutC(b'x'), UseSeq, select(D, 0, 0), Out];
    assert_eq!(result(vec![vec![always(actions)]], b"abc"), "xabc");
}

#[test]
fn without_a_middle_template_i_is_the_first_cell() {
    let code = |metric: Metric| Code {
        metric,
        tests: vec![Test::Look(cell(I, 1), b'b'), Test::Compare(cell(I, 0), cell(P, 0))],
        store: vec![cell(I, 1)],
        actions: vec![OutV(0), select(Dl, 0, 0), Out, OutC(b'|'), select(Dr, 0, 0), Out],
    };
    assert_eq!(result(vec![vec![code(ANY)]], b"abc"), "b|abc");
    assert_eq!(result(vec![vec![code(Metric { head: 3, parts: 0, ..ANY })]], b"abc"), "b|abc");
}

#[test]
fn a_span_below_zero_counts_as_zero() {
    let actions = vec![go(Null, 1, 2), select(D, 0, 9), select(Null, 1, 0), Out];
    assert_eq!(result(vec![vec![always(actions)]], b"ab"), "a");
}

#[test]
fn a_span_keeps_within_in() {
    assert_eq!(answer(vec![go(D, 0, 0)], b"ab"), 0);
    assert_eq!(answer(vec![go(D, 1, 0)], b"ab"), 18);
    assert_eq!(answer(vec![select(D, 0, 0), select(Null, 1, 0)], b"ab"), 18);
    // a callee may reach past its field, up to in's right end
    let functions = |add: usize| vec![vec![always(vec![Call(2)])], vec![always(vec![select(Null, add, 0), Out])]];
    assert_eq!(result(functions(2), b"ab"), "ab");
    assert_eq!(run(functions(3), b"ab").answer, 18);
}

#[test]
fn what_is_not_there_is_18() {
    assert_eq!(answer(vec![UseSeq], b""), 18);
    assert_eq!(answer(vec![BeginSeq, UseSeq, UseSeq], b""), 18);
    assert_eq!(answer(vec![BeginSeq; 16], b""), 0);
    assert_eq!(answer(vec![BeginSeq; 17], b""), 18);
    assert_eq!(answer(vec![OutV(0)], b""), 18);
    assert_eq!(answer(vec![Call(0)], b""), 18);
    assert_eq!(answer(vec![TailCall(2)], b""), 18);
    // a caller's BeginSeq is not the callee's
    let functions = vec![vec![always(vec![BeginSeq, Call(2), UseSeq])], vec![always(vec![UseSeq])]];
    assert_eq!(run(functions, b"").answer, 18);
    // one that is left open ends with its application
    let functions = vec![vec![always(vec![BeginSeq, Call(2), UseSeq])], vec![always(vec![BeginSeq, OutC(b'x')])]];
    assert_eq!(run(functions.clone(), b"").answer, 0);
    let twice = vec![vec![always(vec![BeginSeq, Call(2), UseSeq, UseSeq])], functions[1].clone()];
    assert_eq!(run(twice, b"").answer, 18);
}

#[test]
fn a_test_is_made_only_where_it_is_reached() {
    let absent = Test::Predicate(cell(Q, 0), Class::Digit, true);
    let code = |tests: Vec<Test>| Code { metric: ANY, tests, store: Vec::new(), actions: Vec::new() };
    let fails = Test::Look(cell(P, 0), b'x');
    assert_eq!(run(vec![vec![code(vec![absent])]], b"ab").answer, 18);
    assert_eq!(run(vec![vec![code(vec![fails, absent])]], b"ab").answer, 11);
    let holds = Test::Look(cell(P, 0), b'a');
    assert_eq!(run(vec![vec![code(vec![holds, absent])]], b"ab").answer, 18);
}

#[test]
fn at_a_call_18_comes_before_12_and_12_before_15() {
    let calling = |function: usize| packed(vec![vec![always(vec![Call(function)])]]);
    let rooms = Rooms { frames: 1, ..Rooms::lent(0, 0, 0) };
    let lending = |allowance: u32| Lending { allowance, rooms, ..Lending::default() };
    assert_eq!(lending(1).run(&calling(2)).answer, 18);
    assert_eq!(lending(1).run(&calling(1)).answer, 12);
    let stopped = lending(2).run(&calling(1));
    assert_eq!((stopped.answer, stopped.steps), (15, 1));
}

#[test]
fn emissions_of_any_name() {
    let actions = vec![select(Null, 1, 0), Emit(b"".to_vec()), select(Null, 1, 0), Emit(vec![255; 200])];
    let outcome = run(vec![vec![always(actions)]], b"ab");
    assert_eq!((outcome.answer, outcome.record), (0, [b" a\n".as_slice(), &[255; 200], b" b\n"].concat()));
}

#[test]
fn functions_past_the_64th_are_not_counted() {
    // each function calls the next
    let functions = (1..=65).map(|number| vec![always(if number < 65 { vec![Call(number + 1)] } else { vec![] })]);
    let outcome = run(functions.collect(), b"");
    assert_eq!((outcome.answer, outcome.steps, *outcome.counts.0), (0, 65, [1; 64]));
}

#[test]
fn conditions_on_parts_in_words() {
    let words = |table: &str| code(&read(table.as_bytes()).expect("the table is sound"));
    // p + 0 to q - 0, 'T', IsDigit
    assert_eq!(words("F{e1,<IsDigit e1>:'T'=}"), [1, 2, 17, 196609, 5140, 261, 15, 19]);
    // p + 1 to i + 0, 'F', IsBlank; i + 1 to q - 1, 'T', IsUpper
    let conditions = &words("F{'a'e1'b'e2'c',<IsBlank e1>:'F',<IsUpper e2>:'T'=}")[7..9];
    assert_eq!(conditions, [20 + 256 * (8 + 128) + 65_536, 20 + 256 * (2 + 4 + 16 + 32) + 65_536 + 16_777_216]);
}

#[test]
fn the_word_that_ends_a_function_names_the_one_that_recovers_it() {
    let words = |table: &str| code(&read(table.as_bytes()).expect("the table is sound"));
    let ends = |table: &str| words(table).into_iter().filter(|word| word % 256 == 19).collect::<Vec<_>>();
    assert_eq!(ends("X{=}RecoverX{=}"), [19 + 256 * 2, 19]);
    assert_eq!(ends("RecoverX{=}X{=}"), [19, 19 + 256]);
    assert_eq!(ends("Recover{=}RecoverRecover{=}recoverX{=}X{=}"), [19; 4]);
}

/// The example of docs/CODE.md.
#[test]
fn row_r_in_words() {
    let words = [1, 2, 273, 721152, 4, 10, 65541, 16777478, 7, 11, 6, 268, 9, 5, 15, 16, 131072, 261, 15, 19];
    assert_eq!(code(&read(b"G { s1 e2 = <G e2> s1; = }").expect("row R is sound")), words);
}

/// What ends the pattern stays on in: Go to it, UseSeq, Select of it, and the call.
#[test]
fn row_z_in_words() {
    let first = [273, 458_753, 805_306_369, 10, 65_541, 11, 16_777_478, 269, 15];
    let words = [[1, 2].as_slice(), &first, &[17, 327_680, 5, 262, 7, 5, 15, 19]].concat();
    assert_eq!(code(&read(b"F { '0' e1 = <F e1>; e1 = e1 }").expect("row Z is sound")), words);
}
