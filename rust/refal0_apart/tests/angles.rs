//! DmAdd and DmSub: every angle, the forms that are none, and the calls in tables.

use refal0_apart::angles::{MOST, NOT_ANGLES, OUT_OF_RANGE, Operation, angle, angle_text};
use refal0_apart::flat::flat;
use refal0_apart::machine::{self, Rooms};
use refal0_apart::outcome::Outcome;
use refal0_apart::packing::code;
use refal0_apart::reader::{Refusal, read};
use refal0_apart::rewriter::rewrite;

use Operation::{Minus, Plus};

fn comes_to(operation: Operation, argument: &str) -> Result<String, u64> {
    operation.of_text(argument.as_bytes()).map(|bytes| String::from_utf8(bytes).expect("an angle is readable"))
}

fn gives(operation: Operation, argument: &str, result: &str) {
    assert_eq!(comes_to(operation, argument), Ok(result.to_string()), "{argument}");
}

#[test]
fn every_angle_is_read_back() {
    for minutes in -MOST..=MOST {
        let text = angle_text(minutes);
        assert_eq!(angle(&text), Some(minutes));
        assert_eq!(text[0] == b'-', minutes < 0);
        let digits: Vec<u8> = text.iter().copied().skip_while(|&byte| byte == b'-').collect();
        assert!(digits[0] != b'0' || digits[1] == b':');
        assert!(text.len() <= 7);
        assert_eq!(Plus.of_text(&[text.as_slice(), b" 0:00"].concat()), Ok(text.clone()));
        assert_eq!(Minus.of_text(&[text.as_slice(), b" ", &text].concat()), Ok(b"0:00".to_vec()));
    }
}

#[test]
fn sums_and_differences() {
    gives(Plus, "-0:30 0:45", "0:15");
    gives(Plus, "007:05 000:00", "7:05");
    gives(Plus, "-0:00 -0:00", "0:00");
    gives(Plus, "12:30 2:45", "15:15");
    gives(Minus, "0:00 0:30", "-0:30");
    gives(Minus, "-359:59 0:00", "-359:59");
    gives(Minus, "12:30 2:45", "9:45");
    gives(Minus, "0:30 0:30", "0:00");
    gives(Plus, "359:58 0:01", "359:59");
    gives(Plus, "180:00 179:59", "359:59");
    gives(Minus, "-359:58 0:01", "-359:59");
}

#[test]
fn beyond_the_range() {
    for (operation, argument) in [
        (Plus, "359:59 0:01"),
        (Minus, "-359:59 0:01"),
        (Plus, "359:59 359:59"),
        (Plus, "-359:59 -359:59"),
        (Minus, "359:59 -0:01"),
        (Plus, "180:00 180:00"),
    ] {
        assert_eq!(comes_to(operation, argument), Err(OUT_OF_RANGE), "{argument}");
    }
}

#[test]
fn what_is_no_angle() {
    #[rustfmt::skip]
    let nearly = [
        "+1:00", "0001:00", "360:00", "-360:00", "1:5", "1:60", "1:000", "", "-", ":", ":30", "-:30", "1", "1:", "12",
        "1:0a", "a:00", "--1:00", "- 1:00", "1:-5", "1;00", "1::00", "1:00\n", "1:0/", "1:0:", "\u{661}:00",
    ];
    for text in nearly {
        assert_eq!(angle(text.as_bytes()), None, "{text}");
        for argument in [format!("{text} 0:00"), format!("0:00 {text}"), format!("359:59 {text}")] {
            assert_eq!(comes_to(Plus, &argument), Err(NOT_ANGLES), "{argument}");
        }
    }
    for argument in
        ["", " ", "0:00", "0:00 ", " 0:00", "0:00  0:00", "0:00\t0:00", "0:00 0:00 ", " 0:00 0:00", "0:000:00"]
    {
        assert_eq!(comes_to(Minus, argument), Err(NOT_ANGLES), "{argument}");
    }
    // 21 only of well formed arguments
    assert_eq!(comes_to(Plus, "359:59 0:1"), Err(NOT_ANGLES));
}

/// The outcome of rewriting, which must be that of the machine without end; and what the machine needs.
fn ample(table: &str, text: &str, allowance: u32) -> (Outcome, Rooms) {
    let tree = read(table.as_bytes()).expect("the table is accepted");
    let rewritten = rewrite(&tree, 1, text.as_bytes(), allowance);
    let (outcome, need) = machine::run(&code(&tree), 1, text.as_bytes(), allowance, Rooms::WITHOUT_END);
    assert_eq!(outcome, rewritten);
    (outcome, need)
}

#[test]
fn an_angle_call_is_no_step_and_adds_no_frame() {
    let (outcome, need) = ample("F{=<DmAdd <DmAdd '0:10 0:20'>' '<DmSub '1:00 0:30'>>'z'}", "", 1);
    assert_eq!((outcome.answer, outcome.steps, outcome.text.as_slice()), (0, 1, b"1:00z".as_slice()));
    assert_eq!(need.frames, 1);
    let (outcome, _) = ample("F{=<EmitA 'z'>'k'<DmAdd 'x'>}", "", 9);
    assert_eq!((outcome.answer, outcome.function, outcome.steps), (20, 0, 1));
    assert_eq!((outcome.text.as_slice(), outcome.record.as_slice()), (b"".as_slice(), b"EmitA z\n".as_slice()));
}

#[test]
fn what_an_angle_call_needs() {
    let (_, need) = ample("F{=<DmAdd '0:00 0:00'>}", "", 1);
    assert_eq!((need.stack_in, need.stack_out), (9, 9));
    // no Go comes before UseSeq, though it is the last item
    assert_eq!(ample("F{'abc'=<DmAdd '0:00 0:00'>}", "abc", 1).1.stack_in, 12);
    let run = |table: &str, rooms: Rooms| machine::run(&code(&read(table.as_bytes()).unwrap()), 1, b"", 1, rooms).0;
    for table in ["F{=<DmAdd '0:00 0:00'>}", "F{=<DmAdd '0:00 0:0x'>}"] {
        assert_eq!(run(table, Rooms::lent(9, 8, 0)).answer, 14);
        assert_eq!(run(table, Rooms::lent(8, 9, 0)).answer, 13);
    }
    assert_eq!(run("F{=<DmAdd '0:00 0:00'>}", Rooms::lent(9, 9, 0)).answer, 0);
    assert_eq!(run("F{=<DmAdd '0:00 0:0x'>}", Rooms::lent(9, 9, 0)).answer, 20);
}

#[test]
fn nothing_recovers_an_angle_call() {
    let table = "F{e1=<DmAdd e1>}RecoverF{e1='f'}RecoverDmAdd{e1='d'}";
    assert_eq!(ample(table, "x", 9).0.answer, 20);
    assert_eq!(ample(table, "359:59 0:01", 9).0.answer, 21);
}

#[test]
fn names() {
    let refused = |text: &str| read(text.as_bytes()).map(|_| ()).expect_err("the table is refused");
    let at = |number: u64, place: usize| Refusal { number, place };
    assert_eq!(refused("DmAdd{=}"), at(5, 0));
    assert_eq!(refused("F{=}DmSub{=}"), at(5, 4));
    assert_eq!(refused("F{s1,<DmAdd s1>:'T'=}"), at(5, 6));
    assert_eq!(refused("F{=<DmAdd2>}"), at(8, 4));
    assert_eq!(refused("F{=<dmadd>}"), at(8, 4));
    assert!(read(b"DmAdd2{=}dmadd{=}RecoverDmAdd{=}DmSubs{=}Dm{=}").is_ok());
    assert_eq!(flat(b"F{e1=<DmAdd e1>'x'}"), Ok(1));
    assert_eq!(flat(b"F{e1=<DmAdd <F e1>>}"), Err(at(19, 13)));
    assert_eq!(flat(b"F{e1=<F <DmAdd e1>>}"), Ok(1));
    assert_eq!(flat(b"F{e1=<F e1><DmAdd>}"), Err(at(19, 6)));
}

#[test]
fn in_words() {
    let words = code(&read(b"F{e1=<DmAdd e1><DmSub '1'>}").unwrap());
    let angle_calls: Vec<u32> = words.into_iter().filter(|word| word % 256 == 21).collect();
    assert_eq!(angle_calls, [21, 21 + 256]);
}
