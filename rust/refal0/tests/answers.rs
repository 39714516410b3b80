//! The answers of the header, and runs by the safe functions.

use refal0::{Answer, Cells, Code, Ended, Refused, list, read};
use std::path::Path;

/// The lines `REFAL0_NAME = NUMBER` of the header's enum.
fn header() -> Vec<(String, u64)> {
    let path = Path::new(env!("CARGO_MANIFEST_DIR")).join("../../include/refal0.h");
    let text = std::fs::read_to_string(path).expect("the header is there");
    let entry = |line: &str| {
        let (name, rest) = line.trim().strip_prefix("REFAL0_")?.split_once(" = ")?;
        let digits: String = rest.chars().take_while(char::is_ascii_digit).collect();
        Some((name.replace('_', "").to_lowercase(), digits.parse().ok()?))
    };
    text.lines().filter_map(entry).collect()
}

#[test]
fn the_header_has_the_same_answers() {
    let named = |answer: &Answer| (format!("{answer:?}").to_lowercase(), answer.number());
    let expected: Vec<(String, u64)> = Answer::ALL.iter().map(named).collect();
    assert_eq!(expected, header());
    assert_eq!(expected.len(), 22);
}

#[test]
fn a_table_is_read_once_and_run_often() {
    let code = Code::of(b"F { '0' e1 = <F e1>; e1 = e1 }").expect("the table is sound");
    let mut cells = Cells::new(8, 8, 0);
    for (text, result, steps) in [(&b"0060"[..], &b"60"[..], 3), (b"60", b"60", 1), (b"", b"", 1)] {
        assert_eq!(code.run(1, text, &mut cells, 10), Ended::Done { text: result, record: b"", steps });
    }
    let (ended, counts) = code.profile(1, b"0060", &mut cells, 10);
    assert_eq!((ended, counts[0]), (Ended::Done { text: b"60", record: b"", steps: 3 }, 3));
    assert_eq!(
        Code::from_words(code.words().to_vec()).run(1, b"0060", &mut cells, 2),
        Ended::Early { answer: Answer::AllowanceSpent, function: None, steps: 2 }
    );
}

#[test]
fn what_is_wrong_is_an_answer() {
    assert_eq!(read(b"F { e1 = e2 }"), Err(Refused { answer: Answer::LaterVariable, place: 9 }));
    assert_eq!(list(b"F { = '\xff' }"), Ok(b"F {\n= '\\255';\n}\n".to_vec()));
    let mut cells = Cells::new(4, 4, 4);
    let early = |answer, function| Ended::Early { answer, function, steps: 0 };
    let code = Code::of(b"H { 'a' = <EmitLong 'a'> }").expect("the table is sound");
    assert_eq!(code.run(2, b"", &mut cells, 9), early(Answer::NoStart, None));
    assert_eq!(code.run(1, b"aaaaa", &mut cells, 9), early(Answer::TextTooLong, None));
    let ended = code.run(1, b"b", &mut cells, 9);
    assert_eq!(ended, Ended::Early { answer: Answer::NothingFits, function: Some(1), steps: 1 });
    let ended = code.run(1, b"a", &mut cells, 9);
    assert_eq!(ended, Ended::Early { answer: Answer::RecordFull, function: None, steps: 1 });
    assert_eq!(Code::from_words(vec![7]).run(1, b"", &mut cells, 9), early(Answer::NoCode, None));
}
