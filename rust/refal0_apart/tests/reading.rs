//! Refusals of the reader: one check for each settled point about numbers and places.

use refal0_apart::class::Class;
use refal0_apart::reader::read;

/// Number and place at which a table is refused; (0, functions) for an accepted one.
fn verdict(text: impl AsRef<[u8]>) -> (u64, usize) {
    match read(text.as_ref()) {
        Ok(table) => (0, table.functions.len()),
        Err(refusal) => (refusal.number, refusal.place),
    }
}

fn check(rows: &[(&str, (u64, usize))]) {
    for (text, expected) in rows {
        assert_eq!(verdict(text), *expected, "{text}");
    }
}

#[test]
fn length_of_the_table() {
    assert_eq!(verdict(vec![b' '; 32_768]), (0, 0));
    assert_eq!(verdict(vec![b' '; 32_769]), (1, 0));
    assert_eq!(verdict(vec![b'\''; 40_000]), (1, 0));
}

#[test]
fn tokens() {
    check(&[
        ("'a", (2, 0)),
        ("'a'", (3, 0)),
        ("<", (2, 0)),
        ("<a", (3, 0)),
        ("< F>", (2, 0)),
        ("F{=< F>}", (2, 3)),
        ("F{=</**/F>}", (2, 3)),
        ("F{=<1>}", (2, 3)),
        ("/", (3, 0)),
        ("/*/", (2, 0)),
        ("/**/", (0, 0)),
        (" /* a */ /*", (2, 9)),
        ("F/*", (2, 1)),
        ("F{='/*'}", (0, 1)),
        ("F{=/* ' */}", (0, 1)),
        ("F{s1/**/s2=}", (0, 1)),
        ("F{s/**/1=}", (3, 2)),
        ("F{/* /* */=}", (0, 1)),
        ("F{/* /* */ */=}", (3, 11)),
    ]);
}

#[test]
fn strings() {
    check(&[
        ("F{='a\"b'}", (2, 3)),
        ("F{='a\\\"b'}", (0, 1)),
        ("F{='\\q'}", (2, 3)),
        ("F{='\\n\\t\\\\\\''}", (0, 1)),
        ("F{='\\000255'}", (0, 1)),
        ("F{='\\256'}", (2, 3)),
        ("F{='\\18446744073709551617'}", (2, 3)),
        ("F{='a\\\nb'}", (0, 1)),
        ("F{='a\\\r\nb'}", (2, 3)),
        ("F{='a\nb'}", (0, 1)),
        ("F{='a\\", (2, 3)),
        ("F{='a\\'", (2, 3)),
        ("F{'T' '\\300' = s1}", (2, 6)),
    ]);
}

#[test]
fn words() {
    check(&[
        ("F{s=}", (3, 2)),
        ("F{e=}", (3, 2)),
        ("F{S1=}", (3, 2)),
        ("F{x=}", (3, 2)),
        ("F{s1_=}", (3, 4)),
        ("F{s1e2=s1e2}", (0, 1)),
        ("F{s1e2=s1}", (7, 7)),
        ("F{s1=e1}", (7, 5)),
        ("F{e1=s1}", (7, 5)),
        ("F{=1}", (3, 3)),
        ("s1{=<s1>}", (0, 1)),
        ("F-_1{=<F-_1>}", (0, 1)),
        ("_F{=}", (3, 0)),
        ("1F{=}", (3, 0)),
        ("F{s1s2=}", (0, 1)),
        ("F{s1 sa=s1 sa}", (0, 1)),
        ("F{sA sa=sA sa}", (0, 1)),
    ]);
}

#[test]
fn functions_and_sentences() {
    check(&[
        ("", (0, 0)),
        (" \n\t\r/* */ ", (0, 0)),
        (";", (3, 0)),
        ("F", (3, 1)),
        ("F {", (3, 3)),
        ("F{ /* */ ", (3, 9)),
        ("F{}", (3, 2)),
        ("F{;}", (3, 2)),
        ("F{=;;}", (3, 4)),
        ("F{=;}", (0, 1)),
        ("F{=;};", (0, 1)),
        ("F{=};;", (3, 5)),
        ("F{=}G{=}", (0, 2)),
        ("F{=};G{=}", (0, 2)),
        ("F{=", (3, 3)),
        ("F{'a'", (3, 5)),
        ("F{'a'}", (3, 5)),
        ("F{'a';=}", (3, 5)),
        ("F{==}", (3, 3)),
        ("F{=>}", (3, 3)),
        ("F{=<F;>}", (3, 5)),
        ("F{=<F}", (3, 5)),
        ("F{<F>=}", (3, 2)),
        ("F F{=}", (3, 2)),
        ("{=}", (3, 0)),
        ("F{=}}", (3, 4)),
        ("F{= =}", (3, 4)),
        ("F{=\u{e9}}", (3, 3)),
    ]);
}

#[test]
fn names() {
    check(&[
        ("F{=}F{=}", (5, 4)),
        ("F{=}f{=}", (0, 2)),
        ("IsDigit{=}", (5, 0)),
        ("IsDigits{=}", (0, 1)),
        ("Emit{=}", (5, 0)),
        ("EmitAll{=}", (5, 0)),
        ("Emi{=}", (0, 1)),
        ("F{=<Emit>}", (0, 1)),
        ("F{=<IsDigit 'a'>}", (5, 4)),
        ("F{=<G>} 'a", (2, 8)),
        ("F{=<H><G>}", (8, 4)),
        ("F{=<EmitX <G>>}", (8, 11)),
        ("F{=<G>}G{=}", (0, 2)),
        ("IsDigit 'a", (5, 0)),
    ]);
    let long = "N".repeat(25);
    assert_eq!(verdict(format!("{long}{{=}}")), (4, 0));
    assert_eq!(verdict(format!("{}{{=}}", &long[..24])), (0, 1));
    assert_eq!(verdict(format!("F{{=<{long}>}}")), (4, 4));
    assert_eq!(verdict(format!("F{{=<Emit{long}>}}")), (4, 4));
    assert_eq!(verdict(format!("F{{s1,<{long} s1>:'T'=}}")), (4, 6));
    assert_eq!(verdict(format!("Emit{long}{{=}}")), (4, 0));
}

#[test]
fn pattern_variables() {
    check(&[
        ("F{e1 e2=}", (6, 5)),
        ("F{e1''e2=}", (6, 6)),
        ("F{e1'a'e2=}", (0, 1)),
        ("F{e1s2e3=}", (0, 1)),
        ("F{e1 s2 e3=}", (0, 1)),
        ("F{e1'a'e1=}", (6, 7)),
        ("F{e1 s1 =}", (6, 5)),
        ("F{s1 e1 =}", (6, 5)),
        ("F{e1'a'e2'b'e3=}", (3, 12)),
        ("F{e1'a'e2e2=}", (0, 1)),
        ("F{e1'a'e2 e2=}", (3, 10)),
        ("F{e1'a'e2 e123456789=}", (3, 10)),
        ("F{e123456789=}", (4, 2)),
        ("F{e12345678=}", (0, 1)),
        ("F{s123456789=}", (4, 2)),
        ("F{s1 s1=}", (0, 1)),
        ("F{e1 e123456789=}", (4, 5)),
    ]);
}

#[test]
fn expression_variables() {
    check(&[
        ("F{e1'a'e2=e2 e1}", (7, 13)),
        ("F{e1'a'e2=e1 e2}", (0, 1)),
        ("F{e1'a'e2=e2}", (0, 1)),
        ("F{e1'a'e2=<F e2>e1}", (7, 16)),
        ("F{e1'a'e2=<F e1>e2}", (0, 1)),
        ("F{e1=<F e1>e1}", (7, 11)),
        ("F{s1=s1 s1 s1}", (0, 1)),
        ("F{=s1}", (7, 3)),
        ("F{=e1}", (7, 3)),
        ("F{=s123456789}", (4, 3)),
        ("F{s1=;=s1}", (7, 7)),
    ]);
}

#[test]
fn conditions() {
    check(&[
        ("F{s1,<IsDigit s1>:'T'=}", (0, 1)),
        ("F{s1 , <IsDigit s1 > : 'F' , <IsBlank s1>:'F' = }", (0, 1)),
        ("F{s1,<IsDigit s1>:'X'=}", (3, 18)),
        ("F{s1,<IsDigit s1>:'\\84'=}", (3, 18)),
        ("F{s1,<IsDigit s1>:'T''T'=}", (3, 21)),
        ("F{s1,<IsDigit s1>:''=}", (3, 18)),
        ("F{s1,<IsDigit s1>:'\\300'=}", (2, 18)),
        ("F{s1,<IsDigit s1>'T'=}", (3, 17)),
        ("F{s1,<IsDigit s2>:'T'=}", (7, 14)),
        ("F{e1,<IsDigit e1>:'T'=}", (0, 1)),
        ("F{e1,<IsDigit e2>:'T'=}", (7, 14)),
        ("F{s1,<IsDigit e1>:'T'=}", (7, 14)),
        ("F{e1,<IsDigit e123456789>:'T'=}", (4, 14)),
        ("F{s1,<IsDigit e123456789>:'T'=}", (4, 14)),
        ("F{e1,<IsDigit e>:'T'=}", (3, 14)),
        ("F{e1,<IsFoo e2>:'T'=}", (5, 6)),
        ("F{e1'a'e2,<IsDigit e2>:'T',<IsDigit e1>:'F',<IsUpper e2>:'F'=e1 e2}", (0, 1)),
        ("F{e1,<IsDigit e1 e1>:'T'=}", (3, 17)),
        ("F{e1,<IsDigit s1>:'T'=}", (7, 14)),
        ("F{s1,<IsDigit s123456789>:'T'=}", (4, 14)),
        ("F{s1,<IsDigit>:'T'=}", (3, 13)),
        ("F{s1,<IsDigit 'a'>:'T'=}", (3, 14)),
        ("F{s1,<IsDigit s1 s1>:'T'=}", (3, 17)),
        ("F{s1,<F s1>:'T'=}", (5, 6)),
        ("F{s1,<EmitA s1>:'T'=}", (5, 6)),
        ("F{s1,<IsDigit-s1>:'T'=}", (5, 6)),
        ("F{,<IsDigit s1>:'T'=}", (7, 12)),
        ("F{s1,=}", (3, 5)),
        ("F{s1,<=}", (2, 5)),
        ("F{s1,<IsDigit s1>:'T'}", (3, 21)),
        ("F{s1,<IsDigit s1>:'T' s1=}", (3, 22)),
    ]);
}

#[test]
fn limits_of_counts() {
    let functions: String = (0..65).map(|number| format!("F{number}{{=}}")).collect();
    let last = functions.rfind('F').unwrap();
    assert_eq!(verdict(&functions[..last]), (0, 64));
    assert_eq!(verdict(&functions), (4, last));
    assert_eq!(verdict(format!("{}F1'", &functions[..last])), (4, last));
    assert_eq!(verdict(format!("{};", &functions[..last])), (0, 64));

    let sentences = format!("F{{{}", "=;".repeat(512));
    let end = sentences.len();
    assert_eq!(verdict(format!("{sentences}}}")), (0, 1));
    for next in ["=", ",", "s1=", "'a'", "e1"] {
        assert_eq!(verdict(format!("{sentences}{next}")), (4, end), "{next}");
    }
    for (next, number) in [("x", 3), (";", 3), ("'a", 2), ("<F", 3), ("<", 2), ("", 3)] {
        assert_eq!(verdict(format!("{sentences}{next}")), (number, end), "{next}");
    }
    assert_eq!(verdict(format!("{sentences}}}G{{")), (3, end + 3));
    assert_eq!(verdict(format!("{sentences}}}G{{=")), (4, end + 3));

    let conditions = format!("F{{s1{}", ",<IsDigit s1>:'T'".repeat(8));
    assert_eq!(verdict(format!("{conditions}=}}")), (0, 1));
    assert_eq!(verdict(format!("{conditions},")), (4, conditions.len()));
}

#[test]
fn limits_of_patterns_and_expressions() {
    let string = |length: usize| "a".repeat(length);
    assert_eq!(verdict(format!("F{{'{}'=}}", string(64))), (0, 1));
    assert_eq!(verdict(format!("F{{'{}'=}}", string(65))), (4, 2));
    assert_eq!(verdict(format!("F{{'{}'e1''=}}", string(64))), (0, 1));
    assert_eq!(verdict(format!("F{{'{}'s1=}}", string(64))), (4, 68));
    assert_eq!(verdict(format!("F{{'{}' 'b'=}}", string(64))), (4, 69));
    let symbols: String = (10..26).map(|number| format!("s{number} ")).collect();
    assert_eq!(verdict(format!("F{{{symbols}s10=}}")), (0, 1));
    assert_eq!(verdict(format!("F{{{symbols}s26=}}")), (4, 66));
    assert_eq!(verdict(format!("F{{{symbols}e26=}}")), (0, 1));

    assert_eq!(verdict(format!("F{{='{}'''}}", string(128))), (0, 1));
    assert_eq!(verdict(format!("F{{='{}'}}", string(129))), (4, 3));
    assert_eq!(verdict(format!("F{{s1='{}'s1}}", string(127))), (0, 1));
    assert_eq!(verdict(format!("F{{s1='{}'s2}}", string(128))), (4, 135));
    assert_eq!(verdict(format!("F{{='{}'<F>}}", string(127))), (0, 1));
    assert_eq!(verdict(format!("F{{='{}'<F>}}", string(128))), (4, 133));
    assert_eq!(verdict(format!("F{{=<F '{}'>'a'}}", string(126))), (0, 1));
    assert_eq!(verdict(format!("F{{=<F '{}'>'a'}}", string(127))), (4, 136));
    let nested = |depth: usize| format!("F{{={}{}}}", "<F".repeat(depth), ">".repeat(depth));
    assert_eq!(verdict(nested(16)), (0, 1));
    assert_eq!(verdict(nested(17)), (4, 35));
    assert_eq!(verdict(format!("F{{=<EmitA {}{}>}}", "<F".repeat(16), ">".repeat(16))), (4, 40));
}

#[test]
fn classes() {
    let members = |class: Class| (0..=255u8).filter(|&byte| class.holds(byte)).collect::<Vec<_>>();
    assert_eq!(members(Class::Digit), (b'0'..=b'9').collect::<Vec<_>>());
    assert_eq!(members(Class::Upper), (b'A'..=b'Z').collect::<Vec<_>>());
    assert_eq!(members(Class::Lower), (b'a'..=b'z').collect::<Vec<_>>());
    assert_eq!(members(Class::Letter), (b'A'..=b'Z').chain(b'a'..=b'z').collect::<Vec<_>>());
    assert_eq!(members(Class::Blank), [9, 10, 13, 32]);
}
