//! Tables at, just below and just above each limit of the reader.

use crate::random::Random;
use refal0_apart::class::RECOVER;
use refal0_apart::reader::{
    CONDITION_LIMIT, FUNCTION_LIMIT, IDENTIFIER_LIMIT, ITEM_LIMIT, LETTER_LIMIT, NAME_LIMIT, NESTING_LIMIT,
    SENTENCE_LIMIT, SYMBOL_LIMIT, TABLE_LIMIT,
};

pub fn edge(random: &mut Random) -> Vec<u8> {
    let shift = random.below(3);
    let near = |limit: usize| limit - 1 + shift;
    let text = match random.below(40) {
        0 => functions(near(FUNCTION_LIMIT)),
        1 => sentences(random, near(SENTENCE_LIMIT)),
        2 => return filled(random, near(TABLE_LIMIT)),
        kind => match kind % 8 {
            0 => names(random, near(NAME_LIMIT)),
            1 => identifiers(random, near(IDENTIFIER_LIMIT)),
            2 => letters(random, near(LETTER_LIMIT)),
            3 => symbols(random, near(SYMBOL_LIMIT)),
            4 => conditions(random, near(CONDITION_LIMIT)),
            5 => items(random, near(ITEM_LIMIT)),
            6 => nesting(random, near(NESTING_LIMIT)),
            _ => format!("F{{='{}\\{}'}}", "a".repeat(random.below(3)), near(255)),
        },
    };
    // what follows a fault must not be looked at, what follows a sound table must
    let after = random.pick(&["", "", "", "", "", "", ";", " ", "'", "x", "}", "/*", "F{=}", "<"]);
    (text + after).into_bytes()
}

fn functions(count: usize) -> String {
    (0..count).map(|number| format!("F{number}{{=}}")).collect()
}

fn sentences(random: &mut Random, count: usize) -> String {
    let separated = random.below(count);
    let mut text = String::from("F{");
    for number in 0..count {
        text.push_str(if number > 0 && number == separated { "}G{" } else { "" });
        text.push_str(random.pick(&["=;", "e1=e1;", "'a'=;", "s1=;"]));
    }
    text + "}"
}

fn filled(random: &mut Random, length: usize) -> Vec<u8> {
    let begin = random.pick(&["F{=}", "", "F{= /*", "'", "F{=<F>}", "F{='", "/*", "F"]);
    let filler = random.pick(b" a*'<");
    let end = random.pick(&["", "*/}", "'}", "}", "F"]);
    let mut text = begin.as_bytes().to_vec();
    text.resize(length - end.len(), filler);
    text.extend_from_slice(end.as_bytes());
    text
}

fn names(random: &mut Random, length: usize) -> String {
    let start = random.pick(&["N", "Emit", "IsDigit", "DmAdd"]);
    let name = format!("{start}{}", "-".repeat(length - start.len()));
    let failing = "N".repeat(length - RECOVER.len());
    match random.below(5) {
        0 => format!("{name}{{=}}"),
        1 => format!("F{{=<{name}>}}"),
        2 => format!("F{{s1,<{name} s1>:'T'=}}"),
        3 => format!("{failing}{{'a'=}}Recover{failing}{{e1='r'}}"),
        _ => format!("{name}{{=<{name}>}}"),
    }
}

fn identifiers(random: &mut Random, length: usize) -> String {
    let one = "1".repeat(length);
    let other = random.pick(&["1", "22222222", "222222222"]);
    match random.below(7) {
        0 => format!("F{{s{one}=s{one}}}"),
        1 => format!("F{{e{one} s{other}=e{other}}}"),
        2 => format!("F{{e1 e{one}=}}"),
        3 => format!("F{{s1,<IsDigit s{one}>:'T'=}}"),
        4 => format!("F{{e1=e{one}}}"),
        5 => format!("F{{e{one},<IsDigit e{one}>:'T',<IsBlank e{other}>:'T'=}}"),
        _ => format!("F{{e1'a'e2'b'e{one}=}}"),
    }
}

fn letters(random: &mut Random, count: usize) -> String {
    let mut text = String::from("F{");
    let mut left = count;
    let part = random.below(count);
    while left > 0 {
        let length = (1 + random.below(20)).min(left);
        let string = "a".repeat(length);
        text.push_str(&if random.one_in(2) { format!("'{string}'") } else { "s1 ".repeat(length) });
        text.push_str(if random.one_in(5) { "''" } else { "" });
        if left > part && left - length <= part {
            text.push_str("e9 ");
        }
        left -= length;
    }
    text + "=}"
}

fn symbols(random: &mut Random, count: usize) -> String {
    let mut text = String::from("F{e1 ");
    for number in 0..count {
        text.push_str(&format!("s{} ", number + 10));
        text.push_str(if random.one_in(5) { "s10 " } else { "" });
    }
    text + random.pick(&["e2", "", "e10", "e1"]) + "=}"
}

fn conditions(random: &mut Random, count: usize) -> String {
    let conditions: String = (0..count).map(|_| random.pick(&[",<IsUpper s1>:'F'", ",<IsDigit e2>:'T'"])).collect();
    format!("F{{s1 e2{conditions}=}}")
}

fn items(random: &mut Random, count: usize) -> String {
    let mut text = String::from("F{s1 e2=");
    let mut left = count;
    let mut open = 0;
    while left > 0 {
        let length = (1 + random.below(30)).min(left);
        left -= length;
        match random.below(4) {
            0 if open < NESTING_LIMIT && length == 1 => {
                text.push_str("<F");
                open += 1;
            }
            1 if open > 0 => {
                text.push('>');
                open -= 1;
                left += length;
            }
            2 => text.push_str(&" s1".repeat(length)),
            _ => text.push_str(&format!("'{}'", "b".repeat(length))),
        }
    }
    text + &">".repeat(open) + random.pick(&["", "''"]) + "}"
}

fn nesting(random: &mut Random, depth: usize) -> String {
    let calls: String = (0..depth).map(|_| random.pick(&["<F", "<EmitA", "<F 'a'"])).collect();
    format!("F{{={calls}{}}}", ">".repeat(depth))
}
