//! Why no sentence of a function fits a text: which small change of the text would make one fit.

use crate::near::distance;
use crate::shown::quoted;
use refal0_apart::rewriter::choose;
use refal0_apart::tree::{Function, Letter, Sentence};

/// What people don't see in a sheet: how it is said, and the text without it.
type Change = (&'static str, fn(&[u8]) -> Vec<u8>);

const CHANGES: [Change; 8] = [
    ("without the byte order mark at its front", |text| without_front(text, "\u{feff}".as_bytes())),
    ("without byte 13 at its end", |text| without_end(text, b"\r")),
    ("without the line end at its end", |text| without_end(&without_end(text, b"\n"), b"\r")),
    ("without the blanks at its end", |text| text.trim_ascii_end().to_vec()),
    ("without the blanks at its front", |text| text.trim_ascii_start().to_vec()),
    ("in capital letters", <[u8]>::to_ascii_uppercase),
    ("in small letters", <[u8]>::to_ascii_lowercase),
    ("with the digit 0 for the letter O", zeros_for_os),
];

/// The shortest keyword at a pattern's front that is looked at for a slip.
const KEYWORD: usize = 3;

fn without_front(text: &[u8], front: &[u8]) -> Vec<u8> {
    text.strip_prefix(front).unwrap_or(text).to_vec()
}

fn without_end(text: &[u8], end: &[u8]) -> Vec<u8> {
    text.strip_suffix(end).unwrap_or(text).to_vec()
}

/// The letter O beside a digit was meant as one.
fn zeros_for_os(text: &[u8]) -> Vec<u8> {
    let digit = |at: Option<usize>| at.and_then(|at| text.get(at)).is_some_and(u8::is_ascii_digit);
    let changed = |(at, &byte): (usize, &u8)| match byte {
        b'O' | b'o' if digit(at.checked_sub(1)) || digit(at.checked_add(1)) => b'0',
        _ => byte,
    };
    text.iter().enumerate().map(changed).collect()
}

/// In words, if there is such a change.
pub fn reason(function: &Function, text: &[u8]) -> Option<String> {
    if text.is_empty() {
        return Some(String::from("the text is empty"));
    }
    let mut changed = CHANGES.iter().map(|(said, change)| (said, change(text)));
    let fitting = changed.find_map(|(said, changed)| Some((said, choose(function, &changed)?.0)));
    if let Some((said, sentence)) = fitting {
        return Some(format!("{said} sentence {} would", sentence + 1));
    }
    let mut sentences = function.sentences.iter().enumerate();
    sentences.find_map(|(index, sentence)| {
        let keyword = keyword(sentence);
        let slip = keyword.len() >= KEYWORD && misspelt(&keyword, text);
        slip.then(|| format!("sentence {} begins with {}", index + 1, quoted(&keyword)))
    })
}

/// The characters that a pattern begins with.
fn keyword(sentence: &Sentence) -> Vec<u8> {
    let characters = sentence.templates[0].iter().map_while(|letter| match letter {
        Letter::Byte(byte) => Some(*byte),
        Letter::Symbol(_) => None,
    });
    characters.collect()
}

/// Whether the text begins with nearly these characters, but not with them.
fn misspelt(keyword: &[u8], text: &[u8]) -> bool {
    let lengths = keyword.len() - 1..=keyword.len() + 1;
    let fronts = lengths.filter_map(|length| text.get(..length));
    !text.starts_with(keyword) && fronts.into_iter().any(|front| distance(front, keyword) == 1)
}

#[cfg(test)]
mod tests {
    use super::reason;
    use refal0_apart::reader::read;

    fn said(text: &[u8]) -> Option<String> {
        let table = b"F { 'STOP ' s1 e2, <IsDigit s1>: 'T', <IsDigit e2>: 'T' = ; 'LOCK ON' = }";
        reason(&read(table).expect("the table is sound").functions[0], text)
    }

    #[test]
    fn what_is_not_seen_is_said() {
        let would = |change: &str, sentence: usize| Some(format!("{change} sentence {sentence} would"));
        assert_eq!(said(b""), Some(String::from("the text is empty")));
        assert_eq!(said("\u{feff}STOP 60".as_bytes()), would("without the byte order mark at its front", 1));
        assert_eq!(said(b"LOCK ON\r"), would("without byte 13 at its end", 2));
        assert_eq!(said(b"LOCK ON\r\n"), would("without the line end at its end", 2));
        assert_eq!(said(b"STOP 60 "), would("without the blanks at its end", 1));
        assert_eq!(said(b" STOP 60"), would("without the blanks at its front", 1));
        assert_eq!(said(b"stop 60"), would("in capital letters", 1));
        assert_eq!(said(b"STOP 6O"), would("with the digit 0 for the letter O", 1));
    }

    #[test]
    fn a_misspelt_keyword_is_said() {
        assert_eq!(said(b"SOTP 60"), Some(String::from("sentence 1 begins with 'STOP '")));
        assert_eq!(said(b"STOP 6x"), None);
        assert_eq!(said(b"SWING 12"), None);
    }
}
