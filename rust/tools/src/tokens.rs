//! The tokens of any text, wrong ones too: what a person who wrote a table meant as one.

use refal0_apart::lexer::{in_name, in_word};

#[derive(Clone, Copy, PartialEq, Eq, Debug)]
pub enum Shape {
    /// A name or a variable, or what was meant as one.
    Word,
    /// Digits outside strings.
    Number,
    /// `<` alone; the name right after it is a token of its own.
    Open,
    /// From quote to quote, or to the text's end.
    String,
    /// From `/*` to `*/`, or to the text's end.
    Comment,
    /// Any other character.
    Mark,
}

#[derive(Clone, Copy, PartialEq, Eq, Debug)]
pub struct Token<'t> {
    pub place: usize,
    pub text: &'t [u8],
    pub shape: Shape,
}

impl Token<'_> {
    pub fn end(&self) -> usize {
        self.place + self.text.len()
    }

    pub fn is(&self, text: &str) -> bool {
        self.shape != Shape::String && self.text == text.as_bytes()
    }

    pub fn is_one_of(&self, texts: &[&str]) -> bool {
        texts.iter().any(|text| self.is(text))
    }

    /// Whether it looks like a variable and like no word: `s` or `e`, and a digit or a capital.
    pub fn looks_variable(&self) -> bool {
        matches!(self.text, [b's' | b'e', b'0'..=b'9' | b'A'..=b'Z', ..])
    }

    pub fn shown(&self) -> String {
        String::from_utf8_lossy(self.text).into_owned()
    }
}

/// All tokens, comments among them.
pub fn tokens(text: &[u8]) -> Vec<Token<'_>> {
    let mut found: Vec<Token> = Vec::new();
    let mut inside = 0usize;
    let mut at = 0;
    while at < text.len() {
        if matches!(text[at], 32 | 9 | 10 | 13) {
            at += 1;
            continue;
        }
        let called = found.last().is_some_and(|last| last.shape == Shape::Open && last.end() == at);
        let (shape, length) = token(&text[at..], called || inside == 0);
        found.push(Token { place: at, text: &text[at..at + length], shape });
        match text[at] {
            b'{' => inside += 1,
            b'}' => inside = inside.saturating_sub(1),
            _ => {}
        }
        at += length;
    }
    found
}

/// The first token of a text that begins with one; a name may have `_` and `-` in it.
fn token(text: &[u8], named: bool) -> (Shape, usize) {
    let run = |belongs: fn(u8) -> bool| text.iter().take_while(|&&byte| belongs(byte)).count();
    match text[0] {
        b'\'' => (Shape::String, string_length(text)),
        b'/' if text.get(1) == Some(&b'*') => (Shape::Comment, comment_length(text)),
        b'<' => (Shape::Open, 1),
        byte if byte.is_ascii_alphabetic() => (Shape::Word, run(if named { in_name } else { in_word })),
        byte if byte.is_ascii_digit() => (Shape::Number, run(in_word)),
        byte if byte < 0x80 => (Shape::Mark, 1),
        // a character of several bytes
        _ => (Shape::Mark, 1 + text[1..].iter().take_while(|&&byte| (0x80..0xc0).contains(&byte)).count()),
    }
}

fn string_length(text: &[u8]) -> usize {
    let mut at = 1;
    while at < text.len() {
        match text[at] {
            b'\'' => return at + 1,
            b'\\' => at += 2,
            _ => at += 1,
        }
    }
    text.len()
}

fn comment_length(text: &[u8]) -> usize {
    text[2..].windows(2).position(|pair| pair == b"*/").map_or(text.len(), |length| length + 4)
}

/// Where a string goes on over a line's end, if it does so without a `\` there.
pub fn line_end_inside(string: &[u8]) -> Option<usize> {
    (1..string.len()).find(|&at| string[at] == 10 && string[at - 1] != b'\\')
}

/// The names that are declared: words outside functions before a `{`.
pub fn declared<'t>(tokens: &[Token<'t>]) -> Vec<Token<'t>> {
    let spoken: Vec<&Token> = tokens.iter().filter(|token| token.shape != Shape::Comment).collect();
    let pairs = spoken.windows(2).filter(|pair| pair[0].shape == Shape::Word && pair[1].is("{"));
    pairs.map(|pair| *pair[0]).collect()
}

#[cfg(test)]
mod tests {
    use super::{Shape, declared, line_end_inside, tokens};

    #[test]
    fn any_text_has_tokens() {
        let text = "My-F { s1_ 'a\\'b' = <G-1 e2> 060 /* x */ ä }";
        let found = tokens(text.as_bytes());
        let shown: Vec<String> = found.iter().map(|token| token.shown()).collect();
        let expected = ["My-F", "{", "s1", "_", "'a\\'b'", "=", "<", "G-1", "e2", ">", "060", "/* x */", "ä", "}"];
        assert_eq!(shown, expected);
        assert_eq!(found[10].shape, Shape::Number);
        assert_eq!(declared(&found).len(), 1);
    }

    #[test]
    fn tokens_without_an_end_go_to_the_texts_end() {
        assert_eq!(tokens(b"'a\\").len(), 1);
        assert_eq!(tokens(b"/*/").len(), 1);
        assert_eq!(line_end_inside(b"'a\\\nb\n'"), Some(5));
    }
}
