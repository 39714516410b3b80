//! Tokens without their end or form: strings, comments, and `<` without a name.

use super::Fault;
use crate::context::Stage;
use crate::tokens::{Shape, Token, line_end_inside};

/// What is wrong inside a string, at the first place where something is.
enum Wrong {
    NoEnd,
    DoubleQuote,
    Escape(usize),
}

/// The first fault of a string, and where it stands.
fn first_wrong(string: &[u8]) -> (usize, Wrong) {
    let mut at = 1;
    loop {
        match string.get(at) {
            None | Some(b'\'') => return (at, Wrong::NoEnd),
            Some(b'"') => return (at, Wrong::DoubleQuote),
            Some(b'\\') => match escape_length(&string[at..]) {
                Some(length) => at += length,
                None => return (at, Wrong::Escape(at)),
            },
            Some(_) => at += 1,
        }
    }
}

fn code_digits(escape: &[u8]) -> &[u8] {
    let digits = escape[1..].iter().take_while(|byte| byte.is_ascii_digit()).count();
    &escape[1..1 + digits]
}

/// How long a sound escape is.
fn escape_length(escape: &[u8]) -> Option<usize> {
    let digits = code_digits(escape);
    if !digits.is_empty() {
        let value = std::str::from_utf8(digits).ok()?.parse::<u32>().unwrap_or(u32::MAX);
        return (value <= 255).then_some(1 + digits.len());
    }
    // a `\` as the text's last byte is no wrong escape, but the string has no end
    matches!(escape.get(1), None | Some(10 | b'n' | b't' | b'\'' | b'"' | b'\\')).then_some(2)
}

fn wrong_escape(escape: &[u8]) -> String {
    let digits = String::from_utf8_lossy(code_digits(escape)).into_owned();
    if !digits.is_empty() {
        let (code, rest) = digits.split_at(2);
        return format!(
            "\\{digits} is over 255: a code takes all digits that follow, so that one after it stands in a string of \
             its own, '\\{code}' '{rest}'"
        );
    }
    match escape[1] {
        b'r' => String::from("\\r is no escape: byte 13 is written \\13"),
        b'x' => String::from("\\x is no escape: codes are decimal, so that \\x41 is written \\65"),
        13 => String::from(
            "\\ joins two lines only right before byte 10, and this table's line ends have two bytes, 13 and 10",
        ),
        byte => {
            let letter = if byte.is_ascii_graphic() { char::from(byte).to_string() } else { format!("(byte {byte})") };
            format!("\\{letter} is no escape: there are \\' \\\" \\\\ \\n \\t, \\0 to \\255, and \\ at a line's end")
        }
    }
}

impl Fault<'_> {
    pub(super) fn malformed(&self, token: Token) -> String {
        if let Some(said) = self.missing_quote() {
            return said;
        }
        match token.shape {
            Shape::String if self.context.stage == Stage::Named => {
                self.sheet().unwrap_or_else(|| malformed_string(token.text))
            }
            Shape::String => malformed_string(token.text),
            Shape::Open => self.no_name(),
            _ => String::from("this comment has no */"),
        }
    }

    /// A quote too few in the line: one of its strings is left open after the token. The string that ends right before
    /// the token was closed by a quote that was meant to open another one, or to stand inside it; with no string there,
    /// the token is the first of one that wasn't opened.
    pub(super) fn quote_before(&self, token: Token) -> Option<String> {
        let quote = self.after.iter().find(|after| after.shape == Shape::String && left_open(after.text))?;
        if self.spot(*quote).line != self.spot(token).line || !self.inside_function() {
            return None;
        }
        match self.touching_before().filter(|before| before.shape == Shape::String) {
            Some(string) => Some(self.closed_late(string, token)),
            None if matches!(token.shape, Shape::Open | Shape::String) || self.begins_comment(token) => None,
            None => {
                let (shown, column) = (String::from_utf8_lossy(self.whole(token)), self.spot(*quote).column);
                Some(format!("a ' is missing before {shown}: the one in column {column} closes nothing"))
            }
        }
    }

    /// A string that ends right before the token, at a quote that wasn't meant to close it.
    fn closed_late(&self, string: Token, token: Token) -> String {
        let begun = self.where_is(string);
        if closing_escaped(string.text) {
            return format!("\\' doesn't close the string that began in {begun}: a backslash in it is written \\\\");
        }
        let last = string.text[string.text.len().saturating_sub(2)];
        if last.is_ascii_alphabetic() && token.shape == Shape::Word {
            return String::from("a ' inside a string is written \\'");
        }
        format!("the string that began in {begun} has no closing ': it goes on up to the next one")
    }

    /// A string of this sentence that goes on over a line's end: its closing quote was forgotten.
    pub(super) fn missing_quote(&self) -> Option<String> {
        self.context.swallowing.map(|string| self.swallowed(string))
    }

    /// A string that goes on over a line's end.
    pub(super) fn swallowed(&self, string: Token) -> String {
        let at = self.spot(string);
        format!("the string that began in line {}, column {} has no closing ' in its line", at.line, at.column)
    }

    fn no_name(&self) -> String {
        match self.after.first() {
            Some(next) if next.shape == Shape::Word => {
                format!("the name has to follow < directly: <{}", next.shown())
            }
            Some(next) if next.is("!") => String::from("a comment stands between /* and */, not after <!--"),
            _ => String::from("a call has a name right after its <"),
        }
    }
}

/// Whether a string goes on over its line's end, or to the text's end.
pub(super) fn left_open(string: &[u8]) -> bool {
    line_end_inside(string).is_some() || string.len() == 1 || string.last() != Some(&b'\'')
}

/// Whether a string has a `\'` that was rather to close it: a blank or a mark of Refal-0 follows.
fn closing_escaped(string: &[u8]) -> bool {
    string.windows(3).any(|bytes| bytes.starts_with(b"\\'") && b" ;,>}\r\n".contains(&bytes[2]))
}

fn malformed_string(string: &[u8]) -> String {
    let (place, wrong) = first_wrong(string);
    if closing_escaped(string) && matches!(wrong, Wrong::NoEnd) {
        return String::from("\\' doesn't close this string: a backslash in it is written \\\\");
    }
    if line_end_inside(string).is_some_and(|end| end < place) {
        return String::from("this string has no closing ' in its line");
    }
    match wrong {
        Wrong::NoEnd => String::from("this string has no closing '"),
        Wrong::DoubleQuote => String::from("a double quote in a string is written \\\""),
        Wrong::Escape(at) => wrong_escape(&string[at..]),
    }
}
