//! What is wrong with a refused table, in one sentence: the number and the place are the proved program's, the cause is
//! found by looking at the whole table.

mod conditions;
mod heads;
mod limits;
mod marks;
mod names;
mod places;
mod strings;
mod variables;
mod words;

use crate::context::{Context, context};
use crate::spot::{marked_line, spot};
use crate::tokens::{Shape, Token, tokens};

/// A refusal, and the table round it.
pub struct Fault<'t> {
    text: &'t [u8],
    tokens: Vec<Token<'t>>,
    /// The token at the place; nothing at the text's end.
    token: Option<Token<'t>>,
    /// The tokens after it, without comments.
    after: Vec<Token<'t>>,
    context: Context<'t>,
}

/// The line and column, the line itself, marks under what is meant, and the sentence.
pub fn said(path: &str, text: &[u8], number: u64, place: usize) -> String {
    match number {
        1 => return format!("{path}: refused with 1: it has {} bytes, and 32768 are allowed", text.len()),
        17 => return format!("{path}: refused with 17: its code takes more than the 16384 words there are"),
        _ => {}
    }
    let fault = Fault::new(text, place);
    let sentence = fault.sentence(number);
    format!(
        "{}\n{sentence}",
        headed(path, text, place, fault.length(), &format!("refused with {number} (byte {place})"))
    )
}

/// What is said of a place: where it is, then the line with marks.
pub fn headed(path: &str, text: &[u8], place: usize, length: usize, what: &str) -> String {
    let at = spot(text, place);
    let line = marked_line(text, place, length);
    format!("{path}, line {}, column {}: {what}{line}", at.line, at.column)
}

impl<'t> Fault<'t> {
    fn new(text: &'t [u8], place: usize) -> Fault<'t> {
        let tokens = tokens(text);
        let index = tokens.iter().position(|token| token.place >= place).unwrap_or(tokens.len());
        let context = context(&tokens[..index]);
        let token = tokens.get(index).copied();
        let rest = tokens.iter().skip(index + 1).filter(|token| token.shape != Shape::Comment);
        let after = rest.copied().collect();
        Fault { text, token, after, context, tokens }
    }

    /// How many bytes are marked.
    fn length(&self) -> usize {
        self.token.map_or(0, |token| token.text.len())
    }

    fn sentence(&self, number: u64) -> String {
        let Some(token) = self.token else { return self.table_ends() };
        match number {
            2 => self.malformed(token),
            3 => self.misplaced(token),
            4 => self.too_much(token),
            5 => self.wrong_name(token),
            6 => self.wrong_pattern_variable(token),
            7 => self.wrong_later_variable(token),
            8 => self.undeclared(token),
            _ => format!("{} is refused with {number}", token.shown()),
        }
    }

    /// 'line 3' for something in another line than the fault, 'column 3' for something in the same.
    fn where_is(&self, other: Token) -> String {
        let (here, there) =
            (spot(self.text, self.token.map_or(self.text.len(), |token| token.place)), self.spot(other));
        if here.line == there.line { format!("column {}", there.column) } else { format!("line {}", there.line) }
    }

    fn spot(&self, token: Token) -> crate::spot::Spot {
        spot(self.text, token.place)
    }

    /// Whether the token after the fault's is this one.
    fn followed_by(&self, text: &str) -> bool {
        self.after.first().is_some_and(|next| next.is(text))
    }

    /// The token before the fault's, if nothing stands between them.
    fn touching_before(&self) -> Option<Token<'t>> {
        self.context.before.filter(|before| self.token.is_some_and(|token| token.place == before.end()))
    }

    /// Whether this stands right before the fault's token.
    fn directly_after(&self, text: &str) -> bool {
        self.touching_before().is_some_and(|before| before.is(text))
    }

    /// Whether this stands right after the fault's token.
    fn directly_before(&self, text: &str) -> bool {
        let touching = |next: &Token| next.is(text) && self.token.is_some_and(|token| token.end() == next.place);
        self.after.first().is_some_and(touching)
    }

    /// Whether a `=` comes after the fault before its sentence ends.
    fn equals_follows(&self) -> bool {
        let end = self.after.iter().find(|after| after.is_one_of(&["=", ";", "{", "}"]));
        end.is_some_and(|end| end.is("="))
    }

    fn function(&self) -> String {
        self.context.function.map_or(String::from("a function"), |name| name.shown())
    }
}
