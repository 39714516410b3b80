//! What is wrong in a condition like `, <IsDigit s1>: 'T'`, by how many of its tokens were right.

use super::Fault;
use crate::tokens::{Shape, Token};
use refal0_apart::class::Class;

/// Whether a string begins with `'T` or `'F`, and goes on with something else than letters, digits or a quote.
fn unclosed_truth(string: &[u8]) -> bool {
    match string {
        [b'\'', b'T' | b'F', after, ..] => !after.is_ascii_alphanumeric() && *after != b'\'',
        _ => false,
    }
}

impl Fault<'_> {
    /// A token that can't stand in a condition, so many tokens after its `,`.
    pub(super) fn in_condition(&self, token: Token, passed: usize) -> String {
        match passed {
            0 | 1 => self.no_condition(token),
            2 => String::from("a condition asks a variable of the pattern, like <IsDigit s1>"),
            3 => self.no_end_of_question(token),
            4 => self.no_colon(token),
            5 if matches!(token.text, b"T" | b"F") => format!("{0} stands in quotes: '{0}'", token.shown()),
            5 if unclosed_truth(token.text) => {
                format!("{} has no closing '", String::from_utf8_lossy(&token.text[..2]))
            }
            5 => String::from("a condition is closed by 'T' or 'F' and nothing else"),
            _ => self.after_condition(token),
        }
    }

    /// What stands after a `,` in place of `<`.
    fn no_condition(&self, token: Token) -> String {
        let shown = token.shown();
        let compared = self.after.first().is_some_and(|next| next.is_one_of(&[":", "<", ">"]));
        match token.shape {
            Shape::Word if Class::of_predicate(token.text).is_some() => {
                format!("a predicate stands between < and >: , <{shown} s1>: 'T'")
            }
            _ if token.is_one_of(&["not", "!"]) => String::from("a condition is denied by its 'F': <IsDigit s1>: 'F'"),
            Shape::Word if compared => format!("a condition asks a predicate of {shown}, like <IsDigit {shown}>: 'T'"),
            Shape::Word | Shape::String | Shape::Number => {
                String::from("a , begins a condition: the items of a pattern are separated by blanks")
            }
            _ if token.is_one_of(&["=", ";", "}"]) => String::from("a , begins a condition, and none follows it"),
            _ => String::from("a condition is like , <IsDigit s1>: 'T'"),
        }
    }

    /// What stands after a condition's variable in place of `>`.
    fn no_end_of_question(&self, token: Token) -> String {
        let variable = self.context.before.map_or(String::new(), |before| before.shown());
        match token.shape {
            Shape::Word => {
                format!("a condition asks one variable, here {variable}: write another one for {}", token.shown())
            }
            Shape::String | Shape::Number => format!("a condition asks one variable and nothing else, here {variable}"),
            _ => format!("a > is missing after {variable}, which the condition asks"),
        }
    }

    /// What stands after a condition's `>` in place of `:`.
    fn no_colon(&self, token: Token) -> String {
        let truth = |token: &Token| matches!(token.text, b"'T'" | b"'F'");
        if truth(&token) {
            return format!("a : is missing before {}", token.shown());
        }
        match self.after.first() {
            Some(next) if token.is("=") && truth(next) => {
                format!("{} stands after a :, not after a =", next.shown())
            }
            _ => String::from("after a condition's > comes : 'T' or : 'F'"),
        }
    }

    /// What stands after a whole condition in place of `,` or `=`.
    fn after_condition(&self, token: Token) -> String {
        match token.shape {
            Shape::Open => self.call_before_equals(),
            _ if token.is_one_of(&["and", "&"]) => {
                format!("conditions are separated by a , and not by {}", token.shown())
            }
            _ if token.is("or") => String::from("Refal-0 has no or: write a sentence for each"),
            Shape::Mark if !token.is_one_of(&[";", "}"]) => {
                String::from("after a condition comes a , and another one, or =")
            }
            _ => self.no_equals(),
        }
    }
}
