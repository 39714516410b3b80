//! What is wrong where a function should begin: with its name and `{`.

use super::Fault;
use crate::tokens::{Shape, Token};

/// What other languages begin a function with.
const KEYWORDS: [&str; 8] = ["def", "fn", "fun", "func", "function", "proc", "procedure", "sub"];

impl Fault<'_> {
    /// A file without functions and sentences is rather a sheet.
    pub(super) fn sheet(&self) -> Option<String> {
        let table = self.text.iter().any(|byte| b"{}=".contains(byte));
        let said = "this file has no { and no =, so it is hardly a table: the table is named first, then the sheet";
        (!table).then(|| String::from(said))
    }

    /// Something else than `{` after a function's name.
    pub(super) fn no_brace(&self) -> String {
        let name = self.function();
        match self.token {
            Some(token) if self.context.function.is_some_and(|name| name.looks_variable()) => self.outside(token),
            Some(token) => self.instead_of_brace(token, &name),
            None => format!("{{ has to follow the function's name {name}"),
        }
    }

    fn instead_of_brace(&self, token: Token, name: &str) -> String {
        let shown = token.shown();
        match token.shape {
            Shape::Word if KEYWORDS.contains(&name) => format!("a function begins with its name alone: {shown} {{"),
            Shape::Word if self.followed_by("{") => {
                format!("a function's name is one word, like {name}-{shown}, not two")
            }
            Shape::Mark if shown == "(" => {
                format!("a function is declared without brackets, {name} {{: what it is given stands in its patterns")
            }
            Shape::Mark if self.followed_by("{") => {
                format!("{{ follows the function's name {name} directly, without {shown}")
            }
            Shape::Mark if self.directly_after(name) && !matches!(token.text, b"=" | b";" | b"}") => {
                format!("a function's name has letters, digits, _ and - alone, no {shown}")
            }
            _ => format!("{{ has to follow the function's name {name}"),
        }
    }

    /// A sentence outside functions.
    pub(super) fn outside(&self, token: Token) -> String {
        let closed = self.tokens.iter().rfind(|before| before.place < token.place && before.is("}"));
        match closed {
            Some(closed) => {
                let place = self.where_is(*closed);
                format!("a sentence stands in a function, and the last one was closed by the }} in {place}")
            }
            None => String::from("a sentence stands in a function: name { sentences }"),
        }
    }
}
