//! Variables that can't stand in a pattern, or after it.

use super::Fault;
use crate::context::Stage;
use crate::near::nearest;
use crate::tokens::{Shape, Token};

/// Whether a name is that of a variable and of another one right beside it, as in `e1e2`.
fn joins(name: &[u8], part: &[u8]) -> bool {
    let variable = |rest: &[u8]| matches!(rest, [b's' | b'e', _, ..]);
    name.strip_prefix(part).is_some_and(variable) || name.strip_suffix(part).is_some_and(variable)
}

impl Fault<'_> {
    pub(super) fn wrong_pattern_variable(&self, token: Token) -> String {
        if !self.equals_follows() {
            return self.no_equals();
        }
        let shown = token.shown();
        let pattern = &self.context.pattern;
        if pattern.iter().any(|known| known.text == token.text) {
            return format!("{shown} stands in this pattern already, and an e-variable stands there once");
        }
        if let Some(other) = pattern.iter().find(|known| known.text[1..] == token.text[1..]) {
            let other = other.shown();
            return format!(
                "{shown} and {other} can't stand in one pattern: an identifier is an s-variable's or an e-variable's"
            );
        }
        let before = pattern.last().map_or(String::new(), |other| other.shown());
        match self.context.before {
            Some(string) if string.shape == Shape::String => {
                format!("'' is no character, so nothing says where {before} ends and {shown} begins")
            }
            _ => format!("nothing stands between {before} and {shown}, so nothing says where {before} ends"),
        }
    }

    pub(super) fn wrong_later_variable(&self, token: Token) -> String {
        if let Some(said) = self.missing_quote().or_else(|| self.missing_semicolon(token)) {
            return said;
        }
        let shown = token.shown();
        let known = |variable: &&Token| variable.text == token.text;
        if self.context.pattern.iter().any(|variable| known(&variable)) {
            return match self.context.used.iter().find(known) {
                Some(_) => format!("{shown} stands in this expression already, and an e-variable stands there once"),
                None => {
                    let last = self.context.used.iter().rfind(|used| used.text.starts_with(b"e"));
                    let last = last.map_or(String::from("the other"), |used| used.shown());
                    format!("e-variables stand in the pattern's order, and there {shown} comes before {last}")
                }
            };
        }
        self.unknown_variable(token)
    }

    /// A variable that is not in the pattern, and what may be meant.
    fn unknown_variable(&self, token: Token) -> String {
        let shown = token.shown();
        let asked = matches!(self.context.stage, Stage::Condition(_));
        let said = if asked {
            format!("the condition asks {shown}, which is not in the pattern")
        } else {
            format!("{shown} is not in the pattern")
        };
        let mut names: Vec<&[u8]> = Vec::new();
        for variable in &self.context.pattern {
            names.retain(|name| *name != variable.text);
            names.push(variable.text);
        }
        let other_kind = names.iter().find(|name| name[1..] == token.text[1..]).copied();
        if let Some(near) = nearest(token.text, names.iter().copied()).or(other_kind) {
            return format!("{said}: did you mean {}?", String::from_utf8_lossy(near));
        }
        if let Some(joined) = names.iter().find(|name| joins(name, token.text)) {
            return format!("{said}: {} is one variable, and a blank parts two", String::from_utf8_lossy(joined));
        }
        let has = if names.is_empty() {
            String::from("no variables")
        } else {
            String::from_utf8_lossy(&names.join(&b" and "[..])).into_owned()
        };
        if asked {
            format!("the condition asks {shown}, and the pattern has {has}")
        } else {
            format!("{said}, which has {has}")
        }
    }

    /// Whether a token of the expression rather begins, or stands in, the next sentence: a `;` was forgotten before it.
    pub(super) fn missing_semicolon(&self, token: Token) -> Option<String> {
        let equals = self.context.equals.filter(|_| self.context.stage == Stage::Expression)?;
        let line = self.spot(token).line;
        let next = self.after.iter().find(|after| after.is(";") || after.is("}") || after.is("="));
        if !token.is("=") && !next.is_some_and(|after| after.is("=")) {
            return None;
        }
        if !self.context.open.is_empty() {
            return self.unclosed_call();
        }
        // what stands before the token's line is the end of the sentence
        let ended =
            self.tokens.iter().rfind(|before| before.shape != Shape::Comment && self.spot(**before).line < line);
        match ended.filter(|ended| ended.place > equals.place) {
            Some(ended) => {
                Some(format!("a ; is missing at the end of line {}, before this sentence", self.spot(*ended).line))
            }
            None => self.second_equals(token),
        }
    }

    /// A sentence with two `=` in one line: a `;` was forgotten, or a `,` stands for it.
    fn second_equals(&self, token: Token) -> Option<String> {
        if token.is("=") {
            return Some(String::from("a second = in one sentence: a ; has to part it from the next sentence"));
        }
        if token.is(",") {
            return Some(String::from("sentences are separated by a ;, not by a ,"));
        }
        let second = self.after.iter().find(|after| after.is("="))?;
        let place = self.where_is(*second);
        Some(format!("a ; is missing between two sentences: the = in {place} is that of the next one"))
    }
}
