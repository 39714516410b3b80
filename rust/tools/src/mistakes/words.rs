//! Words that can't stand where they do.

use super::Fault;
use super::places::outside_quotes;
use crate::context::Stage;
use crate::tokens::{Shape, Token, declared};
use refal0_apart::angles::Operation;
use refal0_apart::class::{Class, is_emission};

impl Fault<'_> {
    pub(super) fn misplaced_word(&self, token: Token) -> String {
        let shown = token.shown();
        match self.context.stage {
            Stage::Named => return self.no_brace(),
            Stage::Condition(passed @ (0 | 1 | 3..)) => return self.in_condition(token, passed),
            _ => {}
        }
        if self.directly_before("(") {
            return format!("a call is written <{shown} ..>, not {shown}(..)");
        }
        if self.directly_before(".") {
            return format!("variables have no dot: {shown}1, not {shown}.1");
        }
        if let Some(said) = self.nearly_variable(token) {
            return said;
        }
        if let Stage::Condition(passed) = self.context.stage {
            return self.in_condition(token, passed);
        }
        if Class::of_predicate(token.text).is_some() {
            return format!("a condition is written , <{shown} s1>: 'T'");
        }
        let known = is_emission(token.text) || Operation::of_name(token.text).is_some();
        if known || declared(&self.tokens).iter().any(|name| name.text == token.text) {
            return format!("a call is written <{shown} ..>");
        }
        if self.directly_named(token) {
            return format!("the name of an emission is one word: <Emit{shown}");
        }
        if self.on_both_sides(token) {
            return format!("{shown} is no variable: one begins with s or e, like e{shown}");
        }
        outside_quotes(token.text)
    }

    /// Whether the word stands after `<Emit`.
    fn directly_named(&self, token: Token) -> bool {
        let emit = self.context.open.last().is_some_and(|name| name.is("Emit") && self.context.before == Some(*name));
        emit && token.text[0].is_ascii_uppercase()
    }

    /// Whether a word with a small letter stands in a pattern, and right of its `=` too.
    fn on_both_sides(&self, token: Token) -> bool {
        let sentence = self.after.iter().take_while(|after| !after.is_one_of(&[";", "}"]));
        let mut expression = sentence.skip_while(|after| !after.is("="));
        token.text[0].is_ascii_lowercase() && expression.any(|after| after.text == token.text)
    }

    /// What was meant as a variable.
    fn nearly_variable(&self, token: Token) -> Option<String> {
        let shown = token.shown();
        let parts = self.context.pattern.iter().filter(|variable| variable.text.starts_with(b"e")).count();
        match token.text {
            [b'e', _, ..] if parts == 2 && self.context.stage == Stage::Pattern => {
                if !self.equals_follows() {
                    return Some(self.no_equals());
                }
                Some(format!("{shown} is the third e-variable of this pattern, and a pattern has at most two"))
            }
            b"s" | b"e" if self.directly_before("_") || self.directly_before("-") => {
                Some(String::from("a variable has letters and digits alone, no _ and no -"))
            }
            b"s" | b"e" => Some(format!("{shown} alone is no variable: letters or digits have to follow directly")),
            [b'S' | b'E', rest @ ..] if self.meant_as_variable(rest) => {
                let small = format!("{}{}", shown[..1].to_ascii_lowercase(), &shown[1..]);
                Some(format!("variables begin with a small s or e: {small}"))
            }
            [b't', rest @ ..] if !rest.is_empty() && rest.iter().all(u8::is_ascii_digit) => {
                Some(format!("{shown} is no variable: Refal-0 has s-variables and e-variables alone"))
            }
            _ => None,
        }
    }

    /// Whether a word with this after its capital is a variable of the pattern, or a number follows the capital.
    fn meant_as_variable(&self, rest: &[u8]) -> bool {
        let digits = !rest.is_empty() && rest.iter().all(u8::is_ascii_digit);
        let known = self.context.pattern.iter().any(|variable| variable.text[1..] == *rest);
        let mixed = rest.iter().any(u8::is_ascii_lowercase) && rest.first().is_some_and(u8::is_ascii_uppercase);
        let quote = self.after.first().is_some_and(|next| next.shape == Shape::String && next.text.contains(&b'\n'));
        (digits || known || mixed) && !quote
    }
}
