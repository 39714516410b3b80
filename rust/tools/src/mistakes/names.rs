//! Names that can't stand where they do, or that aren't declared.

use super::Fault;
use crate::near::nearest;
use crate::tokens::{Token, declared};
use refal0_apart::angles::Operation;
use refal0_apart::class::{Class, is_emission};

/// What an emission's name begins with.
const EMIT: &[u8] = b"Emit";

/// What a condition may ask.
const ASKED: &str = "a condition asks IsDigit, IsUpper, IsLower, IsLetter or IsBlank";

/// Functions that Refal-5 has for everyone, and Refal-0 has not.
const REFAL_5: [&[u8]; 18] = [
    b"Add", b"Sub", b"Mul", b"Div", b"Mod", b"Compare", b"Numb", b"Symb", b"Upper", b"Lower", b"First", b"Last",
    b"Lenw", b"Type", b"Card", b"Put", b"Print", b"Prout",
];

fn predicates() -> impl Iterator<Item = &'static [u8]> {
    Class::ALL.into_iter().map(Class::predicate)
}

impl Fault<'_> {
    pub(super) fn wrong_name(&self, token: Token) -> String {
        if let Some(said) = self.reserved(token) {
            return said;
        }
        let shown = token.shown();
        let declared = declared(&self.tokens);
        if self.directly_after("<") {
            return self.no_predicate(token, &declared);
        }
        let first = declared.iter().find(|other| other.text == token.text && other.place < token.place);
        match first {
            Some(first) => format!("{shown} is declared already, in {}", self.where_is(*first)),
            None => format!("{shown} is declared already"),
        }
    }

    /// A name that the language has for itself, declared or called or asked where it can't be.
    fn reserved(&self, token: Token) -> Option<String> {
        let shown = token.shown();
        let declared = !self.directly_after("<");
        if Class::of_predicate(token.text).is_some() {
            return Some(if declared {
                format!("{shown} is a predicate, and its name can't be declared")
            } else {
                format!("{shown} is a predicate: it is asked before the =, like , <{shown} s1>: 'T'")
            });
        }
        let kind = match Operation::of_name(token.text) {
            Some(_) => "computes angles",
            None if is_emission(token.text) => "is an emission",
            None => return None,
        };
        Some(if declared {
            format!("{shown} {kind}: it is called, and its name can't be declared")
        } else {
            format!("{shown} {kind}, and {ASKED}")
        })
    }

    fn no_predicate(&self, token: Token, declared: &[Token]) -> String {
        let shown = token.shown();
        if let Some(near) = nearest(token.text, predicates()) {
            return format!("{shown} is no predicate: did you mean {}?", String::from_utf8_lossy(near));
        }
        if declared.iter().any(|function| function.text == token.text) {
            return format!("{shown} is a function, and {ASKED}");
        }
        format!("{shown} is no predicate: {ASKED}")
    }

    pub(super) fn undeclared(&self, token: Token) -> String {
        let said = format!("{} is called, but not declared", token.shown());
        let meant = |near: &[u8]| format!("{said}: did you mean {}?", String::from_utf8_lossy(near));
        let declared = declared(&self.tokens);
        if let Some(near) = nearest(token.text, declared.iter().map(|name| name.text)) {
            return meant(near);
        }
        let emission = [EMIT, token.text].concat();
        if self.tokens.iter().any(|other| other.text == emission) {
            return meant(&emission);
        }
        let front = &token.text[..token.text.len().min(EMIT.len())];
        if nearest(front, [EMIT]).is_some() {
            return format!("{said}: the name of an emission begins with Emit");
        }
        if let Some(near) = nearest(token.text, predicates().chain(Operation::ALL.map(Operation::name))) {
            return meant(near);
        }
        if REFAL_5.contains(&token.text) {
            return format!("{said}: it is a function of Refal-5, and Refal-0 has only DmAdd, DmSub and emissions");
        }
        said
    }
}
