//! What passes a limit.

use super::Fault;
use super::strings::left_open;
use crate::context::Stage;
use crate::tokens::{Shape, Token};
use refal0_apart::reader::{IDENTIFIER_LIMIT, NAME_LIMIT, NESTING_LIMIT, SENTENCE_LIMIT, SYMBOL_LIMIT};

impl Fault<'_> {
    pub(super) fn too_much(&self, token: Token) -> String {
        if let Some(said) = self.missing_quote() {
            return said;
        }
        if token.shape == Shape::String && left_open(token.text) {
            return String::from("this string has no closing ' in its line");
        }
        let shown = token.shown();
        let called = self.directly_after("<");
        let word = token.shape == Shape::Word;
        if word && (called || self.context.stage == Stage::Outside) && token.text.len() > NAME_LIMIT {
            return format!("{shown} has {} bytes, and a name has at most {NAME_LIMIT}", token.text.len());
        }
        if word && !called && self.context.stage != Stage::Outside && token.text.len() > IDENTIFIER_LIMIT + 1 {
            let length = token.text.len() - 1;
            return format!(
                "after its first letter {shown} has {length} letters and digits, and at most 8 are allowed"
            );
        }
        match self.context.stage {
            Stage::Outside => format!("{shown} is one function too many: a table has at most 64"),
            Stage::Begin if self.sentences() == SENTENCE_LIMIT => {
                String::from("one sentence too many: a table has at most 512")
            }
            Stage::Begin => self.too_much_in_pattern(token),
            Stage::Pattern if token.is(",") => String::from("one condition too many: a sentence has at most 8"),
            Stage::Pattern => self.too_much_in_pattern(token),
            Stage::Condition(_) => String::from("one condition too many: a sentence has at most 8"),
            _ if token.shape == Shape::Open && self.context.open.len() == NESTING_LIMIT => {
                String::from("one call too deep: at most 16 stand one inside another")
            }
            _ => String::from("one item too many: an expression has at most 128 characters, variables and calls"),
        }
    }

    /// How many sentences stand before the fault.
    fn sentences(&self) -> usize {
        let place = self.token.map_or(self.text.len(), |token| token.place);
        self.tokens.iter().filter(|token| token.place < place && token.is("=")).count()
    }

    fn too_much_in_pattern(&self, token: Token) -> String {
        let mut symbols: Vec<&[u8]> = self.context.pattern.iter().map(|variable| variable.text).collect();
        symbols.retain(|name| name.starts_with(b"s"));
        symbols.sort_unstable();
        symbols.dedup();
        if token.shape == Shape::Word && symbols.len() == SYMBOL_LIMIT && !symbols.contains(&token.text) {
            return format!("{} is one s-variable too many: a pattern has at most 16 different ones", token.shown());
        }
        String::from("a pattern has at most 64 characters and s-variables, and these are too many")
    }
}
