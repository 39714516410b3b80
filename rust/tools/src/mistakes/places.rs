//! What isn't allowed where it stands: which cause it has.

use super::Fault;
use crate::context::Stage;
use crate::tokens::{Shape, Token};
use refal0_apart::class::Class;

impl Fault<'_> {
    pub(super) fn misplaced(&self, token: Token) -> String {
        let hidden = self.missing_quote().or_else(|| self.quote_before(token)).or_else(|| self.inner_comment(token));
        if let Some(said) = hidden.or_else(|| self.sheet()).or_else(|| self.foreign(token)) {
            return said;
        }
        match token.shape {
            Shape::Word => self.misplaced_word(token),
            Shape::Number => self.misplaced_number(token),
            Shape::String => self.misplaced_string(token),
            Shape::Open => self.misplaced_call(token),
            Shape::Mark => self.misplaced_mark(token),
            Shape::Comment => String::from("this comment can't stand here"),
        }
    }

    /// The table ends in the middle of a function.
    pub(super) fn table_ends(&self) -> String {
        if let Some(said) = self.missing_quote().or_else(|| self.unclosed_call()) {
            return said;
        }
        let begun = self.context.function.map_or(String::new(), |name| self.where_is(name));
        match self.context.stage {
            Stage::Named => self.sheet().unwrap_or_else(|| self.no_brace()),
            Stage::Pattern | Stage::Condition(_) => self.no_equals(),
            _ => format!("the table ends here, and {}, which began in {begun}, has no }}", self.function()),
        }
    }

    pub(super) fn no_equals(&self) -> String {
        let begun = self.context.first.map_or(String::new(), |first| self.where_is(first));
        format!("the sentence that began in {begun} has no =")
    }

    /// A call that was opened and is not closed where the sentence ends.
    pub(super) fn unclosed_call(&self) -> Option<String> {
        let call = self.context.open.last()?;
        Some(format!("the call <{} that began in {} has no >", call.shown(), self.where_is(*call)))
    }

    fn misplaced_number(&self, token: Token) -> String {
        match self.context.stage {
            Stage::Outside => format!("{} is no function's name: a name begins with a letter", token.shown()),
            Stage::Named => self.no_brace(),
            Stage::Condition(passed) => self.in_condition(token, passed),
            _ => outside_quotes(self.whole(token)),
        }
    }

    /// A token with all that stands right after it, up to a blank or a mark of Refal-0.
    pub(super) fn whole(&self, token: Token) -> &[u8] {
        let rest = &self.text[token.place..];
        let end = rest.iter().position(|byte| b" \t\n\r;,={}<>'\"".contains(byte)).unwrap_or(rest.len());
        &rest[..end.max(token.text.len())]
    }

    fn misplaced_string(&self, token: Token) -> String {
        match self.context.stage {
            Stage::Outside => self.outside(token),
            Stage::Named => self.no_brace(),
            Stage::Condition(passed) => self.in_condition(token, passed),
            _ => format!("{} can't stand here", token.shown()),
        }
    }

    /// `<` and a name where no call may stand.
    fn misplaced_call(&self, token: Token) -> String {
        match self.context.stage {
            Stage::Outside => self.outside(token),
            Stage::Named => self.no_brace(),
            Stage::Condition(passed) => self.in_condition(token, passed),
            _ => self.call_before_equals(),
        }
    }

    /// A call in a pattern, or after its conditions.
    pub(super) fn call_before_equals(&self) -> String {
        let name = self.after.first().map_or(&b""[..], |name| name.text);
        if Class::of_predicate(name).is_some() {
            return format!("a , has to stand before a condition: , <{} ..>", String::from_utf8_lossy(name));
        }
        if self.equals_follows() {
            String::from("a pattern has no calls: they stand right of the =")
        } else {
            format!("{} before this call", self.no_equals())
        }
    }
}

/// What is said of a text without quotes.
pub(super) fn outside_quotes(text: &[u8]) -> String {
    format!("{0} stands outside quotes: as a text it is written '{0}'", String::from_utf8_lossy(text))
}
