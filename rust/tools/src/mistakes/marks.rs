//! Marks that can't stand where they do: those of other languages, and those of Refal-0 in a wrong place.

use super::Fault;
use super::places::outside_quotes;
use crate::context::Stage;
use crate::tokens::{Shape, Token};
use refal0_apart::class::Class;

/// Why a character can't stand anywhere but in strings and comments.
const PLAIN: &str = "outside strings and comments a table is plain ASCII";

/// What is meant by a mark that stands for any text, or any byte, elsewhere.
fn wildcard(shown: &str) -> Option<String> {
    let said = match shown {
        "*" => "there is no * for any text: an e-variable like e1 takes it",
        "?" => "there is no ? for any byte: an s-variable like s1 takes it",
        _ => return None,
    };
    Some(String::from(said))
}

impl Fault<'_> {
    /// What other languages have and Refal-0 has not, wherever it stands.
    pub(super) fn foreign(&self, token: Token) -> Option<String> {
        if token.shape == Shape::Word {
            return self.next_function(token);
        }
        let shown = token.shown();
        if let Some(mark) = self.comment_mark(token) {
            return Some(format!("a comment stands between /* and */, not after {mark}"));
        }
        self.foreign_equals(&shown)
            .or_else(|| self.foreign_mark(&shown))
            .or_else(|| self.bracket(&shown))
            .or_else(|| self.foreign_character(token))
    }

    /// What a comment begins with in other languages.
    fn comment_mark(&self, token: Token) -> Option<&'static str> {
        match token.text {
            b"/" if self.directly_before("/") => Some("//"),
            b"-" if self.directly_before("-") => Some("--"),
            b"#" => Some("#"),
            b"%" => Some("%"),
            b"*" if self.begins_line(token) => Some("*"),
            _ => None,
        }
    }

    pub(super) fn begins_comment(&self, token: Token) -> bool {
        self.comment_mark(token).is_some()
    }

    /// A character that isn't plain ASCII.
    fn foreign_character(&self, token: Token) -> Option<String> {
        let shown = token.shown();
        let said = match shown.as_str() {
            _ if self.text.starts_with(&[0xff, 0xfe]) || self.text.starts_with(&[0xfe, 0xff]) => {
                String::from("the table is saved as UTF-16: save it as plain text")
            }
            "\u{feff}" if token.place == 0 => {
                String::from("the table begins with a byte order mark: save it as plain text without one")
            }
            "\u{feff}" => String::from("a byte order mark stands here, as where files were joined: take it out"),
            "‘" | "’" | "“" | "”" | "„" | "`" | "´" => {
                format!("{shown} is no quote here: strings stand in plain single quotes, '")
            }
            "\u{a0}" => String::from("this looks like a blank, but is bytes 194 and 160: write a plain one"),
            _ if token.text[0].is_ascii_control() => format!("byte {} can't stand here: {PLAIN}", token.text[0]),
            _ if shown.is_ascii() => return None,
            _ if std::str::from_utf8(token.text).is_err() => {
                format!("byte {} can't stand here: {PLAIN}", token.text[0])
            }
            _ => format!("{shown} can't stand here: {PLAIN}"),
        };
        Some(said)
    }

    /// A function begins inside another one.
    fn next_function(&self, token: Token) -> Option<String> {
        let begins = self.followed_by("{") && self.inside_function();
        let outer = self.context.function.filter(|_| begins)?;
        let (name, begun) = (token.shown(), self.where_is(outer));
        Some(format!("{name} {{ begins a function, and {}, which began in {begun}, has no }}", outer.shown()))
    }

    /// What is written for `=` elsewhere.
    fn foreign_equals(&self, shown: &str) -> Option<String> {
        let written = match shown {
            "-" if self.directly_before(">") => "->",
            ">" if self.directly_after("=") => "=>",
            "=" if self.directly_after("=") => "==",
            ":" if self.directly_before("=") => ":=",
            ":" if self.in_pattern() && !self.equals_follows() => ":",
            "→" | "⇒" => shown,
            _ => return None,
        };
        Some(format!("{written} is written = in Refal-0"))
    }

    fn foreign_mark(&self, shown: &str) -> Option<String> {
        let said = match shown {
            "$" => return Some(self.dollar()),
            "\"" => "strings stand in single quotes, '",
            "\\" => "an escape stands in a string, like '\\n'",
            "|" => "Refal-0 has no |: write a sentence for each",
            "*" | "?" if self.in_pattern() => return wildcard(shown),
            "_" | "-" if self.touches_word() => {
                return Some(format!("a variable has letters and digits alone, no {shown}"));
            }
            "+" => "Refal-0 has no +: texts are joined by standing side by side, angles are added by <DmAdd ..>",
            "*" | "-" | "/" => "Refal-0 has no arithmetic but that of <DmAdd ..> and <DmSub ..> on angles",
            _ => return None,
        };
        Some(String::from(said))
    }

    /// A bracket that isn't one of a call.
    fn bracket(&self, shown: &str) -> Option<String> {
        let called = self.context.open.last().filter(|name| self.touching_before() == Some(**name));
        match (shown, called) {
            ("(" | ")" | "[" | "]", _) if self.context.stage == Stage::Named => None,
            ("(", Some(name)) => Some(format!("a call has no brackets: <{} ..>", name.shown())),
            ("[", _) if self.in_pattern() => Some(String::from(
                "Refal-0 has no [..]: a class of bytes is asked in a condition, like <IsDigit s1>: 'T'",
            )),
            ("(" | ")" | "[" | "]", _) => {
                Some(String::from("Refal-0 has no brackets but < and > of calls: a text is one row of bytes"))
            }
            _ => None,
        }
    }

    /// A comment in which another one stands: it ended with that one, and a `*/` is left.
    pub(super) fn inner_comment(&self, token: Token) -> Option<String> {
        let line: Vec<Token> = std::iter::once(token).chain(self.after.iter().copied()).collect();
        let mut pairs = line.windows(2).take_while(|pair| !pair[0].is_one_of(&["{", "}", ";", "="]));
        pairs.find(|pair| pair[0].is("*") && pair[1].is("/") && pair[0].end() == pair[1].place)?;
        let before = self.tokens.iter().filter(|before| before.place < token.place);
        let begins = |text: &[u8]| text.windows(2).any(|pair| pair == b"/*");
        let mut opened = before.filter(|before| before.text.len() > 2 && begins(&before.text[1..]));
        Some(match opened.next_back() {
            Some(string) if string.shape == Shape::String => self.swallowed(*string),
            Some(comment) => {
                let begun = self.where_is(*comment);
                format!("comments don't stand inside one another: the one that began in {begun} ended at its first */")
            }
            None => String::from("this */ ends no comment"),
        })
    }

    /// Whether the fault stands in a pattern, or where one may begin.
    fn in_pattern(&self) -> bool {
        matches!(self.context.stage, Stage::Begin | Stage::Pattern)
    }

    pub(super) fn inside_function(&self) -> bool {
        !matches!(self.context.stage, Stage::Outside | Stage::Named)
    }

    fn begins_line(&self, token: Token) -> bool {
        let line = self.text[..token.place].rsplit(|&byte| byte == 10).next().unwrap_or_default();
        line.trim_ascii().is_empty()
    }

    /// Whether the mark stands right after a word.
    fn touches_word(&self) -> bool {
        let touching =
            |before: Token| before.shape == Shape::Word && self.token.is_some_and(|token| token.place == before.end());
        self.inside_function() && self.context.before.is_some_and(touching)
    }

    fn dollar(&self) -> String {
        match self.after.first() {
            Some(word) if word.is("ENTRY") => {
                String::from("there is no $ENTRY: the table's first function is where a run starts")
            }
            Some(word) if word.shape == Shape::Word => format!("Refal-0 has no ${}", word.shown()),
            _ => String::from("$ can't stand here"),
        }
    }

    /// A mark of Refal-0 in a wrong place.
    pub(super) fn misplaced_mark(&self, token: Token) -> String {
        match (token.text, self.context.stage) {
            (b"{", Stage::Outside) => String::from("a function's name has to stand before {"),
            (b"{", _) => String::from("{ stands after a function's name alone"),
            (b"}" | b";", Stage::Pattern) => self.no_equals(),
            (b"=", Stage::Outside) => self.outside(token),
            (_, Stage::Named) => self.no_brace(),
            (_, Stage::Condition(passed)) => self.in_condition(token, passed),
            (b"}", Stage::Outside) => String::from("this } closes nothing"),
            (b"}", Stage::Begin) => {
                format!("{} has no sentence: = alone is one, from nothing to nothing", self.function())
            }
            (b";", Stage::Begin | Stage::Outside) => {
                String::from("one ; too many: one parts two sentences, and one may end a function")
            }
            (b">", Stage::Begin | Stage::Pattern) => String::from("a pattern has no calls: they stand right of the ="),
            (_, Stage::Expression) => self.misplaced_in_expression(token),
            (_, Stage::Begin | Stage::Pattern) => outside_quotes(token.text),
            _ => format!("{} can't stand here", token.shown()),
        }
    }

    fn misplaced_in_expression(&self, token: Token) -> String {
        if let Some(said) = self.missing_semicolon(token) {
            return said;
        }
        match token.text {
            b">" => String::from("this > closes no call"),
            b"," => self.comma(),
            b";" | b"}" | b"=" if !self.context.open.is_empty() => self.unclosed_call().unwrap_or_default(),
            b"=" => String::from("a second = in one sentence: a ; has to part it from the next sentence"),
            b":" => String::from("a : stands in conditions alone, and they stand before the ="),
            _ => outside_quotes(token.text),
        }
    }

    /// A `,` right of the `=`.
    fn comma(&self) -> String {
        let asked = self.after.first().is_some_and(|next| next.shape == Shape::Open)
            && self.after.get(1).is_some_and(|name| Class::of_predicate(name.text).is_some());
        let said = if asked {
            "conditions stand before the =, not after it"
        } else {
            "the items of an expression are separated by blanks, not by a ,"
        };
        String::from(said)
    }
}
