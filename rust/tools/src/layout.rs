//! A table in the form of its listing, indented, with the comments where they stand between sentences.

use crate::tokens::{Shape, Token, tokens};
use refal0_apart::listing::sentence_line;
use refal0_apart::tree::Table;
use std::collections::BTreeMap;

const INDENT: &[u8] = b"  ";

/// Where comments may stand in a function of `m` sentences: an even slot has lines of its own, an odd one the end of
/// the line before. 0 is before the function, 1 after its `{`, 2 + 2k before sentence k and 3 + 2k after it, counted
/// from 0; with k = m, before and after the `}`.
type Slot = (usize, usize);

type Comments<'t> = BTreeMap<Slot, Vec<&'t [u8]>>;

/// The table laid out anew; it is accepted, and `table` is its tree.
pub fn laid_out(text: &[u8], table: &Table) -> Vec<u8> {
    let comments = comments(text, &tokens(text));
    let mut output = Vec::new();
    for (number, function) in table.functions.iter().enumerate() {
        let line_end = |slot: usize| end_of_line(&comments, (number, slot));
        let lines = |slot: usize| own_lines(&comments, (number, slot), INDENT);
        if number > 0 {
            output.push(b'\n');
        }
        output.extend(own_lines(&comments, (number, 0), b""));
        output.extend([&function.name, b" {".as_slice(), &line_end(1), b"\n"].concat());
        for (index, sentence) in function.sentences.iter().enumerate() {
            let line = sentence_line(table, sentence);
            let parts = [&lines(2 + 2 * index), INDENT, line.trim_ascii_end(), &line_end(3 + 2 * index), b"\n"];
            output.extend(parts.concat());
        }
        let close = 2 + 2 * function.sentences.len();
        output.extend([&lines(close), b"}".as_slice(), &line_end(close + 1), b"\n"].concat());
    }
    let last = own_lines(&comments, (table.functions.len(), 0), b"");
    if !last.is_empty() && !output.is_empty() {
        output.push(b'\n');
    }
    output.extend(last);
    output
}

fn own_lines(comments: &Comments, slot: Slot, indent: &[u8]) -> Vec<u8> {
    comments.get(&slot).into_iter().flatten().flat_map(|comment| [indent, comment, b"\n"].concat()).collect()
}

fn end_of_line(comments: &Comments, slot: Slot) -> Vec<u8> {
    comments.get(&slot).into_iter().flatten().flat_map(|comment| [b" ", *comment].concat()).collect()
}

/// How far a table is laid out: the function, how many of its sentences were begun, and in which part it stands.
#[derive(Clone, Copy)]
struct Progress {
    function: usize,
    begun: usize,
    part: Part,
}

#[derive(Clone, Copy, PartialEq, Eq)]
enum Part {
    /// Outside functions, or at a name.
    Outside,
    /// Where a sentence may begin.
    Between,
    Sentence,
}

impl Progress {
    fn pass(&mut self, token: &Token) {
        if token.is("{") {
            (self.part, self.begun) = (Part::Between, 0);
        } else if token.is("}") {
            (self.part, self.function) = (Part::Outside, self.function + 1);
        } else if token.is(";") && self.part != Part::Outside {
            self.part = Part::Between;
        } else if self.part == Part::Between {
            (self.part, self.begun) = (Part::Sentence, self.begun + 1);
        }
    }

    /// The slot of a comment: whether it goes on with the line of the token before, and whether that ends a sentence.
    fn slot(&self, goes_on: bool, ends: bool, last: Option<Slot>) -> Slot {
        let slot = match self.part {
            Part::Outside if goes_on && last.is_some() => return last.unwrap_or_default(),
            Part::Outside => 0,
            Part::Between if goes_on => 1 + 2 * self.begun,
            Part::Between => 2 + 2 * self.begun,
            Part::Sentence if ends && goes_on => 1 + 2 * self.begun,
            Part::Sentence if ends => 2 + 2 * self.begun,
            // inside a sentence: before it
            Part::Sentence => 2 * self.begun,
        };
        (self.function, slot)
    }
}

/// All comments by their slots.
fn comments<'t>(text: &[u8], tokens: &[Token<'t>]) -> Comments<'t> {
    let mut found = Comments::new();
    let mut progress = Progress { function: 0, begun: 0, part: Part::Outside };
    // where a comment in the line of the last `}` stands
    let mut closed = None;
    let mut end = 0;
    for (index, token) in tokens.iter().enumerate() {
        if token.shape == Shape::Comment {
            let goes_on = end > 0 && !text[end..token.place].contains(&10);
            let next = tokens[index..].iter().find(|next| next.shape != Shape::Comment);
            let ends = next.is_some_and(|next| next.is(";") || next.is("}"));
            found.entry(progress.slot(goes_on, ends, closed)).or_default().push(token.text);
        } else {
            closed = match token {
                _ if token.is("}") => Some((progress.function, 3 + 2 * progress.begun)),
                _ if token.is(";") => closed,
                _ => None,
            };
            progress.pass(token);
        }
        end = token.end();
    }
    found
}

#[cfg(test)]
mod tests {
    use super::laid_out;
    use refal0_apart::reader::read;

    fn formatted(text: &str) -> String {
        let table = read(text.as_bytes()).expect("the table is sound");
        String::from_utf8(laid_out(text.as_bytes(), &table)).expect("the table is plain ASCII")
    }

    #[test]
    fn comments_stay_between_sentences() {
        let text = "/* a */ F /* b */ { /* c */\n/* d */ e1/* e */=e1; /* f */\n/* g */\n=/* h */ } /* i */\n\
                    /* j */\nG{=};/* k */";
        let expected = "/* a */\n/* b */\nF { /* c */\n  /* d */\n  /* e */\n  e1 = e1; /* f */\n  /* g */\n\
                        \x20 =; /* h */\n} /* i */\n\n/* j */\nG {\n  =;\n} /* k */\n";
        assert_eq!(formatted(text), expected);
        assert_eq!(formatted(expected), expected);
    }

    #[test]
    fn comments_before_the_end_stay_there() {
        let text = "F{\n=;\n/* a */\n/* b */}\n\n/* c */";
        assert_eq!(formatted(text), "F {\n  =;\n  /* a */\n  /* b */\n}\n\n/* c */\n");
        assert_eq!(formatted("/* a */"), "/* a */\n");
        assert_eq!(formatted(""), "");
    }
}
