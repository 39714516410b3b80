//! The listing of a tree, in the one form from which the same tree is read back.

use crate::tree::{Condition, Item, Letter, Sentence, Subject, Table};

pub fn list(table: &Table) -> Vec<u8> {
    let mut listing = Vec::new();
    for function in &table.functions {
        listing.extend_from_slice(&function.name);
        listing.extend_from_slice(b" {\n");
        for sentence in &function.sentences {
            listing.extend(sentence_line(table, sentence));
        }
        listing.extend_from_slice(b"}\n");
    }
    listing
}

/// A line in the making, with the characters that still join into one string.
#[derive(Default)]
struct Line {
    written: Vec<u8>,
    string: Vec<u8>,
}

impl Line {
    /// Adds what is separated by a blank from what stands before it.
    fn separated(&mut self, pieces: &[&[u8]]) {
        self.end_string();
        if !self.written.is_empty() {
            self.written.push(b' ');
        }
        self.written.extend(pieces.concat());
    }

    fn joined(&mut self, mark: &[u8]) {
        self.end_string();
        self.written.extend_from_slice(mark);
    }

    fn character(&mut self, byte: u8) {
        self.string.push(byte);
    }

    fn end_string(&mut self) {
        let string = std::mem::take(&mut self.string);
        if !string.is_empty() {
            self.separated(&[&quoted(&string)]);
        }
    }
}

/// A sentence as it is listed, with its line end.
pub fn sentence_line(table: &Table, sentence: &Sentence) -> Vec<u8> {
    let mut line = Line::default();
    for (number, template) in sentence.templates.iter().enumerate() {
        if number > 0 {
            line.separated(&[b"e", &sentence.parts[number - 1]]);
        }
        for letter in template {
            match *letter {
                Letter::Byte(byte) => line.character(byte),
                Letter::Symbol(symbol) => line.separated(&[b"s", &sentence.symbols[symbol]]),
            }
        }
    }
    for condition in &sentence.conditions {
        list_condition(&mut line, condition, sentence);
    }
    line.separated(&[b"="]);
    list_expression(&mut line, table, sentence);
    line.joined(b";\n");
    line.written
}

fn list_condition(line: &mut Line, condition: &Condition, sentence: &Sentence) {
    line.joined(b",");
    line.separated(&[b"<", condition.class.predicate()]);
    match condition.subject {
        Subject::Symbol(symbol) => line.separated(&[b"s", &sentence.symbols[symbol]]),
        Subject::Part(part) => line.separated(&[b"e", &sentence.parts[part]]),
    }
    line.joined(b">:");
    line.separated(&[if condition.expected { b"'T'" } else { b"'F'" }]);
}

fn list_expression(line: &mut Line, table: &Table, sentence: &Sentence) {
    for item in &sentence.expression {
        match *item {
            Item::Byte(byte) => line.character(byte),
            Item::Symbol(symbol) => line.separated(&[b"s", &sentence.symbols[symbol]]),
            Item::Part(part) => line.separated(&[b"e", &sentence.parts[part]]),
            Item::Open(callee) => line.separated(&[b"<", table.callee_name(callee)]),
            Item::Close(_) => line.joined(b">"),
        }
    }
}

/// A string in its quotes; a digit right after a code would be read as part of it, so it is a code too.
fn quoted(string: &[u8]) -> Vec<u8> {
    let mut text = vec![b'\''];
    let mut after_code = false;
    for &byte in string {
        let code = match byte {
            9 | 10 => false,
            b'0'..=b'9' => after_code,
            _ => !(32..=126).contains(&byte),
        };
        match byte {
            _ if code => text.extend(format!("\\{byte}").into_bytes()),
            9 => text.extend_from_slice(b"\\t"),
            10 => text.extend_from_slice(b"\\n"),
            b'\'' | b'"' | b'\\' => text.extend([b'\\', byte]),
            _ => text.push(byte),
        }
        after_code = code;
    }
    text.push(b'\'');
    text
}
