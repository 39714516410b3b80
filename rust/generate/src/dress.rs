//! A tree in odd dress: any text from which the reader must read exactly this tree.

use crate::random::Random;
use refal0_apart::lexer::in_name;
use refal0_apart::tree::{Condition, Item, Letter, Name, Sentence, Subject, Table};

/// The text gets no oddities, few or many.
pub fn dress(random: &mut Random, table: &Table) -> Vec<u8> {
    let oddity = random.pick(&[0, 1, 1, 4]);
    let mut dresser = Dresser { random, oddity, text: Vec::new(), string: Vec::new() };
    for function in &table.functions {
        dresser.token(&function.name);
        dresser.token(b"{");
        for (number, sentence) in function.sentences.iter().enumerate() {
            if number > 0 {
                dresser.token(b";");
            }
            dresser.sentence(table, sentence);
        }
        dresser.spare(b";");
        dresser.token(b"}");
        dresser.spare(b";");
    }
    dresser.gap();
    dresser.text
}

struct Dresser<'r> {
    random: &'r mut Random,
    oddity: usize,
    text: Vec<u8>,
    /// Characters that are not written yet.
    string: Vec<u8>,
}

impl Dresser<'_> {
    fn odd(&mut self) -> bool {
        self.random.below(8) < self.oddity
    }

    /// Writes a token, with a gap before it where two words would join.
    fn token(&mut self, token: &[u8]) {
        self.end_string();
        self.plain_token(token);
    }

    fn plain_token(&mut self, token: &[u8]) {
        self.gap();
        if in_name(token[0]) && self.text.last().is_some_and(|&last| in_name(last)) {
            self.text.push(b' ');
        }
        self.text.extend_from_slice(token);
    }

    fn gap(&mut self) {
        if self.oddity < 4 && self.random.one_in(2) {
            self.text.push(b' ');
        }
        while self.odd() {
            match self.random.below(8) {
                0 => self.comment(),
                _ => {
                    let blank = self.random.pick(&[32, 32, 9, 10, 13]);
                    self.text.push(blank);
                }
            }
        }
    }

    fn comment(&mut self) {
        let inside: &[&str] = &["", "*", "/", "'", "\"", " F{=} ", "/*", "/* ", "**", "\n", "\\", "*'/", "<"];
        self.text.extend_from_slice(b"/*");
        self.text.extend_from_slice(self.random.pick(inside).as_bytes());
        self.text.extend_from_slice(b"*/");
    }

    fn spare(&mut self, mark: &[u8]) {
        if self.odd() {
            self.token(mark);
        }
    }

    fn variable(&mut self, kind: u8, identifier: &Name) {
        self.token(&[&[kind], identifier.as_slice()].concat());
    }

    fn sentence(&mut self, table: &Table, sentence: &Sentence) {
        for (number, template) in sentence.templates.iter().enumerate() {
            if number > 0 {
                self.variable(b'e', &sentence.parts[number - 1]);
            }
            for letter in template {
                self.nothing();
                match *letter {
                    Letter::Byte(byte) => self.character(byte),
                    Letter::Symbol(symbol) => self.variable(b's', &sentence.symbols[symbol]),
                }
            }
        }
        self.nothing();
        for condition in &sentence.conditions {
            self.condition(condition, sentence);
        }
        self.token(b"=");
        self.expression(table, sentence);
    }

    fn condition(&mut self, condition: &Condition, sentence: &Sentence) {
        self.token(b",");
        self.token(&[b"<", condition.class.predicate()].concat());
        match condition.subject {
            Subject::Symbol(symbol) => self.variable(b's', &sentence.symbols[symbol]),
            Subject::Part(part) => self.variable(b'e', &sentence.parts[part]),
        }
        self.token(b">");
        self.token(b":");
        self.token(if condition.expected { b"'T'" } else { b"'F'" });
    }

    fn expression(&mut self, table: &Table, sentence: &Sentence) {
        for item in &sentence.expression {
            self.nothing();
            match *item {
                Item::Byte(byte) => self.character(byte),
                Item::Symbol(symbol) => self.variable(b's', &sentence.symbols[symbol]),
                Item::Part(part) => self.variable(b'e', &sentence.parts[part]),
                Item::Open(callee) => self.token(&[b"<", table.callee_name(callee)].concat()),
                Item::Close(_) => self.token(b">"),
            }
        }
        self.nothing();
        self.end_string();
    }

    fn character(&mut self, byte: u8) {
        self.string.push(byte);
    }

    /// Writes an empty string, which leaves no trace in the tree.
    fn nothing(&mut self) {
        if self.odd() && self.odd() {
            self.token(b"''");
        }
    }

    fn end_string(&mut self) {
        let string = std::mem::take(&mut self.string);
        let mut rest = string.as_slice();
        while !rest.is_empty() {
            let length = if self.odd() { 1 + self.random.below(rest.len()) } else { rest.len() };
            let piece = self.piece(&rest[..length]);
            self.plain_token(&piece);
            rest = &rest[length..];
        }
    }

    fn piece(&mut self, bytes: &[u8]) -> Vec<u8> {
        let mut written = vec![b'\''];
        let mut after_code = false;
        for &byte in bytes {
            if self.odd() && self.odd() {
                written.extend_from_slice(b"\\\n");
                after_code = false;
            }
            let code = self.odd() || (after_code && byte.is_ascii_digit());
            match byte {
                _ if code => written.extend(self.code(byte)),
                b'\'' | b'"' | b'\\' => written.extend([b'\\', byte]),
                9 if self.random.one_in(2) => written.extend_from_slice(b"\\t"),
                10 if self.random.one_in(2) => written.extend_from_slice(b"\\n"),
                _ => written.push(byte),
            }
            after_code = code;
        }
        written.push(b'\'');
        written
    }

    fn code(&mut self, byte: u8) -> Vec<u8> {
        let zeros = "0".repeat(self.random.pick(&[0, 0, 1, 3]));
        format!("\\{zeros}{byte}").into_bytes()
    }
}
