//! Tokens of a table's text: blanks and comments between them, words, strings, brackets, marks.

use crate::reader::Refusal;

#[derive(Clone, PartialEq, Eq, Debug)]
pub enum Token<'t> {
    End,
    Word(&'t [u8]),
    /// `<` and the name right after it.
    Open(&'t [u8]),
    String {
        raw: &'t [u8],
        bytes: Vec<u8>,
    },
    Mark(u8),
}

/// Which bytes go on a word: fewer inside a sentence than in a name.
pub type WordRule = fn(u8) -> bool;

pub fn in_name(byte: u8) -> bool {
    in_word(byte) || byte == b'_' || byte == b'-'
}

pub fn in_word(byte: u8) -> bool {
    byte.is_ascii_alphanumeric()
}

pub struct Lexer<'t> {
    text: &'t [u8],
    at: usize,
}

impl<'t> Lexer<'t> {
    pub fn new(text: &'t [u8]) -> Lexer<'t> {
        Lexer { text, at: 0 }
    }

    /// The next token with its place.
    pub fn token(&mut self, rule: WordRule) -> Result<(usize, Token<'t>), Refusal> {
        self.pass_gap()?;
        let place = self.at;
        let token = match self.peek(0) {
            None => Token::End,
            Some(b'\'') => self.string()?,
            Some(b'<') => self.open()?,
            Some(byte) if byte.is_ascii_alphabetic() => Token::Word(self.word(rule)),
            Some(byte) => {
                self.at += 1;
                Token::Mark(byte)
            }
        };
        Ok((place, token))
    }

    fn peek(&self, ahead: usize) -> Option<u8> {
        self.text.get(self.at + ahead).copied()
    }

    fn take(&mut self) -> Option<u8> {
        let byte = self.peek(0)?;
        self.at += 1;
        Some(byte)
    }

    fn word(&mut self, rule: WordRule) -> &'t [u8] {
        let rest = &self.text[self.at..];
        let length = rest.iter().position(|&byte| !rule(byte)).unwrap_or(rest.len());
        self.at += length;
        &rest[..length]
    }

    fn pass_gap(&mut self) -> Result<(), Refusal> {
        loop {
            match self.peek(0) {
                Some(32 | 9 | 10 | 13) => self.at += 1,
                Some(b'/') if self.peek(1) == Some(b'*') => self.comment()?,
                _ => return Ok(()),
            }
        }
    }

    fn comment(&mut self) -> Result<(), Refusal> {
        // the closing pair is looked for after the opening one: `/*/` is still open
        let inside = &self.text[self.at + 2..];
        let Some(length) = inside.windows(2).position(|pair| pair == b"*/") else {
            return Err(Refusal { number: 2, place: self.at });
        };
        self.at += length + 4;
        Ok(())
    }

    fn open(&mut self) -> Result<Token<'t>, Refusal> {
        if !self.peek(1).is_some_and(|byte| byte.is_ascii_alphabetic()) {
            return Err(Refusal { number: 2, place: self.at });
        }
        self.at += 1;
        Ok(Token::Open(self.word(in_name)))
    }

    fn string(&mut self) -> Result<Token<'t>, Refusal> {
        let place = self.at;
        self.at += 1;
        let bytes = self.string_bytes().ok_or(Refusal { number: 2, place })?;
        Ok(Token::String { raw: &self.text[place..self.at], bytes })
    }

    /// The bytes up to the closing quote; nothing if the string is not well formed.
    fn string_bytes(&mut self) -> Option<Vec<u8>> {
        let mut bytes = Vec::new();
        loop {
            match self.take()? {
                b'\'' => return Some(bytes),
                b'"' => return None,
                b'\\' => bytes.extend(self.escape()?),
                byte => bytes.push(byte),
            }
        }
    }

    /// What follows a `\`: a byte, or no byte for a line that goes on.
    fn escape(&mut self) -> Option<Option<u8>> {
        match self.peek(0)? {
            digit if digit.is_ascii_digit() => self.code().map(Some),
            _ => match self.take()? {
                10 => Some(None),
                b'n' => Some(Some(10)),
                b't' => Some(Some(9)),
                byte @ (b'\'' | b'"' | b'\\') => Some(Some(byte)),
                _ => None,
            },
        }
    }

    fn code(&mut self) -> Option<u8> {
        let digits = self.word(|byte| byte.is_ascii_digit());
        let value = |sum: usize, digit: &u8| (sum * 10 + usize::from(digit - b'0')).min(256);
        u8::try_from(digits.iter().fold(0, value)).ok()
    }
}
