//! The reader: a table's text to its tree, or the number and place of the first fault.

use crate::angles::Operation;
use crate::class::{Class, is_emission, is_reserved};
use crate::lexer::{Lexer, Token, WordRule, in_name, in_word};
use crate::tree::{Callee, Condition, Function, Item, Letter, Name, Sentence, Subject, Table};

pub const TABLE_LIMIT: usize = 32_768;
pub const FUNCTION_LIMIT: usize = 64;
pub const SENTENCE_LIMIT: usize = 512;
pub const NAME_LIMIT: usize = 24;
pub const IDENTIFIER_LIMIT: usize = 8;
pub const LETTER_LIMIT: usize = 64;
pub const SYMBOL_LIMIT: usize = 16;
pub const CONDITION_LIMIT: usize = 8;
pub const ITEM_LIMIT: usize = 128;
pub const NESTING_LIMIT: usize = 16;

#[derive(Clone, Copy, PartialEq, Eq, Debug)]
pub struct Refusal {
    pub number: u64,
    pub place: usize,
}

pub type Read<T> = Result<T, Refusal>;

pub fn read(text: &[u8]) -> Read<Table> {
    read_with_places(text).map(|(table, _)| table)
}

/// The tree, and the places of the called names that are declared, in the order of the text.
pub fn read_with_places(text: &[u8]) -> Read<(Table, Vec<usize>)> {
    if text.len() > TABLE_LIMIT {
        return Err(Refusal { number: 1, place: 0 });
    }
    let mut reader = Reader {
        lexer: Lexer::new(text),
        token: Token::End,
        place: 0,
        table: Table::default(),
        sentences: 0,
        called: Vec::new(),
    };
    reader.advance(in_name)?;
    reader.functions()?;
    reader.resolve()
}

struct Reader<'t> {
    lexer: Lexer<'t>,
    token: Token<'t>,
    place: usize,
    table: Table,
    sentences: usize,
    /// Called names that are neither emissions nor angle calls: a callee is an index here until all are declared.
    called: Vec<(usize, &'t [u8])>,
}

/// A variable is `s` or `e` and an identifier.
fn variable(word: &[u8]) -> Option<(u8, &[u8])> {
    match word {
        [kind @ (b's' | b'e'), identifier @ ..] if !identifier.is_empty() => Some((*kind, identifier)),
        _ => None,
    }
}

fn position(names: &[Name], identifier: &[u8]) -> Option<usize> {
    names.iter().position(|name| name == identifier)
}

impl<'t> Reader<'t> {
    fn advance(&mut self, rule: WordRule) -> Read<()> {
        (self.place, self.token) = self.lexer.token(rule)?;
        Ok(())
    }

    fn refuse<T>(&self, number: u64) -> Read<T> {
        Err(Refusal { number, place: self.place })
    }

    fn refuse_if(&self, fault: bool, number: u64) -> Read<()> {
        if fault { self.refuse(number) } else { Ok(()) }
    }

    fn expect(&mut self, mark: u8) -> Read<()> {
        self.refuse_if(self.token != Token::Mark(mark), 3)?;
        self.advance(in_word)
    }

    fn functions(&mut self) -> Read<()> {
        loop {
            match self.token {
                Token::End => return Ok(()),
                Token::Word(name) => self.function(name)?,
                _ => return self.refuse(3),
            }
        }
    }

    fn function(&mut self, name: &[u8]) -> Read<()> {
        let declared = self.table.functions.iter().any(|function| function.name == name);
        self.refuse_if(self.table.functions.len() == FUNCTION_LIMIT || name.len() > NAME_LIMIT, 4)?;
        self.refuse_if(is_reserved(name) || declared, 5)?;
        self.advance(in_word)?;
        self.expect(b'{')?;
        self.table.functions.push(Function { name: name.to_vec(), sentences: Vec::new() });
        loop {
            let sentence = self.sentence()?;
            let function = self.table.functions.last_mut().expect("a function is being read");
            function.sentences.push(sentence);
            if self.token == Token::Mark(b';') {
                self.advance(in_word)?;
                if self.token != Token::Mark(b'}') {
                    continue;
                }
            }
            self.refuse_if(self.token != Token::Mark(b'}'), 3)?;
            break;
        }
        self.advance(in_name)?;
        if self.token == Token::Mark(b';') {
            self.advance(in_name)?;
        }
        Ok(())
    }

    fn sentence(&mut self) -> Read<Sentence> {
        let begins = match &self.token {
            Token::Word(word) => variable(word).is_some(),
            token => matches!(token, Token::String { .. } | Token::Mark(b',' | b'=')),
        };
        self.refuse_if(!begins, 3)?;
        self.refuse_if(self.sentences == SENTENCE_LIMIT, 4)?;
        self.sentences += 1;
        let mut sentence = Sentence::empty();
        self.pattern(&mut sentence)?;
        while self.token == Token::Mark(b',') {
            self.refuse_if(sentence.conditions.len() == CONDITION_LIMIT, 4)?;
            let condition = self.condition(&sentence)?;
            sentence.conditions.push(condition);
        }
        self.expect(b'=')?;
        let mut tally = Tally { items: 0, next_part: 0 };
        self.expression(&mut sentence, &mut tally, 0)?;
        Ok(sentence)
    }

    fn pattern(&mut self, sentence: &mut Sentence) -> Read<()> {
        loop {
            match &self.token {
                Token::String { bytes, .. } => {
                    self.refuse_if(sentence.letters() + bytes.len() > LETTER_LIMIT, 4)?;
                    sentence.last_template().extend(bytes.iter().map(|&byte| Letter::Byte(byte)));
                }
                Token::Word(word) => match variable(word) {
                    Some((b's', identifier)) => self.pattern_symbol(sentence, identifier)?,
                    Some((_, identifier)) => self.pattern_part(sentence, identifier)?,
                    None => return self.refuse(3),
                },
                _ => return Ok(()),
            }
            self.advance(in_word)?;
        }
    }

    fn pattern_symbol(&self, sentence: &mut Sentence, identifier: &[u8]) -> Read<()> {
        let known = position(&sentence.symbols, identifier);
        let count = sentence.symbols.len();
        self.refuse_if(identifier.len() > IDENTIFIER_LIMIT, 4)?;
        self.refuse_if(sentence.letters() == LETTER_LIMIT, 4)?;
        self.refuse_if(known.is_none() && count == SYMBOL_LIMIT, 4)?;
        self.refuse_if(position(&sentence.parts, identifier).is_some(), 6)?;
        if known.is_none() {
            sentence.symbols.push(identifier.to_vec());
        }
        sentence.last_template().push(Letter::Symbol(known.unwrap_or(count)));
        Ok(())
    }

    fn pattern_part(&self, sentence: &mut Sentence, identifier: &[u8]) -> Read<()> {
        self.refuse_if(sentence.parts.len() == 2, 3)?;
        self.refuse_if(identifier.len() > IDENTIFIER_LIMIT, 4)?;
        let shared = position(&sentence.symbols, identifier).is_some();
        let twice = position(&sentence.parts, identifier).is_some();
        let touching = sentence.parts.len() == 1 && sentence.last_template().is_empty();
        self.refuse_if(shared || twice || touching, 6)?;
        sentence.parts.push(identifier.to_vec());
        sentence.templates.push(Vec::new());
        Ok(())
    }

    fn condition(&mut self, sentence: &Sentence) -> Read<Condition> {
        self.expect(b',')?;
        let Token::Open(name) = self.token else { return self.refuse(3) };
        self.place += 1;
        self.refuse_if(name.len() > NAME_LIMIT, 4)?;
        let Some(class) = Class::of_predicate(name) else { return self.refuse(5) };
        self.advance(in_word)?;
        let subject = self.subject(sentence)?;
        self.advance(in_word)?;
        self.expect(b'>')?;
        self.expect(b':')?;
        let expected = match &self.token {
            Token::String { raw: b"'T'", .. } => true,
            Token::String { raw: b"'F'", .. } => false,
            _ => return self.refuse(3),
        };
        self.advance(in_word)?;
        Ok(Condition { class, subject, expected })
    }

    /// The variable of the pattern that a condition names.
    fn subject(&self, sentence: &Sentence) -> Read<Subject> {
        let Token::Word(word) = self.token else { return self.refuse(3) };
        let Some((kind, identifier)) = variable(word) else { return self.refuse(3) };
        self.refuse_if(identifier.len() > IDENTIFIER_LIMIT, 4)?;
        let subject = match kind {
            b's' => position(&sentence.symbols, identifier).map(Subject::Symbol),
            _ => position(&sentence.parts, identifier).map(Subject::Part),
        };
        subject.map_or_else(|| self.refuse(7), Ok)
    }

    /// Reads items up to a token that is none, which closes the call or the sentence.
    fn expression(&mut self, sentence: &mut Sentence, tally: &mut Tally, nesting: usize) -> Read<()> {
        loop {
            match &self.token {
                Token::String { bytes, .. } => {
                    self.refuse_if(tally.items + bytes.len() > ITEM_LIMIT, 4)?;
                    tally.items += bytes.len();
                    sentence.expression.extend(bytes.iter().map(|&byte| Item::Byte(byte)));
                    self.advance(in_word)?;
                }
                &Token::Word(word) => {
                    let item = self.expression_variable(word, sentence, tally)?;
                    sentence.expression.push(item);
                    self.advance(in_word)?;
                }
                &Token::Open(name) => self.call(name, sentence, tally, nesting)?,
                _ => return Ok(()),
            }
        }
    }

    fn expression_variable(&self, word: &[u8], sentence: &Sentence, tally: &mut Tally) -> Read<Item> {
        let Some((kind, identifier)) = variable(word) else { return self.refuse(3) };
        self.refuse_if(tally.items == ITEM_LIMIT || identifier.len() > IDENTIFIER_LIMIT, 4)?;
        tally.items += 1;
        if kind == b's' {
            let Some(symbol) = position(&sentence.symbols, identifier) else { return self.refuse(7) };
            return Ok(Item::Symbol(symbol));
        }
        match position(&sentence.parts, identifier) {
            Some(part) if part >= tally.next_part => {
                tally.next_part = part + 1;
                Ok(Item::Part(part))
            }
            _ => self.refuse(7),
        }
    }

    fn call(&mut self, name: &'t [u8], sentence: &mut Sentence, tally: &mut Tally, nesting: usize) -> Read<()> {
        self.refuse_if(nesting == NESTING_LIMIT || tally.items == ITEM_LIMIT, 4)?;
        tally.items += 1;
        self.place += 1;
        self.refuse_if(name.len() > NAME_LIMIT, 4)?;
        self.refuse_if(Class::of_predicate(name).is_some(), 5)?;
        let callee = if is_emission(name) {
            Callee::Emission(self.table.emission(name))
        } else if let Some(operation) = Operation::of_name(name) {
            Callee::Angles(operation)
        } else {
            self.called.push((self.place, name));
            Callee::Function(self.called.len() - 1)
        };
        sentence.expression.push(Item::Open(callee));
        self.advance(in_word)?;
        self.expression(sentence, tally, nesting + 1)?;
        self.expect(b'>')?;
        sentence.expression.push(Item::Close(callee));
        Ok(())
    }

    /// Puts the functions' numbers in place of the called names.
    fn resolve(mut self) -> Read<(Table, Vec<usize>)> {
        let mut numbers = Vec::new();
        for &(place, name) in &self.called {
            let number = self.table.functions.iter().position(|function| function.name == name);
            numbers.push(number.ok_or(Refusal { number: 8, place })?);
        }
        let sentences = self.table.functions.iter_mut().flat_map(|function| &mut function.sentences);
        for item in sentences.flat_map(|sentence| &mut sentence.expression) {
            if let Item::Open(Callee::Function(call)) | Item::Close(Callee::Function(call)) = item {
                *call = numbers[*call];
            }
        }
        Ok((self.table, self.called.iter().map(|&(place, _)| place).collect()))
    }
}

/// What one expression has used up so far.
struct Tally {
    items: usize,
    next_part: usize,
}
