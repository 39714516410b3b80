//! Random trees that keep all limits, with few different bytes so that patterns often fit.

use crate::angles;
use crate::flatten::flatten;
use crate::random::Random;
use refal0_apart::angles::Operation;
use refal0_apart::class::{Class, RECOVER};
use refal0_apart::reader::{CONDITION_LIMIT, ITEM_LIMIT, LETTER_LIMIT, NAME_LIMIT, NESTING_LIMIT, SYMBOL_LIMIT};
use refal0_apart::tree::{Callee, Condition, Function, Item, Letter, Name, Sentence, Subject, Table};

/// Bytes that stand in patterns and texts most of the time.
pub const USUAL: &[u8] = b"ab01 A";
/// Bytes that are written in a way of their own.
const ODD: &[u8] = b"\0\x05\t\n\r\"'\\\x7f\x80\xff7";

/// Blanks that end a line.
pub const LINE_ENDS: &[u8] = b"\n\r";

pub fn usual_byte(random: &mut Random) -> u8 {
    match random.below(60) {
        0 => random.byte(),
        1 | 2 => random.pick(ODD),
        3 => random.pick(LINE_ENDS),
        _ => random.pick(USUAL),
    }
}

pub fn table(random: &mut Random) -> Table {
    let count = if random.one_in(200) { 1 + random.below(64) } else { 1 + random.below(4) };
    let mut table = Table::default();
    for name in function_names(random, count) {
        table.functions.push(Function { name, sentences: Vec::new() });
    }
    for number in 0..count {
        // 64 functions with 8 sentences each keep the limit of 512
        let most = random.pick(&[3, 3, 3, 3, 8]);
        for _ in 0..1 + random.below(most) {
            let sentence = sentence(random, &mut table);
            table.functions[number].sentences.push(sentence);
        }
        // a function that is recovered should often fail
        let chances = if table.recoverer(number).is_some() { 1 } else { 3 };
        if !random.one_in(chances) {
            let last = catch_all(random, &mut table);
            table.functions[number].sentences.truncate(7);
            table.functions[number].sentences.push(last);
        }
    }
    if random.one_in(3) {
        flatten(random, &mut table);
    }
    intern_emissions(&mut table);
    table
}

/// Numbers the emissions by first appearance in the finished table, as the reader does.
fn intern_emissions(table: &mut Table) {
    let names = std::mem::take(&mut table.emissions);
    let mut functions = std::mem::take(&mut table.functions);
    let sentences = functions.iter_mut().flat_map(|function| &mut function.sentences);
    for item in sentences.flat_map(|sentence| &mut sentence.expression) {
        if let Item::Open(Callee::Emission(number)) | Item::Close(Callee::Emission(number)) = item {
            *number = table.emission(&names[*number]);
        }
    }
    table.functions = functions;
}

/// Different names; in a third of the tables some are Recover and another's name.
fn function_names(random: &mut Random, count: usize) -> Vec<Name> {
    let mut names: Vec<Name> = (0..count).map(|number| function_name(random, number)).collect();
    let mut fixed = vec![false; count];
    let renamed = if random.one_in(3) { 1 + random.below(count) } else { 0 };
    for _ in 0..renamed {
        let (failing, recovering) = (random.below(count), random.below(count));
        let name = if random.one_in(6) { odd_recoverer(random) } else { [RECOVER, &names[failing]].concat() };
        if failing != recovering && !fixed[recovering] && name.len() <= NAME_LIMIT && !names.contains(&name) {
            names[recovering] = name;
            (fixed[failing], fixed[recovering]) = (true, true);
        }
    }
    names
}

/// A name that looks like a function that recovers, and recovers none.
fn odd_recoverer(random: &mut Random) -> Name {
    random
        .pick(&["Recover", "Recovery", "RecoverRecover", "RecoverEmitA", "RecoverIsDigit", "RecoverDmAdd", "recoverF0"])
        .into()
}

fn function_name(random: &mut Random, number: usize) -> Name {
    let stem = random.pick(&["F", "s1", "e", "IsDigitX", "Emi", "isdigit", "Set-Stop_", "emit", "T", "DmAdd"]);
    let mut name = format!("{stem}{number}").into_bytes();
    if random.one_in(20) {
        name.resize(24, b'-');
    }
    name
}

fn identifier(random: &mut Random, number: usize) -> Name {
    let stem = random.pick(&["", "", "", "x", "A", "s", "e", "Col", "abcdef"]);
    format!("{stem}{number}").into_bytes()
}

/// A template's length: mostly short, at times as long as is left.
fn template_length(random: &mut Random, least: usize, left: usize) -> usize {
    let length = if random.one_in(150) { left } else { least + random.pick(&[0, 0, 0, 1, 1, 2]) };
    length.min(left)
}

fn pattern(random: &mut Random) -> Sentence {
    let mut sentence = Sentence::empty();
    let parts = random.pick(&[0, 1, 1, 1, 2, 2, 2]);
    for number in 0..=parts {
        if number > 0 {
            sentence.parts.push(identifier(random, number + 90));
            sentence.templates.push(Vec::new());
        }
        let least = usize::from(parts == 2 && number == 1);
        // a letter is kept back for the middle template
        let left = (LETTER_LIMIT - 1 + least).saturating_sub(sentence.letters());
        for _ in 0..template_length(random, least, left) {
            let letter = letter(random, &mut sentence.symbols);
            sentence.last_template().push(letter);
        }
    }
    sentence
}

fn letter(random: &mut Random, symbols: &mut Vec<Name>) -> Letter {
    if random.one_in(3) {
        return Letter::Byte(usual_byte(random));
    }
    if symbols.is_empty() || (symbols.len() < SYMBOL_LIMIT && random.one_in(2)) {
        symbols.push(identifier(random, symbols.len()));
        return Letter::Symbol(symbols.len() - 1);
    }
    Letter::Symbol(random.below(symbols.len()))
}

fn conditions(random: &mut Random, sentence: &Sentence) -> Vec<Condition> {
    if sentence.symbols.len() + sentence.parts.len() == 0 || random.one_in(2) {
        return Vec::new();
    }
    let count = if random.one_in(50) { CONDITION_LIMIT } else { random.below(4) };
    (0..count).map(|_| condition(random, sentence)).collect()
}

fn condition(random: &mut Random, sentence: &Sentence) -> Condition {
    let (symbols, parts) = (sentence.symbols.len(), sentence.parts.len());
    let subject = if symbols == 0 || (parts > 0 && random.one_in(2)) {
        Subject::Part(random.below(parts))
    } else {
        Subject::Symbol(random.below(symbols))
    };
    Condition { class: random.pick(&Class::ALL), subject, expected: !random.one_in(3) }
}

fn sentence(random: &mut Random, table: &mut Table) -> Sentence {
    let mut sentence = pattern(random);
    sentence.conditions = conditions(random, &sentence);
    let items = if random.one_in(100) { ITEM_LIMIT } else { 1 + random.below(9) };
    let nesting = if random.one_in(50) { NESTING_LIMIT } else { 3 };
    make_expression(random, table, &mut sentence, items, nesting);
    sentence
}

/// A sentence that fits every text, so that runs often go on to their end.
fn catch_all(random: &mut Random, table: &mut Table) -> Sentence {
    let mut sentence = Sentence::empty();
    sentence.parts.push(identifier(random, 91));
    sentence.templates.push(Vec::new());
    let items = 1 + random.below(4);
    make_expression(random, table, &mut sentence, items, 2);
    sentence
}

/// An expression of about so many items; a third end with a tail call whose argument the last e-variable ends.
fn make_expression(random: &mut Random, table: &mut Table, sentence: &mut Sentence, items: usize, nesting: usize) {
    let kept_back = usize::from(!sentence.parts.is_empty() && items < ITEM_LIMIT && random.one_in(3));
    let parts = sentence.parts.len() - kept_back;
    let mut maker = ExpressionMaker { random, table, left: items, next_part: 0, parts };
    maker.expression(sentence, nesting);
    if kept_back > 0 {
        maker.ending_call(sentence, parts);
    }
}

struct ExpressionMaker<'r> {
    random: &'r mut Random,
    table: &'r mut Table,
    left: usize,
    next_part: usize,
    /// How many of the pattern's e-variables may stand in the expression.
    parts: usize,
}

impl ExpressionMaker<'_> {
    fn expression(&mut self, sentence: &mut Sentence, nesting: usize) {
        while self.left > 0 {
            match self.random.below(12) {
                0 | 1 if !sentence.symbols.is_empty() => {
                    let symbol = self.random.below(sentence.symbols.len());
                    self.push(sentence, Item::Symbol(symbol));
                }
                2..=5 if self.next_part < self.parts => self.part(sentence),
                6 if nesting > 0 && self.random.one_in(2) => self.angles(sentence, nesting),
                6..=9 if nesting > 0 => self.call(sentence, nesting),
                // going back outwards early makes calls that are not last
                10 if nesting < 3 => return,
                _ => self.byte(sentence),
            }
        }
    }

    fn ending_call(&mut self, sentence: &mut Sentence, part: usize) {
        let callee = Callee::Function(self.random.below(self.table.functions.len()));
        sentence.expression.push(Item::Open(callee));
        for _ in 0..self.random.below(3) {
            sentence.expression.push(Item::Byte(usual_byte(self.random)));
        }
        sentence.expression.extend([Item::Part(part), Item::Close(callee)]);
    }

    /// A call on two angles, if the expression may still take so much.
    fn angles(&mut self, sentence: &mut Sentence, nesting: usize) {
        if sentence.expression.len() + self.left > ITEM_LIMIT / 2 {
            return self.byte(sentence);
        }
        let callee = Callee::Angles(self.random.pick(&Operation::ALL));
        self.push(sentence, Item::Open(callee));
        if self.random.one_in(2) {
            sentence.expression.extend(angles::argument(self.random).into_iter().map(Item::Byte));
        } else {
            self.angle(sentence, nesting - 1);
            sentence.expression.extend(angles::between(self.random).iter().map(|&byte| Item::Byte(byte)));
            self.angle(sentence, nesting - 1);
        }
        sentence.expression.push(Item::Close(callee));
    }

    /// An angle as it stands, what another call comes to, or an e-variable.
    fn angle(&mut self, sentence: &mut Sentence, nesting: usize) {
        match self.random.below(8) {
            // few inside one another, so that they keep the limit of items
            0 if nesting > 0 => self.angles(sentence, nesting.min(2)),
            1 | 2 if self.left > 0 && self.next_part < self.parts => self.part(sentence),
            _ => sentence.expression.extend(angles::angle(self.random).into_iter().map(Item::Byte)),
        }
    }

    fn part(&mut self, sentence: &mut Sentence) {
        let part = self.next_part + self.random.below(self.parts - self.next_part);
        self.next_part = part + 1;
        self.push(sentence, Item::Part(part));
    }

    fn byte(&mut self, sentence: &mut Sentence) {
        let byte = usual_byte(self.random);
        self.push(sentence, Item::Byte(byte));
    }

    fn push(&mut self, sentence: &mut Sentence, item: Item) {
        self.left = self.left.saturating_sub(1);
        sentence.expression.push(item);
    }

    fn call(&mut self, sentence: &mut Sentence, nesting: usize) {
        let callee = if self.random.one_in(4) {
            let name: &str = self.random.pick(&["Emit", "EmitStop", "EmitA", "Emit-long_name-0123456"]);
            Callee::Emission(self.table.emission(name.as_bytes()))
        } else {
            Callee::Function(self.random.below(self.table.functions.len()))
        };
        self.push(sentence, Item::Open(callee));
        // an argument without the rest of the text seldom goes far
        if self.left > 0 && self.next_part < self.parts && !self.random.one_in(4) {
            self.part(sentence);
        }
        if !self.random.one_in(3) {
            self.expression(sentence, nesting - 1);
        }
        sentence.expression.push(Item::Close(callee));
    }
}
