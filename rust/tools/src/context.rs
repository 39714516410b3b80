//! How far a table has come at a place: in which function and sentence it stands, and in which part of that.

use crate::tokens::{Shape, Token, line_end_inside};

#[derive(Clone, Copy, PartialEq, Eq, Debug)]
pub enum Stage {
    /// Between functions.
    Outside,
    /// After a function's name.
    Named,
    /// Where a sentence may begin.
    Begin,
    Pattern,
    /// In a condition, so many tokens after its `,`.
    Condition(usize),
    Expression,
}

pub struct Context<'t> {
    pub stage: Stage,
    /// The name of the function that was begun last.
    pub function: Option<Token<'t>>,
    /// How many sentences of it were begun.
    pub sentences: usize,
    /// The first token of the sentence.
    pub first: Option<Token<'t>>,
    /// The variables of its pattern, one after another.
    pub pattern: Vec<Token<'t>>,
    /// Its `=`.
    pub equals: Option<Token<'t>>,
    /// The variables of its expression so far.
    pub used: Vec<Token<'t>>,
    /// The names of the calls that are open.
    pub open: Vec<Token<'t>>,
    /// The token before the place.
    pub before: Option<Token<'t>>,
    /// The first string of the sentence that goes on over a line's end.
    pub swallowing: Option<Token<'t>>,
}

/// Goes through the tokens before a place.
pub fn context<'t>(tokens: &[Token<'t>]) -> Context<'t> {
    let mut context = Context {
        stage: Stage::Outside,
        function: None,
        sentences: 0,
        first: None,
        pattern: Vec::new(),
        equals: None,
        used: Vec::new(),
        open: Vec::new(),
        before: None,
        swallowing: None,
    };
    for token in tokens.iter().filter(|token| token.shape != Shape::Comment) {
        context.pass(*token);
    }
    context
}

impl<'t> Context<'t> {
    fn pass(&mut self, token: Token<'t>) {
        if self.stage == Stage::Begin && !token.is("}") && !token.is(";") {
            self.begin_sentence(token);
        }
        if token.shape == Shape::String && line_end_inside(token.text).is_some() && self.swallowing.is_none() {
            self.swallowing = Some(token);
        }
        match self.stage {
            Stage::Outside if token.shape == Shape::Word => {
                (self.function, self.sentences) = (Some(token), 0);
                self.stage = Stage::Named;
            }
            Stage::Named if token.is("{") => self.stage = Stage::Begin,
            Stage::Begin if token.is("}") => self.stage = Stage::Outside,
            Stage::Pattern => self.pass_in_pattern(token),
            Stage::Condition(passed) => self.pass_in_condition(token, passed),
            Stage::Expression => self.pass_in_expression(token),
            _ => {}
        }
        self.before = Some(token);
    }

    fn begin_sentence(&mut self, token: Token<'t>) {
        self.stage = Stage::Pattern;
        self.sentences += 1;
        self.first = Some(token);
        (self.equals, self.swallowing) = (None, None);
        self.pattern.clear();
        self.used.clear();
        self.open.clear();
    }

    fn pass_in_pattern(&mut self, token: Token<'t>) {
        if token.shape == Shape::Word {
            self.pattern.push(token);
        }
        self.end_pattern(token);
    }

    fn pass_in_condition(&mut self, token: Token<'t>, passed: usize) {
        self.stage = Stage::Condition(passed + 1);
        self.end_pattern(token);
    }

    fn end_pattern(&mut self, token: Token<'t>) {
        if token.is(",") {
            self.stage = Stage::Condition(0);
        } else if token.is("=") {
            self.stage = Stage::Expression;
            self.equals = Some(token);
        }
    }

    fn pass_in_expression(&mut self, token: Token<'t>) {
        let called = self.before.is_some_and(|before| before.shape == Shape::Open);
        match token.shape {
            Shape::Word if called => self.open.push(token),
            Shape::Word => self.used.push(token),
            _ if token.is(">") => drop(self.open.pop()),
            _ if token.is(";") => self.stage = Stage::Begin,
            _ if token.is("}") => self.stage = Stage::Outside,
            _ => {}
        }
    }
}
