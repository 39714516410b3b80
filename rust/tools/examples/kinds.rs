//! Prints the tokens of a table, each on a line: line, first column and last column in bytes, and kind. A token of
//! several lines has a line for each.

use refal0_apart::angles::Operation;
use refal0_apart::class::{Class, is_emission};
use tools::command::file;
use tools::spot::spot;
use tools::tokens::{Shape, Token, tokens};

fn main() {
    let path = std::env::args().nth(1).expect("usage: kinds TABLE");
    let text = file("table", &path).expect("the table is read");
    let mut inside = false;
    let mut called = false;
    for token in tokens(&text) {
        inside = (inside || token.is("{")) && !token.is("}");
        print(&text, &token, kind(&token, inside, called));
        called = token.shape == Shape::Open;
    }
}

fn kind(token: &Token, inside: bool, called: bool) -> &'static str {
    match token.shape {
        Shape::Comment => "comment",
        Shape::String => "string",
        Shape::Word if !inside => "declared",
        Shape::Word if !called => "variable",
        Shape::Word if is_emission(token.text) => "emission",
        Shape::Word if Class::of_predicate(token.text).is_some() => "predicate",
        Shape::Word if Operation::of_name(token.text).is_some() => "angles",
        Shape::Word => "called",
        Shape::Open => "mark",
        Shape::Number | Shape::Mark if token.is("{") || token.is("}") => "bracket",
        Shape::Number | Shape::Mark => "mark",
    }
}

fn print(text: &[u8], token: &Token, kind: &str) {
    let mut line = spot(text, token.place).line;
    let start = text[..token.place].iter().rposition(|&byte| byte == 10).map_or(0, |end| end + 1);
    let mut column = token.place - start + 1;
    for piece in token.text.split(|&byte| byte == 10) {
        if !piece.is_empty() {
            println!("{line} {column} {} {kind}", column + piece.len() - 1);
        }
        (line, column) = (line + 1, 1);
    }
}
