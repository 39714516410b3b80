//! A table that is laid out anew has the same tree and the same comments, and laying it out again changes nothing.

use generate::dress::dress;
use generate::random::Random;
use generate::trees;
use refal0_apart::reader::read;
use tools::layout::laid_out;
use tools::tokens::{Shape, tokens};

const COUNT: usize = 3_000;

fn comments(text: &[u8]) -> Vec<&[u8]> {
    let tokens = tokens(text);
    let mut comments: Vec<&[u8]> =
        tokens.iter().filter(|token| token.shape == Shape::Comment).map(|token| token.text).collect();
    comments.sort_unstable();
    comments
}

#[test]
fn nothing_but_the_layout_changes() {
    let mut random = Random::new(7);
    let mut seen = 0;
    for _ in 0..COUNT {
        let tree = trees::table(&mut random);
        let text = dress(&mut random, &tree);
        let Ok(table) = read(&text) else { continue };
        let formatted = laid_out(&text, &table);
        let shown = String::from_utf8_lossy(&text).into_owned();
        assert_eq!(read(&formatted).as_ref(), Ok(&table), "{shown}");
        assert_eq!(comments(&formatted), comments(&text), "{shown}");
        assert_eq!(laid_out(&formatted, &table), formatted, "{shown}");
        seen += comments(&text).len();
    }
    assert!(seen > COUNT, "{seen} comments");
}
