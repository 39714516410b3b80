//! The sizes that the header and the crate `refal0` call enough for every table: two words of code and four bytes of
//! listing for each byte of a table, and 16 words more.

use generate::dress::dress;
use generate::edges::edge;
use generate::random::Random;
use generate::trees;
use refal0_apart::listing::list;
use refal0_apart::packing::code;
use refal0_apart::reader::read;

fn enough(text: &[u8]) {
    let Ok(table) = read(text) else { return };
    let (words, bytes) = (code(&table).len(), list(&table).len());
    let shown = String::from_utf8_lossy(text);
    assert!(words <= 2 * text.len() + 16, "{words} words for {} bytes: {shown}", text.len());
    assert!(bytes <= 4 * text.len(), "{bytes} bytes of listing for {}: {shown}", text.len());
}

/// Tables written as short as they can be, with much of one thing each.
#[test]
fn the_shortest_tables_have_room() {
    let call = |name: &str, count: usize| format!("F{{={}{}}}", format!("<{name}").repeat(count), ">".repeat(count));
    for count in 1..=16 {
        ["F", "Emit", "EmitA", "EmitALongNameOf24Letters", "DmAdd"]
            .iter()
            .for_each(|name| enough(call(name, count).as_bytes()));
        enough(format!("F{{={}}}", "<Emit>".repeat(count)).as_bytes());
        enough(format!("F{{={}}}", "<F>".repeat(count)).as_bytes());
        enough(format!("F{{e1={}e1{}}}", "<F".repeat(count) + " ", ">".repeat(count)).as_bytes());
        enough(format!("F{{s1{}=s1}}", ",<IsDigit s1>:'T'".repeat(count.min(8))).as_bytes());
        enough(format!("F{{e1{}=e1}}", ",<IsDigit e1>:'T'".repeat(count.min(8))).as_bytes());
        enough(&[b"F{='", vec![255; 8 * count].as_slice(), b"'}"].concat());
        enough(&[b"F{'", vec![255; 4 * count].as_slice(), b"'=}"].concat());
        enough(format!("F{{{}=}}", "=;".repeat(16 * count)).as_bytes());
        let functions: String = (0..4 * count).map(|number| format!("F{number}{{=}}")).collect();
        enough(functions.as_bytes());
    }
    enough(b"");
    enough(b"F{=}");
}

#[test]
fn generated_tables_have_room() {
    let mut random = Random::new(8);
    for _ in 0..3_000 {
        let table = trees::table(&mut random);
        enough(&dress(&mut random, &table));
        enough(&edge(&mut random));
        // a listing without its blanks is often the shortest way to write a table
        let listing = list(&table);
        enough(&listing.into_iter().filter(|&byte| byte != 10).collect::<Vec<u8>>());
    }
}
