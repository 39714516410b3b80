//! Bytes as people read them: in quotes, with control bytes escaped and long texts cut in the middle; names and steps.

/// At most so many characters of a text are shown in a line.
pub const WIDTH: usize = 60;

/// What stands in the place of what was cut out.
const CUT: &str = " .. ";

/// A text in single quotes, as it would stand in a table; a long one is cut in the middle and has its length besides.
pub fn quoted(text: &[u8]) -> String {
    match whole(text, WIDTH) {
        Some(shown) => format!("'{shown}'"),
        None => format!("'{}' ({} bytes)", ends(text, WIDTH), text.len()),
    }
}

/// A text without quotes, with at most `width` characters and perhaps a cut.
pub fn cut(text: &[u8], width: usize) -> String {
    whole(text, width).unwrap_or_else(|| ends(text, width))
}

/// The whole text, if it has at most so many characters.
fn whole(text: &[u8], width: usize) -> Option<String> {
    // no character has more than four bytes
    let shown = if text.len() <= 4 * width { escaped(text) } else { return None };
    (shown.chars().count() <= width).then_some(shown)
}

/// The beginning and the end of a text, each at most half as wide as may be. Of a long text nothing else is looked at.
fn ends(text: &[u8], width: usize) -> String {
    let half = (width - CUT.len()) / 2;
    let looked = text.len().min(4 * half);
    let (head, tail) = (pieces(&text[..looked]), pieces(&text[text.len() - looked..]));
    let fits = |pieces: &mut dyn Iterator<Item = &String>| {
        let mut room = half;
        pieces.take_while(|piece| room.checked_sub(piece.chars().count()).map(|left| room = left).is_some()).count()
    };
    let (first, last) = (fits(&mut head.iter()), fits(&mut tail.iter().rev()));
    format!("{}{CUT}{}", head[..first].concat(), tail[tail.len() - last..].concat())
}

/// A name of a table, which is plain ASCII.
pub fn named(name: &[u8]) -> String {
    String::from_utf8_lossy(name).into_owned()
}

/// How many steps were made.
pub fn steps(count: u64) -> String {
    if count == 1 { String::from("1 step") } else { format!("{count} steps") }
}

/// The whole text with its bytes escaped.
pub fn escaped(text: &[u8]) -> String {
    pieces(text).concat()
}

/// Each character as it is shown; a byte that is none, or that can't be seen, is shown as its code.
fn pieces(text: &[u8]) -> Vec<String> {
    text.utf8_chunks()
        .flat_map(|chunk| {
            let seen = chunk.valid().chars().map(character);
            seen.chain(chunk.invalid().iter().map(|&byte| code(byte))).collect::<Vec<_>>()
        })
        .collect()
}

fn character(character: char) -> String {
    match character {
        '\n' => String::from("\\n"),
        '\t' => String::from("\\t"),
        '\'' | '\\' => format!("\\{character}"),
        ' '..='~' => character.to_string(),
        // a byte order mark or a blank that doesn't break would not be seen
        _ if character.is_alphanumeric() || "°€§–…".contains(character) => character.to_string(),
        _ => character.to_string().bytes().map(code).collect(),
    }
}

fn code(byte: u8) -> String {
    format!("\\{byte}")
}

#[cfg(test)]
mod tests {
    use super::{cut, escaped, quoted};

    #[test]
    fn bytes_that_cannot_be_seen_have_codes() {
        assert_eq!(quoted(b"STOP 060\r\n"), "'STOP 060\\13\\n'");
        assert_eq!(escaped("\u{feff}STOP".as_bytes()), "\\239\\187\\191STOP");
        assert_eq!(escaped("Müller\u{a0}60°".as_bytes()), "Müller\\194\\16060°");
        assert_eq!(escaped(b"it's \\ \xff\0"), "it\\'s \\\\ \\255\\0");
    }

    #[test]
    fn long_texts_are_cut_in_the_middle() {
        assert_eq!(cut(b"0123456789", 10), "0123456789");
        assert_eq!(cut(b"0123456789a", 10), "012 .. 89a");
        assert_eq!(cut(&[b'x'; 10_000], 10), "xxx .. xxx");
        assert_eq!(cut(b"\n\n\n\n\n\n\n\n", 12), "\\n\\n .. \\n\\n");
        assert!(quoted(&[b'x'; 61]).ends_with("x' (61 bytes)"));
    }
}
