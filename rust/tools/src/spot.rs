//! Places in a table as people count them: lines and columns from 1.

/// The line and the column of a byte. The bytes that continue a character take no column.
#[derive(Clone, Copy, PartialEq, Eq, Debug)]
pub struct Spot {
    pub line: usize,
    pub column: usize,
}

pub fn spot(text: &[u8], place: usize) -> Spot {
    let before = &text[..place.min(text.len())];
    let line = 1 + before.iter().filter(|&&byte| byte == 10).count();
    Spot { line, column: 1 + characters(&before[line_start(before, before.len())..]) }
}

/// Where the line begins in which a place stands.
fn line_start(text: &[u8], place: usize) -> usize {
    text[..place].iter().rposition(|&byte| byte == 10).map_or(0, |end| end + 1)
}

fn characters(text: &[u8]) -> usize {
    text.iter().filter(|&&byte| !(0x80..0xc0).contains(&byte)).count()
}

/// The line of a place, and below it marks under what stands there; each begins with a line end. An empty line isn't
/// shown.
pub fn marked_line(text: &[u8], place: usize, length: usize) -> String {
    let place = place.min(text.len());
    let start = line_start(text, place);
    let end = text[place..].iter().position(|&byte| byte == 10).map_or(text.len(), |length| place + length);
    let line = String::from_utf8_lossy(&text[start..end]).replace('\0', " ");
    let blanks: String = String::from_utf8_lossy(&text[start..place])
        .chars()
        .map(|seen| if seen == '\t' { '\t' } else { ' ' })
        .collect();
    let marks = characters(&text[place..end.min(place + length)]).max(1);
    if line.trim().is_empty() {
        return String::new();
    }
    format!("\n  {}\n  {blanks}{}", line.trim_end_matches('\r'), "^".repeat(marks))
}

#[cfg(test)]
mod tests {
    use super::{Spot, marked_line, spot};

    #[test]
    fn lines_and_columns_count_from_one() {
        assert_eq!(spot(b"", 0), Spot { line: 1, column: 1 });
        assert_eq!(spot("ä b\nc".as_bytes(), 3), Spot { line: 1, column: 3 });
        assert_eq!(spot(b"a\nbc", 3), Spot { line: 2, column: 2 });
    }

    #[test]
    fn marks_stand_under_what_is_meant() {
        assert_eq!(marked_line(b"a\n\tbc de\r\nf", 3, 2), "\n  \tbc de\n  \t^^");
        assert_eq!(marked_line(b"abc", 3, 0), "\n  abc\n     ^");
        assert_eq!(marked_line(b"abc\n", 4, 0), "");
    }
}
