//! Names that are nearly alike: a slip of the pen apart.

/// How many letters have to be changed, added, left out or swapped with their neighbour.
pub fn distance(one: &[u8], other: &[u8]) -> usize {
    let width = other.len() + 1;
    let mut rows: Vec<Vec<usize>> = vec![(0..width).collect()];
    for (line, &byte) in one.iter().enumerate() {
        let above = &rows[line];
        let mut row = vec![line + 1];
        for column in 1..width {
            let changed = above[column - 1] + usize::from(byte != other[column - 1]);
            let mut least = changed.min(above[column] + 1).min(row[column - 1] + 1);
            let swapped = line > 0 && column > 1 && byte == other[column - 2] && one[line - 1] == other[column - 1];
            if swapped {
                least = least.min(rows[line - 1][column - 2] + 1);
            }
            row.push(least);
        }
        rows.push(row);
    }
    rows[one.len()][width - 1]
}

/// Whether one is likely meant where the other was written: alike but for capitals, or a letter or two apart.
pub fn near(one: &[u8], other: &[u8]) -> bool {
    let allowed = match one.len().min(other.len()) {
        0..4 => 0,
        4..7 => 1,
        _ => 2,
    };
    distance(&one.to_ascii_lowercase(), &other.to_ascii_lowercase()) <= allowed
}

/// The nearest of these names, if it is near enough.
pub fn nearest<'n>(name: &[u8], names: impl IntoIterator<Item = &'n [u8]>) -> Option<&'n [u8]> {
    let candidates = names.into_iter().filter(|&other| other != name && near(name, other));
    candidates.min_by_key(|other| distance(name, other))
}

#[cfg(test)]
mod tests {
    use super::{distance, near, nearest};

    #[test]
    fn slips_are_counted() {
        assert_eq!(distance(b"Degrees", b"Degrees"), 0);
        assert_eq!(distance(b"Degres", b"Degrees"), 1);
        assert_eq!(distance(b"Dergees", b"Degrees"), 1);
        assert_eq!(distance(b"", b"abc"), 3);
    }

    #[test]
    fn short_names_are_near_only_in_other_capitals() {
        assert!(near(b"sA", b"sa") && !near(b"e1", b"e2"));
        assert!(near(b"eLine", b"eLines") && !near(b"Line", b"Sheet"));
    }

    #[test]
    fn the_nearest_name_is_found() {
        let names = [b"Number".as_slice(), b"Numbers", b"Line"];
        assert_eq!(nearest(b"Numbr", names), Some(b"Number".as_slice()));
        assert_eq!(nearest(b"Swing", names), None);
    }
}
