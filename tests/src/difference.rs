//! Where two outputs differ first.

/// The most characters of a line that a report shows.
const MOST_SHOWN: usize = 200;

/// The first line, from 1, in which two outputs differ, and that line of both.
pub fn first_difference(one: &[u8], other: &[u8]) -> Option<(usize, String, String)> {
    let (mut ones, mut others) = (lines(one), lines(other));
    let mut place = 0;
    loop {
        place += 1;
        match (ones.next(), others.next()) {
            (None, None) => return None,
            (a, b) if a == b => {}
            (a, b) => {
                let column = first_column(a.unwrap_or(b""), b.unwrap_or(b""));
                return Some((place, shown(a, column), shown(b, column)));
            }
        }
    }
}

/// The lines of an output, each with its newline.
fn lines(output: &[u8]) -> impl Iterator<Item = &[u8]> {
    output.split_inclusive(|octet| *octet == b'\n')
}

/// The first place at which two lines differ.
fn first_column(one: &[u8], other: &[u8]) -> usize {
    one.iter().zip(other).take_while(|(a, b)| a == b).count()
}

/// A line for a report: without its newline, and if it is long, the part around a place.
fn shown(line: Option<&[u8]>, column: usize) -> String {
    let Some(line) = line else {
        return "(no line)".to_string();
    };
    let (text, newline) = match line.strip_suffix(b"\n") {
        Some(text) => (text, ""),
        None => (line, " (no newline)"),
    };
    if text.len() <= MOST_SHOWN {
        return format!("{}{newline}", String::from_utf8_lossy(text));
    }
    let from = column.saturating_sub(40).min(text.len() - MOST_SHOWN / 2);
    let part = &text[from..text.len().min(from + MOST_SHOWN)];
    format!("{} (characters {} on of {}){newline}", String::from_utf8_lossy(part), from + 1, text.len())
}

#[cfg(test)]
mod tests {
    use super::*;

    #[test]
    fn the_first_differing_line_is_found() {
        assert_eq!(first_difference(b"0 0\n1 0\n", b"0 0\n1 0\n"), None);
        assert_eq!(first_difference(b"0 0\n1 0\n", b"0 0\n1 21\n"), Some((2, "1 0".to_string(), "1 21".to_string())));
        assert_eq!(first_difference(b"0 0\n", b""), Some((1, "0 0".to_string(), "(no line)".to_string())));
        assert_eq!(first_difference(b"0 0", b"0 0\n"), Some((1, "0 0 (no newline)".to_string(), "0 0".to_string())));
    }

    #[test]
    fn long_lines_are_shown_where_they_differ() {
        let one = [b"0 0 ".to_vec(), vec![b'a'; 1000]].concat();
        let other = [b"0 0 ".to_vec(), vec![b'a'; 996], b"bbbb".to_vec()].concat();
        let (_, a, b) = first_difference(&one, &other).expect("they differ");
        assert_ne!(a, b);
    }
}
