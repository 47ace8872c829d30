//! A line as it is quoted: escaped, cut to a window if it is long, with a mark under the bytes at fault.

use crate::words::{shown, shown_byte};
use std::ops::Range;

/// What is quoted at most, in columns, and how much of it before the mark.
const COLUMNS: usize = 84;
const BEFORE_MARK: usize = 40;

/// A line's text for one row of the page, and the columns of the mark under it.
#[derive(Debug, PartialEq)]
pub struct Window {
    pub text: String,
    pub mark: Range<usize>,
}

/// The part of the bytes around the mark, which may reach one byte past the end.
pub fn window(bytes: &[u8], mark: &Range<usize>) -> Window {
    let columns_of =
        |range: Range<usize>| shown(&bytes[range.start.min(bytes.len())..range.end.min(bytes.len())]).len();
    let first = first_byte(bytes, mark.start);
    let mut text = if first > 0 { "...".to_string() } else { String::new() };
    let start = text.len() + columns_of(first..mark.start);
    let length = (columns_of(mark.clone()) + usize::from(mark.end > bytes.len())).max(1);
    for (place, byte) in bytes.iter().enumerate().skip(first) {
        if text.len() >= COLUMNS && place + 1 < bytes.len() {
            text += "...";
            break;
        }
        text += &shown_byte(*byte);
    }
    let end = (start + length).min(text.len().max(start + 1));
    Window { text, mark: start..end }
}

/// Where the window begins: at the front if all of the line fits, else as many columns before the mark as there may be.
fn first_byte(bytes: &[u8], mark: usize) -> usize {
    if shown(bytes).len() <= COLUMNS {
        return 0;
    }
    let mut columns = 0;
    let before = bytes[..mark.min(bytes.len())].iter().rev().take_while(|byte| {
        columns += shown_byte(**byte).len();
        columns <= BEFORE_MARK
    });
    mark.min(bytes.len()) - before.count()
}

/// The start of a query or a term, for a heading.
pub fn shortened(bytes: &[u8]) -> String {
    match bytes {
        [] => "(empty)".to_string(),
        _ => window(bytes, &(0..1)).text,
    }
}

#[cfg(test)]
mod tests {
    use super::*;

    #[test]
    fn a_short_line_is_quoted_whole() {
        assert_eq!(window(b"C,trial,0,1", &(2..7)), Window { text: "C,trial,0,1".to_string(), mark: 2..7 });
        assert_eq!(window(b"C,k", &(3..4)), Window { text: "C,k".to_string(), mark: 3..4 });
        assert_eq!(window(b"", &(0..1)), Window { text: String::new(), mark: 0..1 });
    }

    #[test]
    fn an_escaped_byte_moves_the_mark() {
        assert_eq!(window(b"a\tb\t", &(1..2)), Window { text: "a\\tb\\t".to_string(), mark: 1..3 });
        assert_eq!(window(b"\x00\x01", &(1..2)), Window { text: "\\x00\\x01".to_string(), mark: 4..8 });
    }

    #[test]
    fn a_long_line_is_cut_around_the_mark() {
        let line = [vec![b'a'; 2000], vec![b'b'; 3], vec![b'c'; 2000]].concat();
        let Window { text, mark } = window(&line, &(2000..2003));
        assert_eq!(&text[mark], "bbb");
        assert!(text.starts_with("...a") && text.ends_with("c...") && text.len() <= COLUMNS + 6);
        let at_end = window(&line, &(4003..4004));
        assert_eq!(at_end.mark.start, at_end.text.len());
        assert!(window(&line, &(1024..4003)).mark.end <= COLUMNS + 6);
        let binary = [0; 1000];
        let at_end = window(&binary, &(1000..1001));
        assert_eq!(at_end.mark.start, at_end.text.len());
        assert_eq!(window(&binary, &(500..501)).mark.len(), 4);
    }
}
