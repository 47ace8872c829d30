//! The page that is printed for people: headings, wrapped sentences, quoted lines, rows; in colour or plain.

use crate::quoting::window;
use std::ops::Range;

#[derive(Clone, Copy)]
pub enum Style {
    Plain,
    Strong,
    Good,
    Bad,
}

impl Style {
    /// The terminal's code that begins the style.
    fn code(self) -> &'static str {
        match self {
            Style::Plain => "",
            Style::Strong => "\x1b[1m",
            Style::Good => "\x1b[1;32m",
            Style::Bad => "\x1b[1;31m",
        }
    }
}

/// Sentences are wrapped at this column.
const COLUMNS: usize = 92;

#[derive(Default)]
pub struct Page {
    parts: Vec<(Style, String)>,
}

impl Page {
    fn add(&mut self, style: Style, text: impl Into<String>) {
        self.parts.push((style, text.into()));
    }

    pub fn blank(&mut self) {
        self.add(Style::Plain, "\n");
    }

    /// What is spoken of and what came of it: `packs/join.pack: accepted`.
    pub fn heading(&mut self, subject: &str, style: Style, outcome: &str) {
        self.add(Style::Strong, subject);
        self.add(Style::Plain, ": ");
        self.add(style, outcome);
        self.blank();
    }

    /// A sentence or two, wrapped, after so many spaces.
    pub fn sentence(&mut self, indent: usize, text: &str) {
        self.add(Style::Plain, wrapped(indent, indent, text));
    }

    /// As a sentence, with the rows after the first indented further.
    pub fn item(&mut self, indent: usize, text: &str) {
        self.add(Style::Plain, wrapped(indent, indent + 2, text));
    }

    /// Text that is printed as it is, without wrapping.
    pub fn exactly(&mut self, text: &str) {
        self.add(Style::Plain, text);
    }

    /// What to mend.
    pub fn mend(&mut self, indent: usize, text: &str) {
        let rows = wrapped(indent, indent, &format!("To mend: {text}"));
        let label = indent + "To mend:".len();
        self.add(Style::Strong, &rows[..label]);
        self.add(Style::Plain, &rows[label..]);
    }

    /// A label and what it is a label of, in two columns.
    pub fn row(&mut self, label: &str, style: Style, text: &str) {
        self.add(Style::Plain, format!("  {label:<14}"));
        self.add(style, text);
        self.blank();
    }

    /// A line with its number (none for what has none), and the mark under it.
    pub fn quote(&mut self, number: Option<usize>, line: &[u8], mark: Option<&Range<usize>>) {
        let window = window(line, mark.unwrap_or(&(0..1)));
        let label = number.map_or(String::new(), |number| number.to_string());
        self.blank();
        self.add(Style::Plain, format!("{label:>5} | {}", window.text).trim_end());
        self.blank();
        if mark.is_some() {
            self.add(Style::Plain, format!("{:>5} | {}", "", " ".repeat(window.mark.start)));
            self.add(Style::Bad, "^".repeat(window.mark.len()));
            self.blank();
        }
        self.blank();
    }

    pub fn written(&self, in_colour: bool) -> String {
        let mut text = String::new();
        for (style, part) in &self.parts {
            match style.code() {
                code if in_colour && !code.is_empty() => text += &format!("{code}{part}\x1b[0m"),
                _ => text += part,
            }
        }
        text
    }
}

/// The words of a text in rows of at most `COLUMNS`, with a line end after each row. A longer word has a row of its own.
fn wrapped(first_indent: usize, indent: usize, text: &str) -> String {
    let mut rows = String::new();
    let mut row = " ".repeat(first_indent);
    let mut is_fresh = true;
    for word in text.split(' ') {
        if !is_fresh && row.chars().count() + 1 + word.chars().count() > COLUMNS {
            rows += &row;
            rows.push('\n');
            row = " ".repeat(indent);
            is_fresh = true;
        }
        if !is_fresh {
            row.push(' ');
        }
        row += word;
        is_fresh = false;
    }
    rows + &row + "\n"
}

#[cfg(test)]
mod tests {
    use super::*;

    #[test]
    fn sentences_are_wrapped_between_words() {
        let text = "word ".repeat(40);
        let rows = wrapped(2, 4, text.trim());
        assert!(rows.lines().all(|row| row.len() <= COLUMNS));
        assert!(rows.starts_with("  word") && rows.lines().nth(1).unwrap().starts_with("    word"));
        assert_eq!(rows.split_whitespace().count(), 40);
        assert_eq!(wrapped(0, 0, &"a".repeat(200)).lines().count(), 1);
    }

    #[test]
    fn colour_is_written_only_where_it_is_wanted() {
        let mut page = Page::default();
        page.heading("a", Style::Good, "accepted");
        assert_eq!(page.written(false), "a: accepted\n");
        assert_eq!(page.written(true), "\x1b[1ma\x1b[0m: \x1b[1;32maccepted\x1b[0m\n");
    }
}
