//! Clause text as makers send it, read by the desk itself: its tokens, its clauses, the lines that they become and the
//! limits that they pass. What comes of it is compared with the library's import at every run (import.rs).

pub mod importing;
pub mod limits;
pub mod reading;
pub mod scanning;
pub mod writing;

use std::ops::Range;

/// A line of a text, counted from 1, and where it starts.
#[derive(Debug, PartialEq)]
pub struct TextLine<'t> {
    pub number: usize,
    pub start: usize,
    pub bytes: &'t [u8],
}

/// The line in which a byte stands; the text's end belongs to what follows the last line end.
pub fn line_at(text: &[u8], byte: usize) -> TextLine<'_> {
    let before = &text[..byte];
    let start = before.iter().rposition(|byte| *byte == b'\n').map_or(0, |end| end + 1);
    let length = text[start..].iter().position(|byte| *byte == b'\n').unwrap_or(text.len() - start);
    let number = before.iter().filter(|byte| **byte == b'\n').count() + 1;
    TextLine { number, start, bytes: &text[start..start + length] }
}

/// A clause: its head, then its subgoals.
#[derive(Debug, PartialEq)]
pub struct Clause<'t> {
    pub goals: Vec<Goal<'t>>,
}

/// A head or a subgoal. Its terms stand one after the other, each symbol before its arguments, so that terms of any depth
/// are read and written without recursion.
#[derive(Debug, PartialEq)]
pub struct Goal<'t> {
    pub name: Word<'t>,
    pub arity: usize,
    pub nodes: Vec<Node<'t>>,
    /// Where it ends in the text, its closing bracket included.
    pub end: usize,
}

/// A run of bytes, and where it starts in the text.
#[derive(Clone, Copy, Debug, PartialEq)]
pub struct Word<'t> {
    pub bytes: &'t [u8],
    pub start: usize,
}

impl Word<'_> {
    pub fn place(&self) -> Range<usize> {
        self.start..self.start + self.bytes.len()
    }
}

/// A variable or a symbol of a term.
#[derive(Debug, PartialEq)]
pub struct Node<'t> {
    pub word: Word<'t>,
    pub kind: NodeKind,
    /// Whether it is an argument of the head or subgoal itself, and not one inside another term.
    pub is_argument: bool,
}

#[derive(Clone, Copy, Debug, PartialEq)]
pub enum NodeKind {
    Symbol {
        arity: usize,
    },
    Variable,
    /// `_` by itself, each a variable of its own.
    Anonymous,
}

impl<'t> Clause<'t> {
    /// The bytes of its head in the text.
    pub fn head(&self) -> Range<usize> {
        self.goals[0].name.start..self.goals[0].end
    }

    pub fn nodes(&self) -> impl Iterator<Item = &Node<'t>> {
        self.goals.iter().flat_map(|goal| &goal.nodes)
    }
}

#[cfg(test)]
mod tests {
    use super::*;

    #[test]
    fn a_byte_stands_in_one_line() {
        let line = |byte| line_at(b"ab\n\nc", byte);
        assert_eq!(line(0), TextLine { number: 1, start: 0, bytes: b"ab" });
        assert_eq!(line(2), TextLine { number: 1, start: 0, bytes: b"ab" });
        assert_eq!(line(3), TextLine { number: 2, start: 3, bytes: b"" });
        assert_eq!(line(5), TextLine { number: 3, start: 4, bytes: b"c" });
        assert_eq!(line_at(b"a\n", 2), TextLine { number: 2, start: 2, bytes: b"" });
        assert_eq!(line_at(b"", 0), TextLine { number: 1, start: 0, bytes: b"" });
    }
}
