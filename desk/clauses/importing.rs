//! The import of a clause text as the desk works it out: clause by clause, up to the first that is at fault.

use super::limits::{passed, PassedLimit};
use super::reading::{ClauseReader, Misplaced};
use super::{writing, Clause};
use crate::pack::lines_of;
use std::ops::Range;

/// The clauses that can be written, their lines, each with its byte 10, and what came after them.
pub struct OwnImport<'t> {
    pub text: &'t [u8],
    pub clauses: Vec<WrittenClause>,
    written: Vec<u8>,
    pub end: TextEnd<'t>,
}

/// The line of the text on which a clause starts, and where its own lines stand among all.
pub struct WrittenClause {
    pub line: usize,
    place: Range<usize>,
}

pub enum TextEnd<'t> {
    /// The text is read to its end.
    Reached,
    Misplaced(Misplaced),
    Limited(LimitedClause<'t>),
}

/// A clause and the limits that it passes, at least one.
pub struct LimitedClause<'t> {
    pub clause: Clause<'t>,
    pub first: PassedLimit,
    pub others: Vec<PassedLimit>,
}

impl<'t> OwnImport<'t> {
    pub fn of(text: &'t [u8]) -> OwnImport<'t> {
        let mut reader = ClauseReader::of(text);
        let (mut clauses, mut written) = (Vec::new(), Vec::new());
        let mut line = LineCounter { text, line: 1, at: 0 };
        let end = loop {
            let clause = match reader.next_clause() {
                Ok(Some(clause)) => clause,
                Ok(None) => break TextEnd::Reached,
                Err(misplaced) => break TextEnd::Misplaced(misplaced),
            };
            let lines = writing::lines_of(&clause);
            let mut passed = passed(&clause, &lines).into_iter();
            if let Some(first) = passed.next() {
                break TextEnd::Limited(LimitedClause { clause, first, others: passed.collect() });
            }
            let start = written.len();
            for line in lines {
                written.extend(line);
                written.push(b'\n');
            }
            clauses.push(WrittenClause { line: line.of(clause.head().start), place: start..written.len() });
        };
        OwnImport { text, clauses, written, end }
    }

    /// What the buffer begins with: nothing of a refused text.
    pub fn bytes(&self) -> &[u8] {
        match self.end {
            TextEnd::Reached => &self.written,
            _ => &[],
        }
    }

    /// The lines of a clause.
    pub fn lines_of(&self, clause: &WrittenClause) -> Vec<&[u8]> {
        lines_of(&self.written[clause.place.clone()])
    }

    /// The four numbers of the call, if the buffer is long enough.
    pub fn numbers(&self) -> [u64; 4] {
        let (number, line, rule) = match &self.end {
            TextEnd::Reached => (0, self.clauses.len(), self.bytes().len()),
            TextEnd::Misplaced(at) => (25, at.token.as_ref().map_or(self.text.len(), |token| token.place.start), 0),
            TextEnd::Limited(_) => (26, self.clauses.len() + 1, 0),
        };
        [number, line as u64, rule as u64, 0]
    }
}

/// Counts lines up to places that only move forward, so that each byte is looked at once.
struct LineCounter<'t> {
    text: &'t [u8],
    line: usize,
    at: usize,
}

impl LineCounter<'_> {
    fn of(&mut self, place: usize) -> usize {
        self.line += self.text[self.at..place].iter().filter(|byte| **byte == b'\n').count();
        self.at = place;
        self.line
    }
}

impl LimitedClause<'_> {
    pub fn passed(&self) -> impl Iterator<Item = &PassedLimit> {
        std::iter::once(&self.first).chain(&self.others)
    }
}
