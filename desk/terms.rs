//! Terms: read from the pack's prefix order, or told why a field is none, and written in the usual notation.

use crate::tokens::{is_variable, symbol};
use crate::words::shown;
use std::ops::Range;

#[derive(Debug, PartialEq)]
pub enum Term<'t> {
    Variable(&'t [u8]),
    Symbol { name: &'t [u8], arguments: Vec<Term<'t>> },
}

impl<'t> Term<'t> {
    /// The usual notation: `cons(X,nil)` for `cons/2 X nil/0`.
    pub fn usual(&self) -> String {
        match self {
            Term::Variable(name) => shown(name),
            Term::Symbol { name, arguments } => applied(name, arguments),
        }
    }

    /// The first step of a size, in the order of section 1.4 of document 000: the sum of the arities of the symbols.
    pub fn sum_of_arities(&self) -> usize {
        let mut sum = 0;
        self.walk(&mut |token| {
            if let Token::Symbol(_, arity) = token {
                sum += arity;
            }
        });
        sum
    }

    /// The second step: how often a variable occurs.
    pub fn occurrences(&self, variable: &[u8]) -> usize {
        let mut times = 0;
        self.walk(&mut |token| times += usize::from(token == Token::Variable(variable)));
        times
    }

    /// Hands on each symbol's name and arity and each variable, in the order in which they are written.
    pub fn walk(&self, visit: &mut impl FnMut(Token<'t>)) {
        match self {
            Term::Variable(name) => visit(Token::Variable(name)),
            Term::Symbol { name, arguments } => {
                visit(Token::Symbol(name, arguments.len()));
                for argument in arguments {
                    argument.walk(visit);
                }
            }
        }
    }
}

#[derive(Clone, Copy, PartialEq)]
pub enum Token<'t> {
    Variable(&'t [u8]),
    Symbol(&'t [u8], usize),
}

/// A name with its arguments in brackets, or alone if it has none.
pub fn applied(name: &[u8], arguments: &[Term]) -> String {
    if arguments.is_empty() {
        return shown(name);
    }
    let arguments: Vec<String> = arguments.iter().map(Term::usual).collect();
    format!("{}({})", shown(name), arguments.join(","))
}

/// Why a field is no term, and the bytes of it that show it.
#[derive(Debug, PartialEq)]
pub struct TermFault {
    pub at: Range<usize>,
    pub kind: TermFaultKind,
}

#[derive(Debug, PartialEq)]
pub enum TermFaultKind {
    /// The field is empty.
    Empty,
    /// A space at the field's front or end, or a second one between tokens.
    Space,
    /// The token is neither a variable nor a symbol.
    Token,
    /// The field ends, and the symbol at these bytes has only so many of its terms.
    Unfinished { symbol: Range<usize>, found: usize },
    /// The term is complete before these bytes.
    LeftOver,
}

/// The whole field as one term.
pub fn read_term(field: &[u8]) -> Result<Term<'_>, TermFault> {
    if field.is_empty() {
        return Err(TermFault { at: 0..1, kind: TermFaultKind::Empty });
    }
    let mut reader = TermReader { field, at: Some(0) };
    let next = reader.next_token().expect("a field that is not empty has a token");
    let term = reader.term_from(next)?;
    match reader.next_token() {
        None => Ok(term),
        Some(rest) if rest.is_empty() => Err(TermFault { at: space_before(&rest), kind: TermFaultKind::Space }),
        Some(rest) => Err(TermFault { at: rest.start..field.len(), kind: TermFaultKind::LeftOver }),
    }
}

/// The space that an empty token stands after, or before at the field's front.
fn space_before(token: &Range<usize>) -> Range<usize> {
    let at = token.start.max(1) - 1;
    at..at + 1
}

struct TermReader<'t> {
    field: &'t [u8],
    /// Where the next token starts; none after the last one.
    at: Option<usize>,
}

impl<'t> TermReader<'t> {
    /// The bytes of the next token; tokens are parted by one space.
    fn next_token(&mut self) -> Option<Range<usize>> {
        let start = self.at?;
        let length = self.field[start..].iter().position(|byte| *byte == b' ');
        self.at = length.map(|length| start + length + 1);
        Some(start..length.map_or(self.field.len(), |length| start + length))
    }

    /// The term that starts with this token. A line has at most 1,024 bytes, so terms are nested 256 deep at most.
    fn term_from(&mut self, token: Range<usize>) -> Result<Term<'t>, TermFault> {
        let word = &self.field[token.clone()];
        if word.is_empty() {
            return Err(TermFault { at: space_before(&token), kind: TermFaultKind::Space });
        }
        if is_variable(word) {
            return Ok(Term::Variable(word));
        }
        let Some((name, arity)) = symbol(word) else {
            return Err(TermFault { at: token, kind: TermFaultKind::Token });
        };
        let mut arguments = Vec::new();
        for found in 0..arity {
            let Some(next) = self.next_token() else {
                let end = self.field.len();
                return Err(TermFault { at: end..end + 1, kind: TermFaultKind::Unfinished { symbol: token, found } });
            };
            arguments.push(self.term_from(next)?);
        }
        Ok(Term::Symbol { name, arguments })
    }
}

#[cfg(test)]
mod tests {
    use super::*;

    fn fault(field: &[u8]) -> TermFault {
        read_term(field).expect_err("no term")
    }

    #[test]
    fn terms_are_written_in_the_usual_notation() {
        let usual = |field: &'static str| read_term(field.as_bytes()).unwrap().usual();
        assert_eq!(usual("cons/2 a/0 nil/0"), "cons(a,nil)");
        assert_eq!(usual("f/3 V1 g/1 V2 V2"), "f(V1,g(V2),V2)");
        assert_eq!(usual("X"), "X");
        assert_eq!(usual("nil/0"), "nil");
    }

    #[test]
    fn a_field_that_is_no_term_shows_where() {
        assert_eq!(fault(b""), TermFault { at: 0..1, kind: TermFaultKind::Empty });
        assert_eq!(fault(b"cons/2 X").kind, TermFaultKind::Unfinished { symbol: 0..6, found: 1 });
        assert_eq!(fault(b"f/2 g/1 X").kind, TermFaultKind::Unfinished { symbol: 0..3, found: 1 });
        assert_eq!(fault(b"a/0 a/0"), TermFault { at: 4..7, kind: TermFaultKind::LeftOver });
        assert_eq!(fault(b"f/1  X"), TermFault { at: 3..4, kind: TermFaultKind::Space });
        assert_eq!(fault(b" X"), TermFault { at: 0..1, kind: TermFaultKind::Space });
        assert_eq!(fault(b"X "), TermFault { at: 1..2, kind: TermFaultKind::Space });
        assert_eq!(fault(b"f/1 nil"), TermFault { at: 4..7, kind: TermFaultKind::Token });
    }

    #[test]
    fn the_deepest_term_of_a_line_is_read() {
        let deepest = [b"f/1 ".repeat(255), b"a/0".to_vec()].concat();
        assert!(read_term(&deepest).is_ok());
    }
}
