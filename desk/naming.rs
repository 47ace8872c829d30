//! Which predicate a line or a query names: it goes by name and arity, and the arity is told by the fields.

use crate::letters::{numbered, Letter};
use crate::limits::HIGHEST_ARITY;
use crate::pack::fields_of;
use crate::tokens::number;
use crate::words::shown;

/// What names a predicate.
#[derive(Clone, Copy, Debug, PartialEq)]
pub enum NamedBy {
    Line(Letter),
    Query,
}

/// A name, and the arity that comes with it. There is none where a line or a query has too few fields for a predicate
/// without arguments, or where a `P` line's arity is missing or malformed.
#[derive(Clone, Copy, Debug, PartialEq)]
pub struct Naming<'t> {
    pub by: NamedBy,
    pub name: &'t [u8],
    pub arity: Option<usize>,
}

impl NamedBy {
    /// The field that has the name, counted from 0.
    pub fn name_field(self) -> usize {
        match self {
            NamedBy::Line(_) => 1,
            NamedBy::Query => 0,
        }
    }

    /// How many fields there are besides those of the arguments.
    pub fn fields_besides(self) -> usize {
        match self {
            NamedBy::Line(Letter::Claim) => 3,
            NamedBy::Line(_) | NamedBy::Query => 2,
        }
    }

    /// How it is written for a predicate of this name and arity: `C,join,c0,c1,c2,c3` or `join,i,s1,s2,s3`.
    pub fn form(self, name: &str, arity: usize) -> String {
        match self {
            NamedBy::Line(letter @ Letter::Claim) => format!("{},{name}{}", letter.written(), numbered('c', 0, arity)),
            NamedBy::Line(letter) => format!("{},{name}{}", letter.written(), numbered('t', 1, arity)),
            NamedBy::Query => format!("{name},i{}", numbered('s', 1, arity)),
        }
    }
}

impl<'t> Naming<'t> {
    /// Nothing if the line's letter takes no name, or the name is missing.
    pub fn of_line(line: &'t [u8]) -> Option<Naming<'t>> {
        Naming::of_fields(&fields_of(line))
    }

    pub fn of_fields(fields: &[&'t [u8]]) -> Option<Naming<'t>> {
        let letter = Letter::of(fields[0]).filter(|letter| letter.takes_a_name())?;
        let (by, name) = (NamedBy::Line(letter), *fields.get(1)?);
        let arity = match letter {
            Letter::Predicate => fields.get(2).and_then(|field| declared_arity(field)),
            _ => fields.len().checked_sub(by.fields_besides()),
        };
        Some(Naming { by, name, arity })
    }

    pub fn of_query(query: &'t [u8]) -> Naming<'t> {
        let fields = fields_of(query);
        let arity = fields.len().checked_sub(NamedBy::Query.fields_besides());
        Naming { by: NamedBy::Query, name: fields[0], arity }
    }

    /// Name and arity, `path/3`; the name alone where there is no arity.
    pub fn indicator(&self) -> String {
        match self.arity {
            Some(arity) => format!("{}/{arity}", shown(self.name)),
            None => shown(self.name),
        }
    }
}

/// The arity that a `P` line's third field declares.
pub fn declared_arity(field: &[u8]) -> Option<usize> {
    number(field, 0, HIGHEST_ARITY).ok().map(|arity| arity as usize)
}

#[cfg(test)]
mod tests {
    use super::*;

    #[test]
    fn the_fields_of_a_line_tell_its_arity() {
        let named = |line: &'static str| Naming::of_line(line.as_bytes()).map(|naming| naming.indicator());
        for (line, indicator) in [
            ("P,k,2,R", "k/2"),
            ("P,k,2", "k/2"),
            ("P,k,2,R,x", "k/2"),
            ("P,k", "k"),
            ("P,k,,R", "k"),
            ("P,k,02,R", "k"),
            ("P,k,9,R", "k"),
            ("C,k", "k"),
            ("C,k,7", "k/0"),
            ("C,k,7,1,x", "k/2"),
            ("G,k", "k/0"),
            ("H,k,", "k/1"),
            ("B,k,X,Y,Z,a,b,c,d,e,f", "k/9"),
        ] {
            assert_eq!(named(line).as_deref(), Some(indicator), "{line}");
        }
        for line in ["M,k,1", "E,k", "H", "x,k", ""] {
            assert_eq!(named(line), None, "{line}");
        }
    }

    #[test]
    fn the_fields_of_a_query_tell_its_arity() {
        for (query, indicator) in [("k", "k"), ("", ""), ("k,1", "k/0"), ("k,1,-", "k/1"), ("k,,,", "k/2")] {
            assert_eq!(Naming::of_query(query.as_bytes()).indicator(), indicator, "{query}");
        }
    }

    #[test]
    fn each_is_written_with_its_fields() {
        assert_eq!(NamedBy::Line(Letter::Claim).form("k", 2), "C,k,c0,c1,c2");
        assert_eq!(NamedBy::Line(Letter::Claim).form("k", 0), "C,k,c0");
        assert_eq!(NamedBy::Line(Letter::Head).form("k", 2), "H,k,t1,t2");
        assert_eq!(NamedBy::Line(Letter::Fact).form("k", 0), "G,k");
        assert_eq!(NamedBy::Query.form("k", 2), "k,i,s1,s2");
    }
}
