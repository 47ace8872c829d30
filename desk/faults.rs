//! What is wrong with a line, a query, a term or a clause text that the library refuses, and what to mend. For each number
//! there is one explanation, which looks for the fault that the number names; where it finds none, the desk and the library
//! disagree.

mod bytes;
pub mod clause_limits;
mod counts;
mod declarations;
mod facts;
mod fields;
mod heads;
mod names;
mod numbers;
mod order;
pub mod subset;
mod terms;
mod text;

use crate::candidates::Candidate;
use crate::facts::FactJudgement;
use crate::heads::HeadlessPredicate;
use crate::pack::{fields_of, Pack};
use clause_limits::ClauseLimits;
use std::ops::Range;
pub use text::{of_text, LastLine, Length};

pub struct Fault {
    /// The bytes at fault; where something is missing, the one place where it is due.
    pub mark: Range<usize>,
    pub wrong: String,
    pub mend: String,
    pub detail: Option<Detail>,
}

/// What is shown beside the sentences: how a fact that fails a claim is judged (22), which predicates head no rule (24), what
/// may stand at a place of a clause text (25), or which limits a clause passes (26).
pub enum Detail {
    Fact(FactJudgement),
    Heads(Vec<HeadlessPredicate>),
    Candidates(Vec<Candidate>),
    Limits(ClauseLimits),
}

impl Fault {
    fn at(mark: Range<usize>, wrong: impl Into<String>, mend: impl Into<String>) -> Option<Fault> {
        Some(Fault { mark, wrong: wrong.into(), mend: mend.into(), detail: None })
    }
}

/// A refusal of a line, which comes after the lines seen so far. 13 has an explanation of its own (residuals.rs).
pub fn of_line(number: u8, seen: &Pack, line: &[u8]) -> Option<Fault> {
    match number {
        4 => bytes::explain("line", line),
        5 => order::explain(seen, line),
        7 => names::of_line(line),
        8 => declarations::of_line(seen, line),
        9 => fields::of_line(seen, line),
        10 => numbers::of_line(line),
        11 => terms::of_line(line),
        12 => counts::of_line(seen, line),
        20 => facts::of_ruled_predicate(seen, line),
        21 => facts::of_variables(seen, line),
        22 => facts::of_claims(seen, line),
        24 => heads::of_end(seen, line),
        _ => None,
    }
}

/// A refusal of a query to an accepted pack.
pub fn of_query(number: u8, pack: &Pack, query: &[u8]) -> Option<Fault> {
    match number {
        4 => bytes::explain("query", query),
        14 => declarations::of_query(pack, query),
        16 => numbers::of_asked_argument(pack, query),
        17 => numbers::of_size(query),
        18 => numbers::of_asked_size(query),
        _ => None,
    }
}

/// A refusal of a term that is to be measured.
pub fn of_term(number: u8, term: &[u8]) -> Option<Fault> {
    match number {
        4 => bytes::explain("term", term),
        11 => terms::explain("The term", term, 0),
        19 => terms::of_variable(term),
        _ => None,
    }
}

/// Where a field stands in its line, the first being 0; the place after the line's end if there are not so many. An
/// empty field is marked at the comma or the line's end that comes where it should be.
fn place_of_field(line: &[u8], field: usize) -> Range<usize> {
    let mut start = 0;
    for (place, bytes) in fields_of(line).into_iter().enumerate() {
        if place == field {
            return start..start + bytes.len().max(1);
        }
        start += bytes.len() + 1;
    }
    line.len()..line.len() + 1
}
