//! 26: a clause whose lines would pass a limit of packs. Which clause, which limits, and by what.

use super::{Detail, Fault};
use crate::clauses::importing::LimitedClause;
use crate::clauses::line_at;
use crate::findings::Refusal;
use crate::words::{count, quoted, shown};

/// A clause that passes limits, for the page and for JSON.
pub struct ClauseLimits {
    pub clause: usize,
    /// The line on which it starts, and its head as it is written.
    pub line: usize,
    pub head: String,
    pub limits: Vec<LimitPassed>,
}

/// What is counted, how many there are and how many there may be.
pub struct LimitPassed {
    pub counted: &'static str,
    pub found: usize,
    pub highest: usize,
}

/// Refuses the clause of this number.
pub fn explain<'t>(text: &'t [u8], number: usize, limited: &LimitedClause) -> Refusal<'t> {
    let place = limited.first.place.clone();
    let quote = line_at(text, place.start);
    let mark = place.start - quote.start..place.end - quote.start;
    let limits = limits_of(text, number, limited);
    let said: Vec<&str> = limited.passed().map(|passed| passed.said.as_str()).collect();
    let wrong = format!(
        "Clause {number}, {}, which starts on line {}, passes {}. {}",
        quoted(&text[limited.clause.head()]),
        limits.line,
        count(said.len(), "limit"),
        said.join(" ")
    );
    let mut mends: Vec<&str> = limited.passed().map(|passed| passed.limit.mend()).collect();
    mends.dedup();
    let fault = Fault { mark, wrong, mend: mends.join(" "), detail: Some(Detail::Limits(limits)) };
    Refusal::of(26, Some(quote.number), quote.bytes, fault)
}

fn limits_of(text: &[u8], number: usize, limited: &LimitedClause) -> ClauseLimits {
    let head = limited.clause.head();
    let limits = limited.passed().map(|passed| LimitPassed {
        counted: passed.limit.counted(),
        found: passed.found,
        highest: passed.limit.highest(),
    });
    ClauseLimits {
        clause: number,
        line: line_at(text, head.start).number,
        head: shown(&text[head]),
        limits: limits.collect(),
    }
}
