//! How a bound comes about. The desk works out for each claim on the predicate whether it is usable, its numerator and
//! its divisor, and compares what follows with the library's answer.

use crate::claims::{argument_name, inequality};
use crate::forms::Sum;
use crate::limits::HIGHEST_SIZE;
use crate::pack::{fields_of, Claim, Predicate};
use crate::report::Disagreement;
use crate::tokens::number;
use crate::words::listed;
use cerrundix::Reservation;

/// A well-formed query of a predicate.
pub struct Query {
    /// The asked argument, counted from 1.
    pub asked: usize,
    /// For each argument its size, or nothing where it is unknown.
    pub sizes: Vec<Option<i64>>,
}

pub fn read_query(predicate: &Predicate, query: &[u8]) -> Option<Query> {
    let fields = fields_of(query);
    let asked = number(fields.get(1)?, 1, predicate.arity as i64).ok()? as usize;
    let sizes: Vec<Option<i64>> = fields[2..]
        .iter()
        .map(|field| match *field {
            b"-" => Some(None),
            size => number(size, 0, HIGHEST_SIZE).ok().map(Some),
        })
        .collect::<Option<_>>()?;
    (sizes.len() == predicate.arity && sizes[asked - 1].is_none()).then_some(Query { asked, sizes })
}

/// What a claim on the predicate gives for a query.
pub struct ClaimUse {
    pub claim: usize,
    pub inequality: String,
    pub gives: Gives,
}

pub enum Gives {
    /// `left_out` are other arguments of unknown size with a number below 0: at their least, 0, the bound is largest.
    Usable {
        working: String,
        numerator: i64,
        divisor: i64,
        left_out: Vec<String>,
    },
    Nothing {
        why: String,
    },
}

/// Each claim in turn.
pub fn work_out(predicate: &Predicate, query: &Query) -> Vec<ClaimUse> {
    let numbered = predicate.claims.iter().enumerate();
    numbered
        .map(|(place, claim)| ClaimUse {
            claim: place + 1,
            inequality: inequality(&claim.numbers),
            gives: use_of(claim, query),
        })
        .collect()
}

fn use_of(claim: &Claim, query: &Query) -> Gives {
    let asked = claim.numbers[query.asked];
    let (obstacles, others): (Vec<usize>, Vec<usize>) =
        unknown_others(query).into_iter().partition(|argument| claim.numbers[*argument] > 0);
    if asked >= 0 {
        let name = argument_name(query.asked);
        return Gives::Nothing { why: format!("its number for {name}, the asked size, is {asked} and not below 0") };
    }
    if !obstacles.is_empty() {
        return Gives::Nothing { why: why_unknown_counts(claim, &obstacles) };
    }
    let mut sum = Sum::empty();
    sum.add(claim.numbers[0], "");
    let mut numerator = claim.numbers[0];
    for (number, size) in claim.numbers[1..].iter().zip(&query.sizes) {
        if let Some(size) = size {
            sum.add(*number, &size.to_string());
            numerator += number * size;
        }
    }
    let left_out = others.into_iter().filter(|argument| claim.numbers[*argument] < 0).map(argument_name).collect();
    Gives::Usable { working: equation(sum.written(), numerator), numerator, divisor: -asked, left_out }
}

/// The arguments of unknown size but for the asked one.
fn unknown_others(query: &Query) -> Vec<usize> {
    let unknown = (1..).zip(&query.sizes).filter(|(argument, size)| size.is_none() && *argument != query.asked);
    unknown.map(|(argument, _)| argument).collect()
}

fn why_unknown_counts(claim: &Claim, obstacles: &[usize]) -> String {
    let names: Vec<String> = obstacles.iter().map(|argument| argument_name(*argument)).collect();
    let numbers: Vec<String> = obstacles.iter().map(|argument| claim.numbers[*argument].to_string()).collect();
    let (names, numbers) = (listed(&names, "and"), listed(&numbers, "and"));
    if obstacles.len() == 1 {
        format!("{names} is unknown, and its number {numbers} is above 0; with {names} known the claim could be used")
    } else {
        format!("{names} are unknown, and their numbers {numbers} are above 0; with them known the claim could be used")
    }
}

/// `20 + 6 = 26`, or a number alone if there is nothing to work out.
fn equation(sum: String, value: i64) -> String {
    if sum == value.to_string() {
        sum
    } else {
        format!("{sum} = {value}")
    }
}

/// The answer that follows: impossible comes before every bound, and of equal bounds the lowest claim is named.
pub fn answer(uses: &[ClaimUse]) -> Reservation {
    let usable = || {
        uses.iter().filter_map(|used| match used.gives {
            Gives::Usable { numerator, divisor, .. } => Some((used.claim as u8, numerator, divisor)),
            Gives::Nothing { .. } => None,
        })
    };
    if let Some((claim, _, _)) = usable().find(|(_, numerator, _)| *numerator < 0) {
        return Reservation::Impossible { claim };
    }
    match usable().map(|(claim, numerator, divisor)| (numerator / divisor, claim)).min() {
        Some((bound, claim)) => Reservation::Bound { size: bound as u64, claim },
        None => Reservation::NoBound,
    }
}

/// What the desk works out is the library's answer.
pub fn compare(library: &Reservation, own: &Reservation) -> Result<(), Disagreement> {
    if library == own {
        return Ok(());
    }
    Disagreement::that(format!("The library answers {}, the desk works out {}.", in_words(library), in_words(own)))
}

fn in_words(answer: &Reservation) -> String {
    match answer {
        Reservation::Bound { size, claim } => format!("at most {size} by claim {claim}"),
        Reservation::NoBound => "no bound".to_string(),
        Reservation::Impossible { claim } => format!("impossible by claim {claim}"),
        Reservation::Refused { number } => format!("refused ({number})"),
    }
}

#[cfg(test)]
mod tests {
    use super::*;
    use crate::naming::Naming;
    use crate::pack::{lines_of, tests::JOIN, Pack};

    fn answered(text: &[u8], query: &[u8]) -> Reservation {
        let pack = Pack::read(&lines_of(text)).ok().unwrap();
        let predicate = pack.declared(&Naming::of_query(query)).unwrap();
        answer(&work_out(predicate, &read_query(predicate, query).unwrap()))
    }

    #[test]
    fn the_answers_are_document_01s() {
        assert_eq!(answered(JOIN, b"join,3,20,6,-"), Reservation::Bound { size: 26, claim: 1 });
        assert_eq!(answered(JOIN, b"join,1,-,20,6"), Reservation::Impossible { claim: 2 });
        assert_eq!(answered(JOIN, b"join,3,20,-,-"), Reservation::NoBound);
        assert_eq!(answered(b"P,k,1,G\nC,k,7,-2\nE\n", b"k,1,-"), Reservation::Bound { size: 3, claim: 1 });
    }

    #[test]
    fn the_smallest_bound_of_the_lowest_claim_counts() {
        let text = b"P,k,2,G\nC,k,9,0,-1\nC,k,8,0,-2\nC,k,4,0,-1\nE\n";
        assert_eq!(answered(text, b"k,2,5,-"), Reservation::Bound { size: 4, claim: 2 });
    }

    #[test]
    fn a_query_that_is_none_is_not_read() {
        let pack = Pack::read(&lines_of(JOIN)).ok().unwrap();
        for query in [&b"join"[..], b"join,3", b"join,3,1,2", b"join,4,1,2,-", b"join,3,1,2,3", b"join,3,x,2,-"] {
            assert!(read_query(&pack.predicates[0], query).is_none());
        }
    }

    #[test]
    fn any_other_answer_is_a_disagreement() {
        let right = Reservation::Bound { size: 26, claim: 1 };
        assert_eq!(compare(&right, &Reservation::Bound { size: 26, claim: 1 }), Ok(()));
        for wrong in [
            Reservation::Bound { size: 25, claim: 1 },
            Reservation::Bound { size: 26, claim: 2 },
            Reservation::NoBound,
            Reservation::Impossible { claim: 1 },
            Reservation::Refused { number: 14 },
        ] {
            assert!(compare(&wrong, &right).is_err());
            assert!(compare(&right, &wrong).is_err());
        }
    }
}
