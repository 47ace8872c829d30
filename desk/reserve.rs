//! `packdesk reserve PACK QUERY..`: the library's answer to each query, and how it comes about.

use crate::bounds::{self, ClaimUse, Gives};
use crate::claims::argument_name;
use crate::faults;
use crate::findings::{examine, status, Finding, Refusal};
use crate::findings_json::{refusal_json, verdict_json};
use crate::findings_page::{show_refusal, show_verdict};
use crate::input::{read_lines, read_pack, Source};
use crate::json::Json;
use crate::naming::Naming;
use crate::pack::Pack;
use crate::page::{Page, Style};
use crate::quoting::shortened;
use crate::report::{disagreement_json, Disagreement, Misuse, Report, Status};
use crate::words::{capital, listed, shown};
use cerrundix::{Reservation, Verdict};
use std::ffi::OsStr;

/// The explanation of an answer.
enum Explanation<'t> {
    /// Each claim on the predicate; `asked` is the asked argument.
    Claims {
        predicate: String,
        asked: usize,
        uses: Vec<ClaimUse>,
    },
    Query(Refusal<'t>),
    /// The pack is refused, and so is every query.
    Pack,
}

/// A query, the library's answer to it, and its explanation.
struct Answer<'t> {
    query: &'t [u8],
    library: Reservation,
    explanation: Result<Explanation<'t>, Disagreement>,
}

pub fn run(operands: &[&OsStr]) -> Result<Report, Misuse> {
    let source = read_pack(operands[0])?;
    let queries = read_lines(&operands[1..])?;
    let verdict = cerrundix::check(&source.text);
    let reservations = queries.iter().map(|query| cerrundix::reserve(&source.text, query)).collect();
    Ok(report(&source, &verdict, &queries, reservations))
}

pub fn report(source: &Source, verdict: &Verdict, queries: &[Vec<u8>], reservations: Vec<Reservation>) -> Report {
    let finding = examine(source, verdict);
    let answered = queries.iter().zip(reservations);
    let answers: Vec<Answer> = answered
        .map(|(query, library)| Answer { query, explanation: explain(&finding, query, &library), library })
        .collect();
    let mut page = Page::default();
    show_verdict(&mut page, source, verdict);
    let mut json = verdict_json("reserve", source, verdict);
    match &finding {
        Ok(Finding::Accepted(_)) => {}
        Ok(Finding::Refused(refusal)) => {
            show_refusal(&mut page, refusal);
            json = json.with("refusal", refusal_json(refusal));
        }
        Err(disagreement) => disagreement.show(&mut page, 0),
    }
    let mut worst = status(verdict, &finding);
    for answer in &answers {
        page.blank();
        show(&mut page, answer);
        worst = worst.max(answer.status());
    }
    let json = json.with("answers", Json::List(answers.iter().map(answer_json).collect()));
    let json = json.with("disagreement", disagreement_json(finding.as_ref().err()));
    Report { page, json, status: worst }
}

fn explain<'t>(
    finding: &Result<Finding, Disagreement>,
    query: &'t [u8],
    library: &Reservation,
) -> Result<Explanation<'t>, Disagreement> {
    match (finding, library) {
        (Ok(Finding::Accepted(pack)), Reservation::Refused { number }) => refused(pack, query, *number),
        (Ok(Finding::Accepted(pack)), _) => by_claims(pack, query, library),
        (Ok(Finding::Refused(refusal)), Reservation::Refused { number }) if *number == refusal.number => {
            Ok(Explanation::Pack)
        }
        (Ok(Finding::Refused(_)), _) => {
            Disagreement::that("The pack is refused, and the query is not refused with its number.")
        }
        (Err(_), _) => Disagreement::that("The pack's own verdict could not be confirmed."),
    }
}

fn refused<'t>(pack: &Pack, query: &'t [u8], number: u8) -> Result<Explanation<'t>, Disagreement> {
    let Some(fault) = faults::of_query(number, pack, query) else {
        return Disagreement::that(format!(
            "The library refuses the query with {number}; the desk finds no such fault in it."
        ));
    };
    Ok(Explanation::Query(Refusal::of(number, None, query, fault)))
}

fn by_claims<'t>(pack: &Pack, query: &'t [u8], library: &Reservation) -> Result<Explanation<'t>, Disagreement> {
    let predicate = pack.declared(&Naming::of_query(query));
    let read = predicate.and_then(|predicate| bounds::read_query(predicate, query).map(|read| (predicate, read)));
    let Some((predicate, read)) = read else {
        return Disagreement::that("The library answers the query; the desk cannot read it.");
    };
    let uses = bounds::work_out(predicate, &read);
    bounds::compare(library, &bounds::answer(&uses))?;
    Ok(Explanation::Claims { predicate: predicate.indicator(), asked: read.asked, uses })
}

impl Answer<'_> {
    /// No bound and impossible are answers; only a refused query counts as refused.
    fn status(&self) -> Status {
        match (&self.explanation, &self.library) {
            (Err(_), _) => Status::Disagreement,
            (Ok(_), Reservation::Refused { .. }) => Status::Refused,
            (Ok(_), _) => Status::Accepted,
        }
    }
}

// ---------------------------------------------------------------------------------------------------------------
// The page.

fn show(page: &mut Page, answer: &Answer) {
    let (style, outcome) = match answer.library {
        Reservation::Bound { size, .. } => (Style::Good, format!("at most {size}")),
        Reservation::NoBound => (Style::Strong, "no bound".to_string()),
        Reservation::Impossible { .. } => (Style::Strong, "impossible".to_string()),
        Reservation::Refused { number } => (Style::Bad, format!("refused ({number})")),
    };
    page.heading(&shortened(answer.query), style, &outcome);
    match &answer.explanation {
        Ok(Explanation::Claims { predicate, asked, uses }) => {
            if uses.is_empty() {
                page.item(2, &format!("There are no claims on {predicate}."));
            }
            for sentence in claim_sentences(predicate, &argument_name(*asked), &answer.library, uses) {
                page.item(2, &sentence);
            }
        }
        Ok(Explanation::Query(refusal)) => show_refusal(page, refusal),
        Ok(Explanation::Pack) => page.item(2, "The pack is refused, so no query can be answered by it."),
        Err(disagreement) => disagreement.show(page, 2),
    }
}

/// A sentence for the claim that decides, then one for each other claim.
fn claim_sentences(predicate: &str, asked: &str, library: &Reservation, uses: &[ClaimUse]) -> Vec<String> {
    let decides = |used: &&ClaimUse| match library {
        Reservation::Bound { claim, .. } | Reservation::Impossible { claim } => used.claim == usize::from(*claim),
        _ => false,
    };
    let (first, others): (Vec<&ClaimUse>, Vec<&ClaimUse>) = uses.iter().partition(decides);
    let called = |used: &ClaimUse| format!("claim {} on {predicate} ({})", used.claim, used.inequality);
    let deciding = first.iter().map(|used| deciding_sentence(&called(used), asked, used));
    deciding.chain(others.iter().map(|used| other_sentence(&capital(&called(used)), used))).collect()
}

fn deciding_sentence(claim: &str, asked: &str, used: &ClaimUse) -> String {
    match &used.gives {
        Gives::Usable { working, numerator, divisor, left_out } if *numerator >= 0 => {
            let bound = numerator / divisor;
            let numerator_is = format!("the numerator is {working}{}", in_brackets(left_out));
            let division = format!("{numerator} / {divisor} rounded down is {bound}");
            format!("By {claim}, {asked} is at most {bound}: {numerator_is}, the divisor {divisor}, and {division}.")
        }
        Gives::Usable { working, left_out, .. } => {
            let unknown = in_brackets(left_out);
            format!(
                "By {claim} there is no such fact: the numerator is {working}{unknown}, below 0, whatever {asked} is."
            )
        }
        Gives::Nothing { why } => format!("By {claim}, though {why}."),
    }
}

/// Why sizes that are unknown are not in the working.
fn in_brackets(left_out: &[String]) -> String {
    match left_out {
        [] => String::new(),
        _ => format!(" (with {}, unknown, taken as 0)", listed(left_out, "and")),
    }
}

fn other_sentence(claim: &str, used: &ClaimUse) -> String {
    match &used.gives {
        Gives::Usable { working, numerator, divisor, .. } if *numerator >= 0 => {
            format!("{claim} gives {}: numerator {working}, divisor {divisor}.", numerator / divisor)
        }
        Gives::Usable { working, .. } => format!("{claim} can't be met either: its numerator is {working}."),
        Gives::Nothing { why } => format!("{claim} is not usable: {why}."),
    }
}

// ---------------------------------------------------------------------------------------------------------------
// JSON.

fn answer_json(answer: &Answer) -> Json {
    let (called, number, bound, claim) = match answer.library {
        Reservation::Bound { size, claim } => ("bound", Json::Null, Json::number(size), Json::number(claim)),
        Reservation::NoBound => ("no bound", Json::Null, Json::Null, Json::Null),
        Reservation::Impossible { claim } => ("impossible", Json::Null, Json::Null, Json::number(claim)),
        Reservation::Refused { number } => ("refused", Json::number(number), Json::Null, Json::Null),
    };
    let json = Json::object([
        ("query", Json::text(shown(answer.query))),
        ("answer", Json::text(called)),
        ("number", number),
        ("bound", bound),
        ("claim", claim),
    ]);
    let json = match &answer.explanation {
        Ok(Explanation::Claims { predicate, asked, uses }) => json
            .with("predicate", Json::text(predicate))
            .with("asked", Json::number(*asked))
            .with("claims", Json::List(uses.iter().map(use_json).collect())),
        Ok(Explanation::Query(refusal)) => json.with("refusal", refusal_json(refusal)),
        Ok(Explanation::Pack) | Err(_) => json,
    };
    json.with("disagreement", disagreement_json(answer.explanation.as_ref().err()))
}

fn use_json(used: &ClaimUse) -> Json {
    let json = Json::object([("claim", Json::number(used.claim)), ("reads", Json::text(&used.inequality))]);
    match &used.gives {
        Gives::Usable { numerator, divisor, .. } => json
            .with("usable", Json::Truth(true))
            .with("numerator", Json::number(*numerator))
            .with("divisor", Json::number(*divisor)),
        Gives::Nothing { why } => json.with("usable", Json::Truth(false)).with("why", Json::text(why)),
    }
}

#[cfg(test)]
mod tests {
    use super::*;
    use crate::pack::tests::JOIN;

    const ACCEPTED: Verdict = Verdict::Accepted { lines: 11, rules: 2, multiplier_lines: 4 };

    fn status_of(query: &[u8], reservation: Reservation) -> Status {
        report(&Source::of(JOIN), &ACCEPTED, &[query.to_vec()], vec![reservation]).status
    }

    #[test]
    fn a_right_answer_is_confirmed() {
        assert_eq!(status_of(b"join,3,20,6,-", Reservation::Bound { size: 26, claim: 1 }), Status::Accepted);
        assert_eq!(status_of(b"join,1,-,20,6", Reservation::Impossible { claim: 2 }), Status::Accepted);
        assert_eq!(status_of(b"join,3,20,-,-", Reservation::NoBound), Status::Accepted);
        assert_eq!(status_of(b"join,3,20,6,5", Reservation::Refused { number: 18 }), Status::Refused);
    }

    #[test]
    fn a_wrong_answer_is_a_disagreement() {
        assert_eq!(status_of(b"join,3,20,6,-", Reservation::Bound { size: 27, claim: 1 }), Status::Disagreement);
        assert_eq!(status_of(b"join,3,20,6,5", Reservation::NoBound), Status::Disagreement);
        for number in 0..=40 {
            let refused = Reservation::Refused { number };
            assert_eq!(status_of(b"join,3,20,6,-", refused), Status::Disagreement, "number {number}");
        }
    }

    #[test]
    fn a_wrong_count_of_sizes_is_14_and_nothing_else() {
        for query in [&b"join"[..], b"join,3", b"join,3,20,6", b"join,3,20,6,-,-"] {
            for number in 0..=40 {
                let wanted = if number == 14 { Status::Refused } else { Status::Disagreement };
                assert_eq!(status_of(query, Reservation::Refused { number }), wanted, "number {number}");
            }
            assert_eq!(status_of(query, Reservation::NoBound), Status::Disagreement);
        }
    }

    #[test]
    fn a_query_to_a_refused_pack_is_refused_with_its_number() {
        let source = Source::of(b"");
        let refused = Verdict::Refused { number: 3, line: 0 };
        let status_of = |reservation| report(&source, &refused, &[b"k,1,-".to_vec()], vec![reservation]).status;
        assert_eq!(status_of(Reservation::Refused { number: 3 }), Status::Refused);
        assert_eq!(status_of(Reservation::Refused { number: 14 }), Status::Disagreement);
        assert_eq!(status_of(Reservation::NoBound), Status::Disagreement);
    }
}
