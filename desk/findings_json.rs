//! A finding as JSON; docs/packdesk.1 says what the keys mean.

use crate::candidates::Candidate;
use crate::claims::inequality;
use crate::facts::{judge, FactJudgement, FailedClaim};
use crate::faults::clause_limits::{ClauseLimits, LimitPassed};
use crate::faults::Detail;
use crate::findings::{numbers_of, Refusal, Working};
use crate::forms::Form;
use crate::heads::{HeadlessPredicate, IdleClaim, NearHead};
use crate::input::Source;
use crate::json::Json;
use crate::pack::{Fact, Pack, Predicate};
use crate::residuals::Judgement;
use crate::words::shown;
use cerrundix::Verdict;

/// The entries that every answer on a pack begins with.
pub fn verdict_json(command: &str, source: &Source, verdict: &Verdict) -> Json {
    let is_accepted = matches!(verdict, Verdict::Accepted { .. });
    Json::object([
        ("command", Json::text(command)),
        ("pack", Json::text(&source.shown)),
        ("answer", Json::text(if is_accepted { "accepted" } else { "refused" })),
        ("numbers", Json::List(numbers_of(verdict).map(Json::number).into())),
    ])
}

pub fn claims_json(pack: &Pack) -> Json {
    let of_predicate = |predicate: &Predicate| -> Vec<Json> {
        let numbered = predicate.claims.iter().enumerate();
        numbered
            .map(|(place, claim)| {
                Json::object([
                    ("predicate", Json::text(predicate.indicator())),
                    ("kind", Json::text(if predicate.is_given { "given" } else { "ruled" })),
                    ("claim", Json::number(place + 1)),
                    ("line", Json::number(claim.line)),
                    ("numbers", Json::numbers(&claim.numbers)),
                    ("reads", Json::text(inequality(&claim.numbers))),
                ])
            })
            .collect()
    };
    Json::List(pack.predicates.iter().flat_map(of_predicate).collect())
}

pub fn facts_json(pack: &Pack) -> Json {
    let fact_json = |fact: &Fact| {
        let sizes = judge(pack, &fact.atom).map(|judgement| judgement.sizes);
        Json::object([
            ("predicate", Json::text(pack.predicate_of(&fact.atom).indicator())),
            ("line", Json::number(fact.line)),
            ("fact", Json::text(fact.atom.usual())),
            ("sizes", sizes.map_or(Json::Null, |sizes| Json::numbers(&sizes))),
        ])
    };
    Json::List(pack.facts.iter().map(fact_json).collect())
}

pub fn refusal_json(refusal: &Refusal) -> Json {
    let quote = refusal.quote.as_ref();
    let mark = quote.and_then(|quote| quote.mark.as_ref());
    let json = Json::object([
        ("number", Json::number(refusal.number)),
        ("line", quote.and_then(|quote| quote.number).map_or(Json::Null, Json::number)),
        ("text", quote.map_or(Json::Null, |quote| Json::text(shown(quote.text)))),
        ("column", mark.map_or(Json::Null, |mark| Json::number(mark.start + 1))),
        ("length", mark.map_or(Json::Null, |mark| Json::number(mark.len()))),
        ("wrong", Json::text(&refusal.wrong)),
        ("mend", Json::text(&refusal.mend)),
    ]);
    match &refusal.working {
        Some(Working::Rule(judgement)) => json.with("judgement", judgement_json(judgement)),
        Some(Working::Fault(Detail::Fact(judgement))) => json.with("judgement", fact_judgement_json(judgement)),
        Some(Working::Fault(Detail::Heads(headless))) => json.with("judgement", heads_json(headless)),
        Some(Working::Fault(Detail::Candidates(candidates))) => json.with("may_stand", candidates_json(candidates)),
        Some(Working::Fault(Detail::Limits(limits))) => json.with("judgement", limits_json(limits)),
        None => json,
    }
}

fn candidates_json(candidates: &[Candidate]) -> Json {
    Json::List(candidates.iter().map(|candidate| Json::text(candidate.words())).collect())
}

fn limits_json(limits: &ClauseLimits) -> Json {
    let limit_json = |limit: &LimitPassed| {
        Json::object([
            ("counted", Json::text(limit.counted)),
            ("found", Json::number(limit.found)),
            ("most", Json::number(limit.highest)),
        ])
    };
    Json::object([
        ("clause", Json::number(limits.clause)),
        ("line", Json::number(limits.line)),
        ("head", Json::text(&limits.head)),
        ("limits", Json::List(limits.limits.iter().map(limit_json).collect())),
    ])
}

fn judgement_json(judgement: &Judgement) -> Json {
    let form = |form: &Form| form_json(form, &judgement.variables);
    let subgoal_claims = judgement.subgoal_claims.iter().map(|used| {
        Json::object([
            ("subgoal", Json::number(used.subgoal)),
            ("reads", Json::text(&used.written)),
            ("claim", Json::number(used.claim)),
            ("multiplier", Json::number(used.multiplier)),
            ("form", form(&used.form)),
        ])
    });
    Json::object([
        ("rule", Json::number(judgement.rule)),
        ("clause", Json::text(&judgement.clause)),
        ("predicate", Json::text(&judgement.predicate)),
        ("claim", Json::number(judgement.claim)),
        ("reads", Json::text(&judgement.inequality)),
        ("head_sizes", Json::List(judgement.head_sizes.iter().map(form).collect())),
        ("head_form", form(&judgement.head_form)),
        ("subgoal_claims", Json::List(subgoal_claims.collect())),
        ("residual", form(&judgement.residual)),
    ])
}

fn fact_judgement_json(judgement: &FactJudgement) -> Json {
    let failed_json = |failed: &FailedClaim| {
        Json::object([
            ("claim", Json::number(failed.claim)),
            ("line", Json::number(failed.line)),
            ("reads", Json::text(&failed.inequality)),
            ("left", Json::number(failed.left)),
            ("right", Json::number(failed.right)),
        ])
    };
    Json::object([
        ("predicate", Json::text(&judgement.predicate)),
        ("fact", Json::text(&judgement.fact)),
        ("sizes", Json::numbers(&judgement.sizes)),
        ("failed_claims", Json::List(judgement.failed.iter().map(failed_json).collect())),
    ])
}

fn heads_json(headless: &[HeadlessPredicate]) -> Json {
    let claim_json = |(place, claim): (usize, &IdleClaim)| {
        Json::object([
            ("claim", Json::number(place + 1)),
            ("line", Json::number(claim.line)),
            ("reads", Json::text(&claim.inequality)),
        ])
    };
    let near_json = |near: &NearHead| {
        Json::object([
            ("predicate", Json::text(&near.predicate)),
            ("line", Json::number(near.line)),
            ("rules", Json::number(near.rules)),
        ])
    };
    let predicate_json = |predicate: &HeadlessPredicate| {
        Json::object([
            ("predicate", Json::text(&predicate.predicate)),
            ("line", Json::number(predicate.line)),
            ("claims", Json::List(predicate.claims.iter().enumerate().map(claim_json).collect())),
            ("near", Json::List(predicate.near.iter().map(near_json).collect())),
        ])
    };
    Json::object([("headless", Json::List(headless.iter().map(predicate_json).collect()))])
}

/// The constant, then the coefficients by the variables' names, in order of their first occurrence.
fn form_json(form: &Form, variables: &[&[u8]]) -> Json {
    let coefficients = variables.iter().zip(&form.coefficients);
    let entries = coefficients.map(|(variable, number)| (shown(variable), Json::Number(*number))).collect();
    Json::object([("constant", Json::Number(form.constant)), ("coefficients", Json::Object(entries))])
}
