//! A finding on the page: the verdict, the claims and facts of an accepted pack, or what is wrong and what to mend.

use crate::candidates::Candidate;
use crate::claims::{argument_name, inequality, remark};
use crate::facts::FactJudgement;
use crate::faults::clause_limits::ClauseLimits;
use crate::faults::Detail;
use crate::findings::{Refusal, Working};
use crate::forms::Form;
use crate::heads::HeadlessPredicate;
use crate::input::Source;
use crate::pack::{Pack, Predicate};
use crate::page::{Page, Style};
use crate::quoting::shortened;
use crate::residuals::Judgement;
use crate::words::{count, grouped, listed};
use cerrundix::Verdict;

/// The heading that every answer on a pack begins with.
pub fn show_verdict(page: &mut Page, source: &Source, verdict: &Verdict) {
    match verdict {
        Verdict::Accepted { lines, rules, multiplier_lines } => {
            page.heading(&source.shown, Style::Good, "accepted");
            page.sentence(
                2,
                &format!(
                    "{}, {}, {}",
                    count(usize::from(*lines), "line"),
                    count(usize::from(*rules), "rule"),
                    count(usize::from(*multiplier_lines), "M line")
                ),
            );
        }
        Verdict::Unjustified { .. } => page.heading(&source.shown, Style::Bad, "refused (13)"),
        Verdict::Refused { number, .. } => page.heading(&source.shown, Style::Bad, &format!("refused ({number})")),
    }
}

pub fn show_claims(page: &mut Page, pack: &Pack) {
    let ruled = pack.predicates.iter().filter(|predicate| !predicate.is_given);
    let given = pack.predicates.iter().filter(|predicate| predicate.is_given);
    if pack.claims() == 0 {
        page.blank();
        page.sentence(0, "The pack makes no claims, so there is nothing to reserve by.");
    }
    show_claims_of(page, "Every fact that the rules derive meets:", ruled);
    show_claims_of(page, "Facts given from outside are taken to meet (whoever gives them answers for it):", given);
}

fn show_claims_of<'p, 't: 'p>(page: &mut Page, heading: &str, predicates: impl Iterator<Item = &'p Predicate<'t>>) {
    let claims: Vec<String> = predicates.flat_map(claims_written).collect();
    if claims.is_empty() {
        return;
    }
    page.blank();
    page.sentence(0, heading);
    for claim in claims {
        page.item(2, &claim);
    }
}

/// `join/3, claim 1: s1 + s2 >= s3`
fn claims_written(predicate: &Predicate) -> Vec<String> {
    let numbered = predicate.claims.iter().enumerate();
    numbered
        .map(|(place, claim)| {
            let remark = remark(&claim.numbers).map_or(String::new(), |remark| format!(" ({remark})"));
            format!("{}, claim {}: {}{remark}", predicate.indicator(), place + 1, inequality(&claim.numbers))
        })
        .collect()
}

/// How many facts of each predicate come with the pack; nothing if there are none.
pub fn show_facts(page: &mut Page, pack: &Pack) {
    let (verb, each) = match pack.facts.len() {
        0 => return,
        1 => ("comes", "It"),
        _ => ("come", "Each"),
    };
    let of_predicate = |(place, predicate): (usize, &Predicate)| {
        let number = pack.facts.iter().filter(|fact| fact.atom.predicate == place).count();
        (number > 0).then(|| (number, predicate.indicator()))
    };
    let counts: Vec<(usize, String)> = pack.predicates.iter().enumerate().filter_map(of_predicate).collect();
    let facts = count(pack.facts.len(), "fact");
    let come = match &counts[..] {
        [(_, predicate)] => format!("{facts} of {predicate} {verb} with the pack"),
        _ => {
            let parts: Vec<String> = counts.iter().map(|(number, of)| format!("{number} of {of}")).collect();
            format!("{facts} {verb} with the pack: {}", listed(&parts, "and"))
        }
    };
    page.blank();
    page.sentence(0, &format!("{come}. {each} meets every claim on its predicate."));
}

/// The line quoted, what is wrong, the working for claims that are not justified, not met or without a rule, or what a
/// clause text has or may have, and what to mend.
pub fn show_refusal(page: &mut Page, refusal: &Refusal) {
    match &refusal.quote {
        Some(quote) => page.quote(quote.number, quote.text, quote.mark.as_ref()),
        None => page.blank(),
    }
    page.sentence(0, &refusal.wrong);
    if let Some(working) = &refusal.working {
        page.blank();
        match working {
            Working::Rule(judgement) => show_judgement(page, judgement),
            Working::Fault(Detail::Fact(judgement)) => show_fact_judgement(page, judgement),
            Working::Fault(Detail::Heads(headless)) => show_headless(page, headless),
            Working::Fault(Detail::Candidates(candidates)) => show_candidates(page, candidates),
            Working::Fault(Detail::Limits(limits)) => show_limits(page, limits),
        }
        page.blank();
    }
    page.mend(0, &refusal.mend);
}

fn show_judgement(page: &mut Page, judgement: &Judgement) {
    let written = |form: &Form| form.written(&judgement.variables);
    page.row(&format!("rule {}", judgement.rule), Style::Plain, &judgement.clause);
    page.row(&format!("claim {}", judgement.claim), Style::Plain, &judgement.inequality);
    show_sizes(page, "head sizes", judgement.head_sizes.iter().map(written));
    page.row("head form", Style::Plain, &written(&judgement.head_form));
    let forms: Vec<String> = judgement.subgoal_claims.iter().map(|used| written(&used.form)).collect();
    let width = forms.iter().map(String::len).max().unwrap_or(0);
    for (used, form) in judgement.subgoal_claims.iter().zip(&forms) {
        let label = format!("less {} times", used.multiplier);
        let source = format!("claim {} on subgoal {}, {}", used.claim, used.subgoal, used.written);
        page.row(&label, Style::Plain, &format!("{form:<width$}  ({source})"));
    }
    page.row("residual", Style::Strong, &written(&judgement.residual));
    for (place, (what, number)) in judgement.below_zero().iter().enumerate() {
        page.row(if place == 0 { "below 0" } else { "" }, Style::Bad, &format!("{what}: {number}"));
    }
}

fn show_fact_judgement(page: &mut Page, judgement: &FactJudgement) {
    page.row("fact", Style::Plain, &judgement.fact);
    show_sizes(page, "sizes", judgement.sizes.iter().map(i64::to_string));
    for failed in &judgement.failed {
        let said = format!("{}: {} does not hold", failed.inequality, failed.at_sizes());
        page.row(&format!("claim {}", failed.claim), Style::Bad, &said);
    }
}

/// Each predicate that heads no rule with its claims, and those of near names that head some.
fn show_headless(page: &mut Page, headless: &[HeadlessPredicate]) {
    for predicate in headless {
        page.row("no rule", Style::Bad, &format!("{} (line {})", predicate.predicate, predicate.line));
        for (place, claim) in predicate.claims.iter().enumerate() {
            page.row(&format!("claim {}", place + 1), Style::Plain, &claim.inequality);
        }
        for near in &predicate.near {
            page.row("near", Style::Plain, &near.written());
        }
    }
}

/// What may stand at the place, each in a row.
fn show_candidates(page: &mut Page, candidates: &[Candidate]) {
    for (place, candidate) in candidates.iter().enumerate() {
        page.row(if place == 0 { "may stand" } else { "" }, Style::Plain, candidate.words());
    }
}

/// The clause by its head, and the limits that it passes.
fn show_limits(page: &mut Page, limits: &ClauseLimits) {
    let head = shortened(limits.head.as_bytes());
    page.row(&format!("clause {}", limits.clause), Style::Plain, &format!("{head} (line {})", limits.line));
    for (place, limit) in limits.limits.iter().enumerate() {
        let (found, highest) = (grouped(limit.found as u64), grouped(limit.highest as u64));
        let said = format!("{}: {found}, at most {highest}", limit.counted);
        page.row(if place == 0 { "passed" } else { "" }, Style::Bad, &said);
    }
}

/// The sizes of an atom's arguments, each in a row.
fn show_sizes(page: &mut Page, label: &str, sizes: impl Iterator<Item = String>) {
    for (place, size) in sizes.enumerate() {
        page.row(if place == 0 { label } else { "" }, Style::Plain, &format!("{} = {size}", argument_name(place + 1)));
    }
}
