//! 12: a line that passes a count limit.

use super::terms::argument_tokens;
use super::Fault;
use crate::letters::Letter;
use crate::limits::{CLAIMS, PREDICATES, RULES, SUBGOALS, VARIABLES};
use crate::naming::Naming;
use crate::pack::{fields_of, Pack, Rule};
use crate::tokens::is_variable;
use crate::words::{listed, shown};

pub fn of_line(seen: &Pack, line: &[u8]) -> Option<Fault> {
    let fields = fields_of(line);
    let rule = seen.rules.last();
    match Letter::of(fields[0])? {
        Letter::Predicate => passed(line, seen.predicates.len(), PREDICATES, "predicates in a pack", SPLIT),
        Letter::Claim => {
            let predicate = seen.declared(&Naming::of_fields(&fields)?)?;
            let what = format!("claims on {}", predicate.indicator());
            let mend = "Take out a claim that follows from the others.";
            passed(line, predicate.claims.len(), CLAIMS, &what, mend)
        }
        Letter::Head => {
            passed(line, seen.rules.len(), RULES, "rules in a pack", SPLIT).or_else(|| of_variables(&[], line))
        }
        Letter::Subgoal => {
            let mend = "Put some of the subgoals into a rule of a further predicate, and call that one here.";
            passed(line, rule?.subgoals.len(), SUBGOALS, "subgoals in a rule", mend)
                .or_else(|| of_variables(&rule.map(Rule::variables).unwrap_or_default(), line))
        }
        Letter::Fact | Letter::Multipliers | Letter::End => None,
    }
}

const SPLIT: &str = "Take out what is not needed, or split the pack.";

/// The line is one more than there may be, if so many stand before it.
fn passed(line: &[u8], before: usize, most: usize, what: &str, mend: &str) -> Option<Fault> {
    if before < most {
        return None;
    }
    Fault::at(0..line.len(), format!("There may be {most} {what}, and this line makes {}.", before + 1), mend)
}

/// The line on which the rule's 17th variable first occurs, marked there.
fn of_variables(before: &[&[u8]], line: &[u8]) -> Option<Fault> {
    let mut variables = before.to_vec();
    for (place, token) in argument_tokens(line) {
        if !is_variable(token) || variables.contains(&token) {
            continue;
        }
        if variables.len() == VARIABLES {
            let names: Vec<String> = variables.iter().map(|variable| shown(variable)).collect();
            let wrong = format!(
                "A rule may have {VARIABLES} variables, and {} is one more; the others are {}.",
                shown(token),
                listed(&names, "and")
            );
            let mend = "Put some of the variables into one term, or split the rule with a further predicate.";
            return Fault::at(place..place + token.len(), wrong, mend);
        }
        variables.push(token);
    }
    None
}
