//! 9: a wrong number of fields on a `P`, `M` or `E` line. On the others the fields tell the arity, and 8 asks for that.

use super::{place_of_field, Fault};
use crate::letters::Letter;
use crate::pack::{fields_of, Pack};
use crate::words::{count, listed};
use std::cmp::Ordering;
use std::ops::Range;

/// How many fields there are, and how many are due. The mark is under the fields too many, or at the end where fields are
/// missing.
pub fn of_line(seen: &Pack, line: &[u8]) -> Option<Fault> {
    let fields = fields_of(line);
    let letter = Letter::of(fields[0])?;
    let (due, form) = letter.fields_due(seen)?;
    let why = match letter {
        Letter::Multipliers => format!(", {}", claims_on_subgoals(seen)),
        _ => String::new(),
    };
    let found = fields.len();
    let wrong =
        format!("{} has {} here ({form}){why}; this one has {found}.", letter.line_called(), count(due, "field"));
    match found.cmp(&due) {
        Ordering::Equal => None,
        Ordering::Less => {
            let mend = format!("Add {}.", fields_to_mend(due - found, "missing"));
            Fault::at(place_of_field(line, found), wrong, mend)
        }
        Ordering::Greater => {
            let mend = format!("Take out {}, or look for a comma too many.", fields_to_mend(found - due, "too many"));
            Fault::at(surplus(line, due), wrong, mend)
        }
    }
}

/// Why an `M` line of the last rule has as many multipliers as it has.
fn claims_on_subgoals(seen: &Pack) -> String {
    let subgoals = seen.rules.last().map_or(&[][..], |rule| &rule.subgoals);
    if seen.multipliers_due() == 0 {
        return "since there are no claims on its rule's subgoals".to_string();
    }
    let parts: Vec<String> = subgoals
        .iter()
        .enumerate()
        .map(|(place, subgoal)| {
            let predicate = seen.predicate_of(subgoal);
            format!("{} for subgoal {} ({})", predicate.claims.len(), place + 1, predicate.indicator())
        })
        .collect();
    format!("with a multiplier for each claim on a subgoal: {}", listed(&parts, "and"))
}

/// Where the fields after so many stand.
pub fn surplus(line: &[u8], due: usize) -> Range<usize> {
    let start = place_of_field(line, due).start;
    start..line.len().max(start + 1)
}

/// So many fields, as a mend names them: `the field that is missing`.
pub fn fields_to_mend(number: usize, why: &str) -> String {
    match number {
        1 => format!("the field that is {why}"),
        _ => format!("the {number} fields that are {why}"),
    }
}
