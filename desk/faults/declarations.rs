//! 8 and 14: a predicate, by name and arity, that is declared already, is not declared, or is given where a head is to be
//! ruled.

use super::fields::{fields_to_mend, surplus};
use super::{names, place_of_field, Fault};
use crate::letters::Letter;
use crate::limits::HIGHEST_ARITY;
use crate::naming::{NamedBy, Naming};
use crate::near::near_predicates;
use crate::pack::{fields_of, Pack, Predicate};
use crate::tokens::is_name;
use crate::words::{are, count, listed, shown};
use std::ops::Range;

/// 8: the predicate that the line names.
pub fn of_line(seen: &Pack, line: &[u8]) -> Option<Fault> {
    let naming = Naming::of_line(line).filter(|naming| is_name(naming.name))?;
    match (naming.by, seen.declared(&naming)) {
        (NamedBy::Line(Letter::Predicate), declared) => already_declared(line, declared?),
        (NamedBy::Line(Letter::Head), Some(given)) if given.is_given => given_head(seen, line, given),
        (_, Some(_)) => None,
        (_, None) => not_declared(seen, line, &naming),
    }
}

/// 14: the predicate that the query names.
pub fn of_query(pack: &Pack, query: &[u8]) -> Option<Fault> {
    if query.is_empty() {
        let mend = "Write name,i,s1,..,sn: a predicate, the asked argument, sizes.";
        return Fault::at(0..1, "The query is empty.", mend);
    }
    let naming = Naming::of_query(query);
    match names::malformed(naming.name, 0) {
        Some(fault) => Some(fault),
        None if pack.declared(&naming).is_none() => not_declared(pack, query, &naming),
        None => None,
    }
}

/// Marked from the name to the arity.
fn already_declared(line: &[u8], taken: &Predicate) -> Option<Fault> {
    let mark = place_of_field(line, 1).start..place_of_field(line, 2).end;
    let wrong = format!("{} is declared already, on line {}.", taken.indicator(), taken.line);
    Fault::at(mark, wrong, "Remove one of the two lines, or give this predicate another name or another arity.")
}

fn given_head(seen: &Pack, line: &[u8], given: &Predicate) -> Option<Fault> {
    let wrong = format!(
        "{} is given (kind G, line {}): its facts come from outside or by G lines, and no rule derives them.{}",
        given.indicator(),
        given.line,
        seen.of_other_kind(given)
    );
    let mend = "Declare it with kind R if rules derive it, head the rule with another predicate, or make a fact of it \
                a G line.";
    Fault::at(place_of_field(line, 1), wrong, mend)
}

/// Not declared with this arity: with others, or not at all.
fn not_declared(seen: &Pack, line: &[u8], naming: &Naming) -> Option<Fault> {
    let others = seen.of_name(naming.name);
    let missing = fields_missing(naming).map_or(String::new(), |missing| format!("{missing} "));
    if others.is_empty() {
        let wrong = format!("{missing}{}", no_such_name(seen, naming));
        return Fault::at(place_of_field(line, naming.by.name_field()), wrong, mend_of_name(naming));
    }
    let mark = mark_of_arity(line, naming, &others);
    let wrong = format!("{missing}{}", other_arities(naming, &others));
    Fault::at(mark, wrong, mend_of_arity(line, naming, &others))
}

/// What a line or a query lacks that has too few fields even for a predicate without arguments.
fn fields_missing(naming: &Naming) -> Option<&'static str> {
    match (naming.arity, naming.by) {
        (Some(_), _) => None,
        (None, NamedBy::Line(_)) => {
            Some("A claim needs a constant and a number for each argument; this line has no number.")
        }
        (None, NamedBy::Query) => {
            Some("A query needs the asked argument and a size for each argument; this one has a name alone.")
        }
    }
}

// ---------------------------------------------------------------------------------------------------------------
// A name that is declared with no arity.

fn no_such_name(seen: &Pack, naming: &Naming) -> String {
    let near: Vec<String> = near_predicates(naming.name, naming.arity, seen.predicates.iter())
        .iter()
        .map(|predicate| format!("{} (line {})", predicate.indicator(), predicate.line))
        .collect();
    let declared: Vec<String> = seen.predicates.iter().map(Predicate::indicator).collect();
    let wrong = format!("No P line declares {}.", naming.indicator());
    if !near.is_empty() {
        return format!("{wrong} Did you mean {}?", listed(&near, "or"));
    }
    match declared.len() {
        0 => format!("{wrong} The pack declares no predicates."),
        number => {
            let declared = listed(&declared, "and");
            format!("{wrong} {} {} declared: {declared}.", count(number, "predicate"), are(number))
        }
    }
}

fn mend_of_name(naming: &Naming) -> String {
    let called = naming.indicator();
    match (naming.arity, naming.by) {
        (None, NamedBy::Line(_)) => "Write C,name,c0,c1,..,cn with a name that is declared.".to_string(),
        (None, NamedBy::Query) => "Write name,i,s1,..,sn with a name that is declared.".to_string(),
        (Some(arity), _) if is_too_many(arity) => {
            format!("Write a declared name here, and look for a comma too many: {}.", at_most())
        }
        _ => format!("Write a declared name here, or declare {called} with a P line, before the C, G and H lines."),
    }
}

// ---------------------------------------------------------------------------------------------------------------
// A name that is declared with other arities.

/// `path is declared with 2 and 3 arguments (lines 1 and 2); this line gives 4.`
fn other_arities(naming: &Naming, others: &[&Predicate]) -> String {
    let arities: Vec<String> = others.iter().map(|other| other.arity.to_string()).collect();
    let lines: Vec<String> = others.iter().map(|other| other.line.to_string()).collect();
    let arguments = match &arities[..] {
        [only] if only == "0" => "without arguments".to_string(),
        [only] if only == "1" => "with 1 argument".to_string(),
        _ => format!("with {} arguments", listed(&arities, "and")),
    };
    let lines = format!("{} {}", if lines.len() == 1 { "line" } else { "lines" }, listed(&lines, "and"));
    let declared = format!("{} is declared {arguments} ({lines})", shown(naming.name));
    match naming.arity {
        Some(arity) => format!("{declared}; {}.", arguments_given(naming.by, arity)),
        None => format!("{declared}."),
    }
}

fn arguments_given(by: NamedBy, arity: usize) -> String {
    match (by, arity) {
        (NamedBy::Line(Letter::Claim), 0) => "this line has c0 alone".to_string(),
        (NamedBy::Line(Letter::Claim), _) => format!("this line has numbers for {arity}"),
        (NamedBy::Line(_), 0) => "this line gives none".to_string(),
        (NamedBy::Line(_), _) => format!("this line gives {arity}"),
        (NamedBy::Query, 0) => "this query gives no size".to_string(),
        (NamedBy::Query, _) => format!("this query gives {}", count(arity, "size")),
    }
}

/// The fields past the highest arity, the end where every arity takes more, and the name where some take more and some
/// fewer.
fn mark_of_arity(line: &[u8], naming: &Naming, others: &[&Predicate]) -> Range<usize> {
    match neighbours(naming, others) {
        (Some(lower), None) => surplus(line, naming.by.fields_besides() + lower.arity),
        (None, Some(_)) => line.len()..line.len() + 1,
        _ => place_of_field(line, naming.by.name_field()),
    }
}

/// What to mend: fewer or more fields, for the declared arity next to this one, or a declaration more.
fn mend_of_arity(line: &[u8], naming: &Naming, others: &[&Predicate]) -> String {
    let takes_terms = matches!(naming.by, NamedBy::Line(letter) if letter.takes_terms());
    if takes_terms && fields_of(line).iter().any(|field| field.contains(&b'(')) {
        return "Write terms without brackets and commas: cons(X,Xs) is cons/2 X Xs in a pack.".to_string();
    }
    if naming.by == NamedBy::Query && others.iter().all(|other| other.arity == 0) {
        return format!("Ask of a predicate that has arguments: {}/0 has none.", shown(naming.name));
    }
    let found = fields_of(line).len();
    let due = |other: &Predicate| naming.by.fields_besides() + other.arity;
    let for_it =
        |other: &Predicate| format!("for {} ({})", other.indicator(), naming.by.form(&other.name_shown(), other.arity));
    let fields = match neighbours(naming, others) {
        (Some(lower), Some(higher)) => {
            let (out, more) = (count(found - due(lower), "field"), due(higher) - found);
            format!("Take out {out} {}, or add {more} {}", for_it(lower), for_it(higher))
        }
        (Some(lower), None) => {
            let surplus = fields_to_mend(found - due(lower), "too many");
            format!("Take out {surplus} {}, or look for a comma too many", for_it(lower))
        }
        (None, Some(higher)) => {
            format!("Add {} {}", fields_to_mend(due(higher) - found, "missing"), for_it(higher))
        }
        (None, None) => "Write the fields of a declared arity".to_string(),
    };
    match naming.arity {
        None => format!("{fields}."),
        Some(0) if naming.by == NamedBy::Query => format!("{fields}."),
        Some(arity) if is_too_many(arity) => format!("{fields}; {}.", at_most()),
        Some(_) => format!("{fields}; or declare {} too, with a P line of its own.", naming.indicator()),
    }
}

/// Of these predicates of the same name the one with the next lower arity, and the one with the next higher. Nothing can
/// be asked of one without arguments, so a query has no use for it.
fn neighbours<'p, 't>(
    naming: &Naming,
    others: &[&'p Predicate<'t>],
) -> (Option<&'p Predicate<'t>>, Option<&'p Predicate<'t>>) {
    let is_lower = |other: &&Predicate| naming.arity.is_some_and(|arity| other.arity < arity);
    let is_of_use = |other: &&Predicate| naming.by != NamedBy::Query || other.arity > 0;
    let (lower, higher): (Vec<&Predicate>, Vec<&Predicate>) =
        others.iter().copied().filter(is_of_use).partition(is_lower);
    (lower.last().copied(), higher.first().copied())
}

fn is_too_many(arity: usize) -> bool {
    arity > HIGHEST_ARITY as usize
}

fn at_most() -> String {
    format!("a predicate has at most {HIGHEST_ARITY} arguments")
}
