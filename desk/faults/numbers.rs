//! 10, 16, 17 and 18: an arity, a kind, a claim's number, a multiplier, an asked argument or a size.

use super::{place_of_field, Fault};
use crate::claims::argument_name;
use crate::letters::Letter;
use crate::limits::{HIGHEST_ARITY, HIGHEST_NUMBER, HIGHEST_SIZE};
use crate::naming::Naming;
use crate::pack::{fields_of, Pack, Predicate};
use crate::tokens::{number, NumberFault};
use crate::words::{capital, count, listed, quoted, shown};

/// What a field's number is called, and from where to where it goes.
struct Range {
    called: String,
    lowest: i64,
    highest: i64,
    /// What to mend where the number is below the lowest, and where it is above the highest.
    outside: [&'static str; 2],
}

/// 10: the first field that is malformed or out of range.
pub fn of_line(line: &[u8]) -> Option<Fault> {
    let fields = fields_of(line);
    match Letter::of(fields[0])? {
        Letter::Predicate => explain(line, 2, arity()).or_else(|| of_kind(line)),
        Letter::Claim => (2..fields.len()).find_map(|field| explain(line, field, claim_number(field - 2))),
        Letter::Multipliers => (1..fields.len()).find_map(|field| explain(line, field, multiplier(field))),
        Letter::Fact | Letter::Head | Letter::Subgoal | Letter::End => None,
    }
}

fn arity() -> Range {
    let outside =
        ["Write a digit from 0 to 8.", "A predicate has at most 8 arguments: put several of them into one term."];
    Range { called: "the arity".to_string(), lowest: 0, highest: HIGHEST_ARITY, outside }
}

fn claim_number(place: usize) -> Range {
    let called = format!("the number c{place}");
    let outside = "Divide all numbers of the claim by a common divisor, or claim something weaker with smaller ones.";
    Range { called, lowest: -HIGHEST_NUMBER, highest: HIGHEST_NUMBER, outside: [outside; 2] }
}

fn multiplier(place: usize) -> Range {
    let outside = [
        "A claim can't be turned round by a multiplier; if the opposite holds, make it a further claim and use that.",
        "Make a multiple of the subgoal's claim a further claim, and use a smaller multiplier of that.",
    ];
    Range { called: format!("multiplier {place}"), lowest: 0, highest: HIGHEST_NUMBER, outside }
}

fn of_kind(line: &[u8]) -> Option<Fault> {
    let kind = *fields_of(line).get(3)?;
    if kind == b"G" || kind == b"R" {
        return None;
    }
    let wrong = match kind {
        b"" => "The kind is empty.".to_string(),
        _ => format!("{} is no kind of predicate.", quoted(kind)),
    };
    let mend = "Write G where the facts are given, from outside or by G lines, or R where rules derive them.";
    Fault::at(place_of_field(line, 3), wrong, mend)
}

/// 16: the asked argument.
pub fn of_asked_argument(pack: &Pack, query: &[u8]) -> Option<Fault> {
    let predicate = pack.declared(&Naming::of_query(query))?;
    if predicate.arity == 0 {
        return no_arguments(pack, query, predicate);
    }
    let called = "the asked argument".to_string();
    let outside = ["Write the asked argument's number, counted from 1."; 2];
    let mut fault = explain(query, 1, Range { called, lowest: 1, highest: predicate.arity as i64, outside })?;
    fault.wrong += &format!(" {} has {}.", predicate.indicator(), count(predicate.arity, "argument"));
    let asked = number(fields_of(query)[1], 1, HIGHEST_ARITY).ok();
    if let Some(others) = asked.and_then(|asked| larger_ones(pack, predicate.name, asked as usize)) {
        fault.mend += &format!(" Or ask of {others}.");
    }
    Some(fault)
}

/// The query has no sizes, so it is of the predicate without arguments; others of the name may have some.
fn no_arguments(pack: &Pack, query: &[u8], predicate: &Predicate) -> Option<Fault> {
    let wrong = format!("{} has no arguments, so none can be asked for.", predicate.indicator());
    let others = larger_ones(pack, predicate.name, 1);
    let mend = format!("Ask of {}.", others.unwrap_or("a predicate that has arguments".to_string()));
    Fault::at(place_of_field(query, 1), wrong, mend)
}

/// The predicates of a name that have so many arguments at least, as the end of a mend, if there are any.
fn larger_ones(pack: &Pack, name: &[u8], least: usize) -> Option<String> {
    let others = pack.of_name(name).into_iter().filter(|other| other.arity >= least);
    let others: Vec<String> = others.map(Predicate::indicator).collect();
    (!others.is_empty()).then(|| format!("{}, with a size for each argument", listed(&others, "or")))
}

/// 17: the first size that is malformed or out of range.
pub fn of_size(query: &[u8]) -> Option<Fault> {
    let fields = fields_of(query);
    (2..fields.len()).filter(|field| fields[*field] != b"-").find_map(|field| {
        let called = format!("the size {}", argument_name(field - 1));
        let outside = [
            "A size is never below 0; write - where it is unknown.",
            "Sizes in a query go up to 65535; write - where one is unknown.",
        ];
        let mut fault = explain(query, field, Range { called, lowest: 0, highest: HIGHEST_SIZE, outside })?;
        if !fault.mend.contains("unknown") {
            fault.mend += " Where a size is unknown, write - alone.";
        }
        Some(fault)
    })
}

/// 18: a size for the asked argument itself.
pub fn of_asked_size(query: &[u8]) -> Option<Fault> {
    let fields = fields_of(query);
    let asked = number(fields.get(1)?, 1, HIGHEST_ARITY).ok()? as usize;
    let size = *fields.get(asked + 1)?;
    if size == b"-" {
        return None;
    }
    let name = argument_name(asked);
    let wrong = format!(
        "{name}, the size of the asked argument, is given as {}; that is what the query asks for.",
        shown(size)
    );
    Fault::at(place_of_field(query, asked + 1), wrong, format!("Write - for {name}, or ask for another argument."))
}

/// What is wrong with the number in this field, if anything is.
fn explain(line: &[u8], field: usize, range: Range) -> Option<Fault> {
    let written = *fields_of(line).get(field)?;
    let fault = number(written, range.lowest, range.highest).err()?;
    let Range { lowest, highest, outside: [below, above], .. } = range;
    let called = capital(&range.called);
    let as_written = quoted(written);
    let (wrong, mend) = match fault {
        NumberFault::Empty => {
            (format!("{called} is empty."), format!("Write a whole number from {lowest} to {highest}."))
        }
        NumberFault::PlusSign => (format!("{called}, {as_written}, has a plus sign."), plain(written)),
        NumberFault::LeadingZeros => (format!("{called}, {as_written}, has leading zeros."), plain(written)),
        NumberFault::MinusZero => {
            (format!("{called}, {as_written}, is no number: 0 has no sign."), "Write 0.".to_string())
        }
        NumberFault::NotDecimal => (
            format!("{called}, {as_written}, is no whole number."),
            format!("Write a whole number from {lowest} to {highest}, in digits without spaces."),
        ),
        NumberFault::TooLow => (format!("{called}, {as_written}, is below {lowest}."), below.to_string()),
        NumberFault::TooHigh => (format!("{called}, {as_written}, is above {highest}."), above.to_string()),
    };
    Fault::at(place_of_field(line, field), wrong, mend)
}

/// How a number is written without a plus sign and without leading zeros.
fn plain(written: &[u8]) -> String {
    let (sign, digits) = match written {
        [b'-', digits @ ..] => ("-", digits),
        [b'+', digits @ ..] => ("", digits),
        digits => ("", digits),
    };
    let zeros = digits.iter().take_while(|digit| **digit == b'0').count().min(digits.len() - 1);
    match &digits[zeros..] {
        b"0" => "Write 0.".to_string(),
        short => format!("Write {sign}{}.", shown(short)),
    }
}

#[cfg(test)]
mod tests {
    use super::*;

    #[test]
    fn a_number_is_mended_to_its_plain_form() {
        assert_eq!(plain(b"01"), "Write 1.");
        assert_eq!(plain(b"-007"), "Write -7.");
        assert_eq!(plain(b"+5"), "Write 5.");
        assert_eq!(plain(b"000"), "Write 0.");
        assert_eq!(plain(b"+0"), "Write 0.");
    }
}
