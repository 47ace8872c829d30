//! 5: a line whose first field is no letter that may stand here.

use super::Fault;
use crate::letters::Letter;
use crate::pack::{fields_of, Pack, Rule};
use crate::words::{are, count, listed, quoted, shown};

pub fn explain(seen: &Pack, line: &[u8]) -> Option<Fault> {
    let first = fields_of(line)[0];
    let letter = Letter::of(first);
    if letter.is_some_and(|letter| letter.may_stand(seen)) {
        return None;
    }
    let (wrong, mend) = match (seen.end_line, letter) {
        (Some(end), _) => after_the_end(seen, line, end),
        (None, Some(letter)) => misplaced(seen, letter),
        (None, None) => no_letter(seen, line),
    };
    Fault::at(0..first.len().max(1), wrong, mend)
}

/// The letters that may stand here: `P, C, H or E`.
fn allowed(seen: &Pack) -> String {
    let letters = Letter::ALL.into_iter().filter(|letter| letter.may_stand(seen));
    let letters: Vec<String> = letters.map(|letter| letter.written().to_string()).collect();
    listed(&letters, "or")
}

fn after_the_end(seen: &Pack, line: &[u8], end: usize) -> (String, String) {
    let wrong = format!("The pack ends with the E line, line {end}; this line comes after it.");
    let first = fields_of(line)[0];
    let mend = if line.is_empty() {
        "Remove it: a blank line is a line too."
    } else if !seen.of_name(first).is_empty() {
        "Remove it. If it is a query, hand it over as an argument: packdesk reserve PACK QUERY."
    } else {
        "Remove it, or move the E line to the end."
    };
    (wrong, mend.to_string())
}

fn misplaced(seen: &Pack, letter: Letter) -> (String, String) {
    let rule = seen.rules.last();
    let due = seen.multiplier_lines_due();
    let wrong = match (letter, rule) {
        (Letter::Multipliers, Some(rule)) => surplus_multipliers(seen, rule),
        (Letter::Head | Letter::End, Some(rule)) => missing_multipliers(seen, rule),
        _ => format!("No {} line may stand here: {}.", letter.written(), letter.place()),
    };
    let mend = match (letter, due) {
        (Letter::Head | Letter::End, _) => {
            let lines = if due == 1 { "the M line".to_string() } else { format!("the {due} M lines") };
            format!("Add {lines} before this line; where no subgoal has a claim it is M alone.")
        }
        (Letter::Multipliers, _) if rule.is_some() => "Remove it, or add the claim that it is for.".to_string(),
        _ => format!("Move it to its place; here may stand {}.", allowed(seen)),
    };
    (wrong, mend)
}

fn missing_multipliers(seen: &Pack, rule: &Rule) -> String {
    let head = seen.predicate_of(&rule.head);
    let so_far = match rule.multipliers.len() {
        0 => "has no M line yet".to_string(),
        number => format!("has only {} so far", count(number, "M line")),
    };
    let claims = count(head.claims.len(), "claim");
    format!(
        "An M line is due here: rule {}, with {claims} on its head {}, {so_far}.",
        seen.rules.len(),
        head.indicator()
    )
}

fn surplus_multipliers(seen: &Pack, rule: &Rule) -> String {
    let head = seen.predicate_of(&rule.head);
    let number = seen.rules.len();
    match head.claims.len() {
        0 => format!("Rule {number} takes no M line: there is no claim on its head {}.", head.indicator()),
        claims => format!(
            "Rule {number} has its {} already: there {} {} on its head {}.",
            count(rule.multipliers.len(), "M line"),
            are(claims),
            count(claims, "claim"),
            head.indicator(),
        ),
    }
}

fn no_letter(seen: &Pack, line: &[u8]) -> (String, String) {
    let first = fields_of(line)[0];
    let stripped = first.trim_ascii().to_ascii_uppercase();
    let may_stand = format!("here may stand {}", allowed(seen));
    if line.trim_ascii().is_empty() {
        return ("The line is blank, and a pack has no blank lines.".into(), format!("Remove it; {may_stand}."));
    }
    if [&b"#"[..], b"%", b";", b"//", b"--", b"/*"].iter().any(|mark| line.trim_ascii().starts_with(mark)) {
        let wrong = "This looks like a comment, and a pack has no comments.";
        return (wrong.into(), format!("Remove the line; {may_stand}."));
    }
    if Letter::of(&stripped).is_some() {
        let wrong =
            format!("The first field is {}, and it must be one capital letter and nothing else.", quoted(first));
        return (wrong, format!("Write {} alone; {may_stand}.", shown(&stripped)));
    }
    if line.windows(2).any(|pair| pair == b":-") || first.contains(&b'(') {
        let wrong = "This looks like a clause in the usual notation, and a pack has lines of fields.";
        let mend =
            "Write a rule as an H line, its B lines and its M lines, and a given fact as a G line (packdesk import \
                    writes clauses as H and B lines)";
        return (wrong.into(), format!("{mend}; {may_stand}."));
    }
    let wrong = format!("The first field, {}, is no letter that a line begins with.", quoted(first));
    (wrong, format!("Begin the line with one of the letters; {may_stand}."))
}
