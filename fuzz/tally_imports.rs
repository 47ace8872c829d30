//! Which answers of the import are counted, and how many a run must have met of each.

use crate::plain_import::{clauses_of, Imported, Limit};

/// A run has to meet each kind so often.
pub const FEWEST: u64 = 20;

const LIMITS: [Limit; 8] = [
    Limit::Line,
    Limit::PredicateArity,
    Limit::SymbolArity,
    Limit::PredicateName,
    Limit::SymbolName,
    Limit::VariableName,
    Limit::Subgoals,
    Limit::Variables,
];

fn kind_of_limit(limit: Limit) -> String {
    format!("import 26 by {limit:?} alone")
}

/// The names under which an answer of the import is counted, by what the text holds.
pub fn kinds_of_import(numbers: [u64; 4], text: &[u8], room: usize) -> Vec<String> {
    let (clauses, place) = clauses_of(text);
    let [number, at, written, _] = numbers;
    let mut kinds = vec![format!("import {number}")];
    // an answer that cannot be right is a difference already
    if (number == 25 && at as usize > text.len()) || (number > 25 && !(1..=clauses.len() as u64).contains(&at)) {
        return kinds;
    }
    let further: Vec<(bool, &str)> = match number {
        0 => kinds_of_success(&clauses, text, written as usize, room),
        25 => kinds_of_25(&clauses, text, at as usize),
        _ => {
            let refused = at as usize - 1;
            let is_too_long = clauses[..=refused].iter().map(|clause| clause.lines.len()).sum::<usize>() > room;
            let has_limit_after = clauses[refused + 1..].iter().any(|clause| !clause.limits.is_empty());
            if let (26, [limit]) = (number, clauses[refused].limits.as_slice()) {
                kinds.push(kind_of_limit(*limit));
            }
            vec![
                (number == 26 && refused > 0, "26 of a later clause"),
                (number == 26 && is_too_long, "26 before 27"),
                (number == 26 && place.is_some(), "26 before a later 25"),
                (number == 27 && refused > 0, "27 of a later clause"),
                (number == 27 && has_limit_after, "27 before a later 26"),
                (number == 27 && place.is_some(), "27 before a later 25"),
            ]
        }
    };
    kinds.extend(further.into_iter().filter(|(is_so, _)| *is_so).map(|(_, kind)| format!("import {kind}")));
    kinds
}

fn kinds_of_success(clauses: &[Imported], text: &[u8], written: usize, room: usize) -> Vec<(bool, &'static str)> {
    let has_line = |bytes: usize| {
        clauses.iter().any(|clause| clause.lines.split(|byte| *byte == 10).any(|line| line.len() == bytes))
    };
    vec![
        (clauses.is_empty(), "0 without clauses"),
        (clauses.len() > 1, "0 of several clauses"),
        (clauses.len() > 1 && written == room, "0 of several clauses in a buffer that just fits"),
        (has_line(1_024), "0 with a line at the limit"),
        (clauses.iter().any(|clause| clause.lines.len() == 9 * 1_025), "0 with nine lines at the limit"),
        (text.len() > 32_768, "0 of a text longer than a pack"),
        (has_lone(text), "0 with a lone _"),
        (
            has_lone(text) && clauses.iter().any(|clause| has_gap(&clause.lines)),
            "0 with a lone _ and V2 without V1 before it",
        ),
    ]
}

fn kinds_of_25(clauses: &[Imported], text: &[u8], place: usize) -> Vec<(bool, &'static str)> {
    let byte = text.get(place).copied().unwrap_or(0);
    let is_layout_before = place > 0 && b" \n".contains(&text[place - 1]);
    let rest = text.get(place..).unwrap_or(&[]);
    vec![
        (!clauses.is_empty(), "25 of a later clause"),
        (place == text.len(), "25 at the end"),
        (place == text.len() && is_layout_before, "25 at the end after layout"),
        (byte == b'(' && is_layout_before, "25 at a ( after layout"),
        (byte == b'.' && rest.len() > 1 && !b" \n".contains(&rest[1]), "25 at a dot that ends no clause"),
        (byte == b'.' && (rest.len() == 1 || b" \n".contains(&rest[1])), "25 at a dot where none can stand"),
        (byte == b'_', "25 at a _"),
        (byte.is_ascii_digit(), "25 at a digit"),
        (byte.is_ascii_uppercase(), "25 at a variable"),
        (byte.is_ascii_lowercase(), "25 at a name"),
        (byte == b',', "25 at a comma"),
        (byte == b')', "25 at a )"),
        (rest.starts_with(b":-"), "25 at a :-"),
        (byte == b':' && !rest.starts_with(b":-"), "25 at a : alone"),
        (byte > 127, "25 at a byte over 127"),
        (byte == 9 || byte == 13, "25 at a tab or byte 13"),
    ]
}

fn has_lone(text: &[u8]) -> bool {
    text.split(|byte| !byte.is_ascii_alphanumeric() && *byte != b'_').any(|run| run == b"_")
}

/// Does `V2` stand in the lines before any `V1` does?
fn has_gap(lines: &[u8]) -> bool {
    let mut words = lines.split(|byte| b" ,\n".contains(byte));
    words.find(|word| *word == b"V1" || *word == b"V2") == Some(b"V2")
}

/// All kinds that a run must have met.
pub fn needed_answers() -> impl Iterator<Item = String> {
    let named = |(_, kind): (bool, &str)| format!("import {kind}");
    let success = kinds_of_success(&[], b"", 0, 0).into_iter().map(named);
    let not_in_subset = kinds_of_25(&[], b"", 0).into_iter().map(named);
    let order = [
        "26 of a later clause",
        "26 before 27",
        "26 before a later 25",
        "27 of a later clause",
        "27 before a later 26",
        "27 before a later 25",
    ];
    let order = order.into_iter().map(|kind| format!("import {kind}"));
    let numbers = [0, 25, 26, 27].map(|number| format!("import {number}")).into_iter();
    numbers.chain(success).chain(not_in_subset).chain(order).chain(LIMITS.map(kind_of_limit))
}
