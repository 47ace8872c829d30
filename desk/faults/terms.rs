//! 11 and 19: a field that is no term, and a term with a variable where a size is asked for.

use super::{place_of_field, Fault};
use crate::letters::Letter;
use crate::limits::NAME_BYTES;
use crate::pack::fields_of;
use crate::terms::{read_term, TermFaultKind};
use crate::tokens::{is_name, is_variable, symbol};
use crate::words::{are, count, listed, quoted, shown};

/// 11: the first argument of a head, a subgoal or a fact that is no term.
pub fn of_line(line: &[u8]) -> Option<Fault> {
    let fields = fields_of(line);
    if !Letter::of(fields[0])?.takes_terms() {
        return None;
    }
    (2..fields.len())
        .find_map(|field| explain(&format!("Argument {}", field - 1), fields[field], place_of_field(line, field).start))
}

/// What is wrong with a field that is to be a term; it stands at this place of its line.
pub fn explain(called: &str, field: &[u8], start: usize) -> Option<Fault> {
    let fault = read_term(field).err()?;
    let at = fault.at.start.min(field.len())..fault.at.end.min(field.len());
    let bytes = &field[at];
    let (wrong, mend) = match fault.kind {
        TermFaultKind::Empty => {
            (format!("{called} is empty."), "Write a variable or a symbol, for instance X or nil/0.".to_string())
        }
        TermFaultKind::Space => (
            format!("{called} has a space too many."),
            "Put one space between tokens, and none at the front or the end.".to_string(),
        ),
        TermFaultKind::Token => of_token(called, bytes),
        TermFaultKind::Unfinished { symbol, found } => unfinished(called, &field[symbol], found),
        TermFaultKind::LeftOver => (
            format!("{called} is a complete term before {}, and this is left over.", quoted(bytes)),
            "Take it out, or give a symbol before it the arity that counts it.".to_string(),
        ),
    };
    Fault::at(start + fault.at.start..start + fault.at.end, wrong, mend)
}

fn unfinished(called: &str, token: &[u8], found: usize) -> (String, String) {
    let due = symbol(token).map_or(0, |(_, arity)| arity);
    let missing = due - found;
    let wrong = format!(
        "{called} ends too early: {} is followed by {}, and here by {found}.",
        shown(token),
        count(due, "term")
    );
    (wrong, format!("Add the {} that {} missing, or change the arity.", count(missing, "term"), are(missing)))
}

/// A token that is neither a variable nor a symbol.
fn of_token(called: &str, token: &[u8]) -> (String, String) {
    let (why, mend) = why_no_token(token);
    (format!("{called} has {}, {why}.", quoted(token)), mend)
}

fn why_no_token(token: &[u8]) -> (String, String) {
    let has = |bytes: &[u8]| token.iter().any(|byte| bytes.contains(byte));
    let (why, mend) = if has(b"()") {
        (
            "a term in the usual notation",
            "Write it front to back without brackets: cons(X,Xs) is cons/2 X Xs in a pack.",
        )
    } else if has(b"[]|") {
        ("a list in brackets", "Write a list with symbols: [X] is cons/2 X nil/0.")
    } else if token.starts_with(b"_") {
        ("which starts with an underscore", "Give the variable a capital letter first.")
    } else if token.iter().all(u8::is_ascii_digit) {
        ("a number", "There are no numbers in terms: write a symbol, for instance n1/0.")
    } else if is_name(token) {
        let mend = format!("Write the number of its arguments after it, {}/0 if it has none.", shown(token));
        return ("a symbol without its arity".to_string(), mend);
    } else {
        return why_no_symbol(token);
    };
    (why.to_string(), mend.to_string())
}

fn why_no_symbol(token: &[u8]) -> (String, String) {
    let slash = token.iter().position(|byte| *byte == b'/');
    let name = &token[..slash.unwrap_or(token.len())];
    let is_word = name.iter().all(|byte| byte.is_ascii_alphanumeric() || *byte == b'_');
    if is_word && name.len() > NAME_BYTES {
        let why = format!("whose name has {}", count(name.len(), "character"));
        return (why, "A name or a variable has at most 16.".to_string());
    }
    if slash.is_some() && is_name(name) {
        return ("whose arity is not one digit".to_string(), "Write one digit, 0 to 9, after the slash.".to_string());
    }
    if slash.is_some() && is_variable(name) {
        let mend = "Start the symbol's name with a small letter; if it is a variable, leave out the arity.";
        return ("which has an arity but starts with a capital".to_string(), mend.to_string());
    }
    let mend = "A variable starts with a capital; a symbol is a name, / and one digit, for instance cons/2.";
    ("neither a variable nor a symbol".to_string(), mend.to_string())
}

/// 19: the term has variables.
pub fn of_variable(term: &[u8]) -> Option<Fault> {
    read_term(term).ok()?;
    explain_variables(tokens_of(term), "so the term has no size of its own")
}

/// Names the variables among the tokens of terms that may have none, and marks the first.
pub fn explain_variables<'t>(tokens: impl Iterator<Item = (usize, &'t [u8])>, why: &str) -> Option<Fault> {
    let mut variables: Vec<(usize, &[u8])> = Vec::new();
    for (place, token) in tokens {
        if is_variable(token) && variables.iter().all(|(_, known)| *known != token) {
            variables.push((place, token));
        }
    }
    let (start, first) = *variables.first()?;
    let names: Vec<String> = variables.iter().map(|(_, variable)| shown(variable)).collect();
    let (verb, mend) = match names.len() {
        1 => ("is a variable", "Put a term without variables in its place."),
        _ => ("are variables", "Put a term without variables in place of each."),
    };
    Fault::at(start..start + first.len(), format!("{} {verb}, {why}.", listed(&names, "and")), mend)
}

/// The tokens of a line's terms, each with its place in the line.
pub fn argument_tokens(line: &[u8]) -> impl Iterator<Item = (usize, &[u8])> {
    fields_of(line).into_iter().enumerate().skip(2).flat_map(|(field, term)| {
        let start = place_of_field(line, field).start;
        tokens_of(term).map(move |(place, token)| (start + place, token))
    })
}

/// The tokens of a field, each with its place.
fn tokens_of(field: &[u8]) -> impl Iterator<Item = (usize, &[u8])> {
    let mut start = 0;
    field.split(|byte| *byte == b' ').map(move |token| {
        let place = start;
        start += token.len() + 1;
        (place, token)
    })
}
