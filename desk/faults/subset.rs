//! 25: a clause text that is not in the subset of Prolog. Which token cannot stand where it stands, or what is missing at
//! the end; what may stand there; and what to write for the parts of Prolog that are left out.

use super::{Detail, Fault};
use crate::candidates::Candidate;
use crate::clauses::reading::Misplaced;
use crate::clauses::scanning::{is_of_a_run, Scanner, Token, TokenKind};
use crate::clauses::{line_at, TextLine};
use crate::findings::Refusal;
use crate::words::{count, grouped, quoted};

/// The text is refused inside the clause of this number, where these candidates may stand.
pub fn explain<'t>(text: &'t [u8], clause: usize, at: &Misplaced, candidates: Vec<Candidate>) -> Refusal<'t> {
    let (line, mark, wrong, mend) = match &at.token {
        Some(token) => {
            let line = line_at(text, token.place.start);
            let mark = token.place.start - line.start..token.place.end - line.start;
            let wrong = format!(
                "{} cannot stand here, {}. It is byte {} of the text, counted from 0.",
                named(text, token),
                inside(text, clause, at),
                grouped(token.place.start as u64)
            );
            (line, mark, wrong, hint(text, token, at, &candidates).to_string())
        }
        None => {
            let line = line_at(text, at.end_before);
            let mark = at.end_before - line.start..at.end_before - line.start + 1;
            let (length, clause) = (count(text.len(), "byte"), inside(text, clause, at));
            (line, mark, format!("The text, of {length}, ends {clause}."), finish(at, &candidates))
        }
    };
    let TextLine { number, bytes, .. } = line;
    let fault = Fault { mark, wrong, mend, detail: Some(Detail::Candidates(candidates)) };
    Refusal::of(25, Some(number), bytes, fault)
}

/// `inside clause 2, which starts on line 3, with 1 bracket open`
fn inside(text: &[u8], clause: usize, at: &Misplaced) -> String {
    let open = if at.open > 0 { format!(", with {} open", count(at.open, "bracket")) } else { String::new() };
    match at.clause_start {
        Some(start) => format!("inside clause {clause}, which starts on line {}{open}", line_at(text, start).number),
        None => format!("where clause {clause} would start"),
    }
}

/// The token as the subject of a sentence.
fn named(text: &[u8], token: &Token) -> String {
    let bytes = &text[token.place.clone()];
    match (token.kind, bytes) {
        (TokenKind::Name, _) => format!("The name {}", quoted(bytes)),
        (TokenKind::Variable, _) => format!("The variable {}", quoted(bytes)),
        (TokenKind::OtherRun, _) if bytes.iter().all(u8::is_ascii_digit) => format!("The number {}", quoted(bytes)),
        (_, b"\t") => "A tab".to_string(),
        (_, b"\r") => "A carriage return".to_string(),
        _ => quoted(bytes),
    }
}

// ---------------------------------------------------------------------------------------------------------------
// What to mend.

/// What is missing at the end of a text.
fn finish(at: &Misplaced, candidates: &[Candidate]) -> String {
    let is_complete = [Candidate::End, Candidate::Close].iter().any(|candidate| candidates.contains(candidate));
    let first = if is_complete { "" } else { "write what is missing, " };
    let brackets = match at.open {
        0 => String::new(),
        1 => "close the bracket, ".to_string(),
        _ => "close the brackets, ".to_string(),
    };
    let steps = format!("{first}{brackets}");
    match steps.trim_end_matches(", ") {
        "" => "End the clause with a dot.".to_string(),
        steps => format!("{}, and end the clause with a dot.", crate::words::capital(steps)),
    }
}

fn hint(text: &[u8], token: &Token, at: &Misplaced, candidates: &[Candidate]) -> &'static str {
    let may = |candidate| candidates.contains(&candidate);
    match token.kind {
        TokenKind::OtherRun if text[token.place.start] == b'_' => {
            "No variable starts with _ but _ by itself: write a capital first, or _ alone if the variable stands once."
        }
        TokenKind::OtherRun => {
            "There are no numbers in the subset, and no name starts with a digit: write a small letter first, or a \
             number as a term, as s(s(zero))."
        }
        TokenKind::Variable | TokenKind::Anonymous if is_before_operator(&text[token.place.end..]) => OPERATOR,
        TokenKind::Variable | TokenKind::Anonymous if may(Candidate::Name) => {
            "A head or subgoal is a name, alone or with arguments: a variable cannot stand for it."
        }
        TokenKind::Name if is_operator(&text[token.place.clone()]) => OPERATOR,
        TokenKind::Name | TokenKind::Variable | TokenKind::Anonymous => {
            "Something is missing before it: a comma, a bracket, or the dot of the clause before."
        }
        TokenKind::Neck if at.clause_start.is_none() => "Take it out: a directive is no fact and no rule.",
        TokenKind::Neck => {
            "Each clause has one :- at most, after its head: look for a missing dot or bracket before it."
        }
        TokenKind::Comma if may(Candidate::Neck) => "Subgoals stand after :- and not after a comma.",
        TokenKind::Comma | TokenKind::End => missing_before(candidates),
        TokenKind::Close if at.open == 0 => "Take it out: no bracket is open.",
        TokenKind::Close if text[at.end_before - 1] == b'(' => {
            "What has no arguments has no brackets: write the name alone, or an argument between them."
        }
        TokenKind::Close => missing_before(candidates),
        TokenKind::Open => open_bracket(text, at, candidates),
        TokenKind::Other => other_byte(text, token, at, candidates),
    }
}

fn missing_before(candidates: &[Candidate]) -> &'static str {
    match candidates {
        [Candidate::Name] => "A subgoal is missing before it.",
        _ if candidates.contains(&Candidate::Variable) => "An argument is missing before it.",
        _ => "A closing bracket is missing before it.",
    }
}

fn open_bracket(text: &[u8], at: &Misplaced, candidates: &[Candidate]) -> &'static str {
    let run = text[..at.end_before].iter().rev().take_while(|byte| is_of_a_run(**byte)).count();
    match text.get(at.end_before - run) {
        _ if candidates.contains(&Candidate::Open) => {
            "Take out the space or line end between the name and its bracket."
        }
        Some(b'A'..=b'Z' | b'_') if run > 0 => "A variable has no arguments: write a name, a small letter first.",
        _ => "Brackets stand only around the arguments of a name, right after it: take them out.",
    }
}

const OPERATOR: &str =
    "There are no operators, arithmetic or comparisons in the subset: write a name and its arguments, as \
                        less(X,Y), and declare it as given if no rules derive it.";
const QUOTE: &str = "Write the name without quotes: a small letter first, then letters, digits or _.";
const LIST: &str = "Write a list by a symbol and a constant, as cons(X,Xs) and nil: [, | and ] are not in the subset.";
const COMMENT: &str = "Take the comment out: there are none in the subset.";

fn is_operator(name: &[u8]) -> bool {
    [&b"is"[..], b"mod", b"rem", b"div", b"xor"].contains(&name)
}

fn is_operator_byte(byte: u8) -> bool {
    b"=<>+-*/\\^@#&~?$:".contains(&byte)
}

/// Whether what follows a term is an operator.
fn is_before_operator(rest: &[u8]) -> bool {
    let mut scanner = Scanner::of(rest);
    scanner.next_token().is_some_and(|token| match token.kind {
        TokenKind::Name => is_operator(&rest[token.place]),
        TokenKind::Other => is_operator_byte(rest[token.place.start]),
        _ => false,
    })
}

fn other_byte(text: &[u8], token: &Token, at: &Misplaced, candidates: &[Candidate]) -> &'static str {
    let rest = &text[token.place.start..];
    match rest {
        [b'.', b'\r', ..] | [b'\r', ..] => {
            "The line ends are those of Windows: take byte 13 out, for instance by: tr -d '\\r'."
        }
        [b'.', ..] if candidates.contains(&Candidate::End) => {
            "A dot ends a clause only before a space, a line end or the text's end: put one after it."
        }
        [b'(', ..] => open_bracket(text, at, candidates),
        [b'%', ..] | [b'/', b'*', ..] => COMMENT,
        [b'[' | b']' | b'|', ..] => LIST,
        [b'\'' | b'"' | b'`', ..] => QUOTE,
        [b'!', ..] => "There is no cut in the subset: take it out, if the clauses mean the same without it.",
        [b';', ..] | [b'-', b'>', ..] => "Write a clause of its own for each alternative.",
        [b'\\', b'+', ..] => "There are no negated subgoals in the subset: a given predicate may say the same.",
        [b'-', b'-', b'>', ..] => "There are no grammar rules in the subset: write the clause that it stands for.",
        [b'\t', ..] => "Write spaces for tabs: only spaces and line ends stand between tokens.",
        [0xEF, 0xBB, 0xBF, ..] if token.place.start == 0 => "Save the file as text without a byte order mark.",
        [0..=31 | 127, ..] => "Take the byte out: it is no text.",
        [128..=255, ..] => "Names are of the letters a to z and A to Z, digits and _: write it with these.",
        [byte, ..] if is_operator_byte(*byte) => OPERATOR,
        _ => "Write something in its place that may stand here, or take it out.",
    }
}
