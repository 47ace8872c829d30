//! `packdesk measure TERM..`: the library's size of each term, the term in the usual notation, and its sum of arities.

use crate::faults;
use crate::findings::Refusal;
use crate::findings_json::refusal_json;
use crate::findings_page::show_refusal;
use crate::input::read_lines;
use crate::json::Json;
use crate::page::{Page, Style};
use crate::quoting::shortened;
use crate::report::{disagreement_json, Disagreement, Misuse, Report, Status};
use crate::terms::{read_term, Token};
use crate::words::{grouped, shown, times};
use std::ffi::OsStr;

/// The explanation of a size or of a refusal.
enum Explanation<'t> {
    Size { usual: String, symbols: Vec<SymbolCount> },
    Refused(Refusal<'t>),
}

/// A symbol and how often it occurs in a term.
struct SymbolCount {
    written: String,
    arity: usize,
    times: usize,
}

pub fn run(operands: &[&OsStr]) -> Result<Report, Misuse> {
    let terms = read_lines(operands)?;
    let sizes: Vec<Result<u64, u8>> = terms.iter().map(|term| cerrundix::measure(term)).collect();
    Ok(report(&terms, &sizes))
}

pub fn report(terms: &[Vec<u8>], sizes: &[Result<u64, u8>]) -> Report {
    let mut page = Page::default();
    let mut answers = Vec::new();
    let mut status = Status::Accepted;
    for (place, (term, size)) in terms.iter().zip(sizes).enumerate() {
        let explanation = explain(term, size);
        if place > 0 {
            page.blank();
        }
        show(&mut page, term, size, &explanation);
        answers.push(answer_json(term, size, &explanation));
        status = status.max(match (&explanation, size) {
            (Err(_), _) => Status::Disagreement,
            (Ok(_), Err(_)) => Status::Refused,
            (Ok(_), Ok(_)) => Status::Accepted,
        });
    }
    let json = Json::object([("command", Json::text("measure")), ("answers", Json::List(answers))]);
    Report { page, json, status }
}

fn explain<'t>(term: &'t [u8], size: &Result<u64, u8>) -> Result<Explanation<'t>, Disagreement> {
    match *size {
        Ok(size) => explain_size(term, size),
        Err(number) => {
            let Some(fault) = faults::of_term(number, term) else {
                return Disagreement::that(format!(
                    "The library refuses the term with {number}; the desk finds no such fault in it."
                ));
            };
            Ok(Explanation::Refused(Refusal::of(number, None, term, fault)))
        }
    }
}

fn explain_size(term: &[u8], size: u64) -> Result<Explanation<'_>, Disagreement> {
    let Ok(read) = read_term(term) else {
        return Disagreement::that("The library measures the term; the desk cannot read it.");
    };
    let mut tokens: Vec<Token> = Vec::new();
    read.walk(&mut |token| tokens.push(token));
    let symbols = count_symbols(&tokens);
    let own = read.sum_of_arities();
    if own as u64 != size || tokens.iter().any(|token| matches!(token, Token::Variable(_))) {
        return Disagreement::that(format!("The library measures {size}, the desk works out {own}."));
    }
    Ok(Explanation::Size { usual: read.usual(), symbols })
}

/// The symbols in order of their first occurrence.
fn count_symbols(tokens: &[Token]) -> Vec<SymbolCount> {
    let mut symbols: Vec<SymbolCount> = Vec::new();
    for token in tokens {
        let Token::Symbol(name, arity) = token else { continue };
        let written = format!("{}/{arity}", shown(name));
        match symbols.iter_mut().find(|symbol| symbol.written == written) {
            Some(symbol) => symbol.times += 1,
            None => symbols.push(SymbolCount { written, arity: *arity, times: 1 }),
        }
    }
    symbols
}

fn show(page: &mut Page, term: &[u8], size: &Result<u64, u8>, explanation: &Result<Explanation, Disagreement>) {
    let (style, outcome) = match size {
        Ok(size) => (Style::Good, format!("size {}", grouped(*size))),
        Err(number) => (Style::Bad, format!("refused ({number})")),
    };
    page.heading(&shortened(term), style, &outcome);
    match explanation {
        Ok(Explanation::Size { usual, symbols }) => {
            page.item(2, usual);
            page.item(2, &sum_of_arities(symbols));
        }
        Ok(Explanation::Refused(refusal)) => show_refusal(page, refusal),
        Err(disagreement) => disagreement.show(page, 2),
    }
}

/// `20 from cons/2 (10 times)`, for each symbol that adds something.
fn sum_of_arities(symbols: &[SymbolCount]) -> String {
    let parts: Vec<String> = symbols
        .iter()
        .filter(|symbol| symbol.arity > 0)
        .map(|symbol| format!("{} from {} ({})", symbol.arity * symbol.times, symbol.written, times(symbol.times)))
        .collect();
    if parts.is_empty() {
        "no symbol has arguments".to_string()
    } else {
        parts.join(" + ")
    }
}

fn answer_json(term: &[u8], size: &Result<u64, u8>, explanation: &Result<Explanation, Disagreement>) -> Json {
    let json = Json::object([
        ("term", Json::text(shown(term))),
        ("answer", Json::text(if size.is_ok() { "size" } else { "refused" })),
        ("number", size.err().map_or(Json::Null, Json::number)),
        ("size", size.ok().map_or(Json::Null, Json::number)),
    ]);
    let json = match explanation {
        Ok(Explanation::Size { usual, symbols }) => {
            json.with("usual", Json::text(usual)).with("symbols", Json::List(symbols.iter().map(symbol_json).collect()))
        }
        Ok(Explanation::Refused(refusal)) => json.with("refusal", refusal_json(refusal)),
        Err(_) => json,
    };
    json.with("disagreement", disagreement_json(explanation.as_ref().err()))
}

fn symbol_json(symbol: &SymbolCount) -> Json {
    Json::object([
        ("symbol", Json::text(&symbol.written)),
        ("times", Json::number(symbol.times)),
        ("adds", Json::number(symbol.arity * symbol.times)),
    ])
}

#[cfg(test)]
mod tests {
    use super::*;

    fn status_of(term: &[u8], size: Result<u64, u8>) -> Status {
        report(&[term.to_vec()], &[size]).status
    }

    #[test]
    fn a_right_size_or_refusal_is_confirmed() {
        assert_eq!(status_of(b"cons/2 a/0 nil/0", Ok(2)), Status::Accepted);
        assert_eq!(status_of(b"cons/2 a/0", Err(11)), Status::Refused);
        assert_eq!(status_of(b"f/1 X", Err(19)), Status::Refused);
        assert_eq!(status_of(b"a/0\n", Err(4)), Status::Refused);
    }

    #[test]
    fn any_other_is_a_disagreement() {
        assert_eq!(status_of(b"cons/2 a/0 nil/0", Ok(3)), Status::Disagreement);
        assert_eq!(status_of(b"cons/2 a/0", Ok(2)), Status::Disagreement);
        assert_eq!(status_of(b"X", Ok(0)), Status::Disagreement);
        for number in 1..=40 {
            assert_eq!(status_of(b"cons/2 a/0 nil/0", Err(number)), Status::Disagreement);
        }
    }

    #[test]
    fn the_worst_of_several_counts() {
        let terms = [b"a/0".to_vec(), b"a".to_vec(), b"a/0".to_vec()];
        assert_eq!(report(&terms, &[Ok(0), Err(11), Ok(0)]).status, Status::Refused);
        assert_eq!(report(&terms, &[Ok(1), Err(11), Ok(0)]).status, Status::Disagreement);
    }
}
