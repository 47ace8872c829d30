//! `packdesk import CLAUSES`: the lines that a clause text becomes, byte for byte as the library writes them. The desk
//! reads the text too, and compares: the numbers, and every byte of the buffer. The buffer that it lends is long enough
//! for every text, so 27 is never given.

use crate::candidates::candidates_after;
use crate::clauses::importing::{OwnImport, TextEnd, WrittenClause};
use crate::faults::{clause_limits, subset};
use crate::findings::Refusal;
use crate::findings_json::refusal_json;
use crate::findings_page::show_refusal;
use crate::input::{read_clauses, Source};
use crate::json::Json;
use crate::page::{Page, Style};
use crate::report::{disagreement_json, Disagreement, Misuse, Report, Status};
use crate::sheet::UNWRITTEN;
use crate::words::{grouped, quoted, shown};
use cerrundix::{import_room, ImportRefusal, Imported};
use std::ffi::OsStr;

/// The library's answer.
pub type Answer = Result<Imported, ImportRefusal>;

pub fn run(operands: &[&OsStr]) -> Result<Report, Misuse> {
    let source = read_clauses(operands[0])?;
    let mut buffer = vec![UNWRITTEN; import_room(source.text.len())];
    let answer = cerrundix::import(&source.text, &mut buffer);
    Ok(report(&source, &answer, &buffer))
}

/// The lines and nothing else; a refused text is explained.
pub fn report(source: &Source, answer: &Answer, lent: &[u8]) -> Report {
    let own = OwnImport::of(&source.text);
    let agreed = compare_numbers(&own, answer).and_then(|()| compare_buffer(own.bytes(), lent));
    let mut page = Page::default();
    let json = Json::object([
        ("command", Json::text("import")),
        ("file", Json::text(&source.shown)),
        ("answer", Json::text(if answer.is_ok() { "imported" } else { "refused" })),
        ("numbers", Json::List(numbers_of(answer).map(Json::number).into())),
    ]);
    let (json, status) = match agreed.as_ref().map(|()| refusal_of(&own)) {
        Ok(None) => {
            page.exactly(&String::from_utf8_lossy(&lent[..own.bytes().len()]));
            (json.with("clauses", clauses_json(&own)), Status::Accepted)
        }
        Ok(Some(refusal)) => {
            show_answer(&mut page, source, answer);
            show_refusal(&mut page, &refusal);
            (json.with("refusal", refusal_json(&refusal)), Status::Refused)
        }
        Err(disagreement) => {
            show_answer(&mut page, source, answer);
            disagreement.show(&mut page, 0);
            (json, Status::Disagreement)
        }
    };
    let json = json.with("disagreement", disagreement_json(agreed.as_ref().err()));
    Report { page, json, status }
}

/// The call's four numbers.
pub fn numbers_of(answer: &Answer) -> [u64; 4] {
    match answer {
        Ok(Imported { clauses, bytes }) => [0, *clauses, *bytes, 0],
        Err(refusal) => refusal.numbers(),
    }
}

fn show_answer(page: &mut Page, source: &Source, answer: &Answer) {
    match numbers_of(answer) {
        [0, ..] => page.heading(&source.shown, Style::Good, "imported"),
        [number, ..] => page.heading(&source.shown, Style::Bad, &format!("refused ({number})")),
    }
}

/// Why the text is refused, where it is.
pub fn refusal_of<'t>(own: &OwnImport<'t>) -> Option<Refusal<'t>> {
    let clause = own.clauses.len() + 1;
    match &own.end {
        TextEnd::Reached => None,
        TextEnd::Misplaced(at) => {
            let place = at.token.as_ref().map_or(own.text.len(), |token| token.place.start);
            Some(subset::explain(own.text, clause, at, candidates_after(&own.text[..place])))
        }
        TextEnd::Limited(limited) => Some(clause_limits::explain(own.text, clause, limited)),
    }
}

/// Each clause with its number, its line in the text and its lines for a pack.
fn clauses_json(own: &OwnImport) -> Json {
    let clause_json = |(number, clause): (usize, &WrittenClause)| {
        Json::object([
            ("clause", Json::number(number)),
            ("line", Json::number(clause.line)),
            ("lines", Json::List(own.lines_of(clause).into_iter().map(|line| Json::text(shown(line))).collect())),
        ])
    };
    Json::List((1..).zip(&own.clauses).map(clause_json).collect())
}

// ---------------------------------------------------------------------------------------------------------------
// Comparing.

fn compare_numbers(own: &OwnImport, answer: &Answer) -> Result<(), Disagreement> {
    let (library, own) = (numbers_of(answer), own.numbers());
    if library == own {
        return Ok(());
    }
    Disagreement::that(format!("The library answers {library:?}, the desk works out {own:?}."))
}

/// The buffer has the desk's lines at its front and is untouched after them.
fn compare_buffer(own: &[u8], lent: &[u8]) -> Result<(), Disagreement> {
    let Some(front) = lent.get(..own.len()) else {
        return Disagreement::that("The desk works out longer lines than the buffer holds that it has lent.");
    };
    let mut lines = own.split_inclusive(|byte| *byte == b'\n');
    let mut at = 0;
    let differs = lines.find(|line| {
        at += line.len();
        front[at - line.len()..at] != **line
    });
    if let Some(line) = differs {
        let (line, library) = (quoted(line), quoted(&front[at - line.len()..at]));
        return Disagreement::that(format!("The library writes {library}, the desk works out {line}."));
    }
    match lent[own.len()..].iter().position(|byte| *byte != UNWRITTEN) {
        None => Ok(()),
        Some(place) => Disagreement::that(format!(
            "The library writes on byte {} of the buffer, where no line lies.",
            grouped((own.len() + place) as u64)
        )),
    }
}

#[cfg(test)]
mod tests {
    use super::*;

    const TEXT: &[u8] = b"p(a,f(X,_)) :- q(X), r.\ns.\n";
    const LINES: &[u8] = b"H,p,a/0,f/2 X V1\nB,q,X\nB,r\nH,s\n";
    const IMPORTED: Answer = Ok(Imported { clauses: 2, bytes: 31 });

    /// A buffer with this at its front.
    fn buffer_with(text: &[u8], front: &[u8]) -> Vec<u8> {
        let mut buffer = vec![UNWRITTEN; import_room(text.len())];
        buffer[..front.len()].copy_from_slice(front);
        buffer
    }

    fn status_of(text: &[u8], answer: Answer, front: &[u8]) -> Status {
        report(&Source::of(text), &answer, &buffer_with(text, front)).status
    }

    #[test]
    fn right_lines_are_printed_as_they_are() {
        let report = report(&Source::of(TEXT), &IMPORTED, &buffer_with(TEXT, LINES));
        assert_eq!(report.status, Status::Accepted);
        assert_eq!(report.page.written(true).as_bytes(), LINES);
    }

    #[test]
    fn any_other_byte_of_the_buffer_is_a_disagreement() {
        for place in 0..import_room(TEXT.len()) {
            let mut buffer = buffer_with(TEXT, LINES);
            buffer[place] ^= 1;
            let status = report(&Source::of(TEXT), &IMPORTED, &buffer).status;
            assert_eq!(status, Status::Disagreement, "byte {place}");
        }
    }

    #[test]
    fn any_other_numbers_are_a_disagreement() {
        for (clauses, bytes) in [(1, 31), (3, 31), (2, 30), (2, 32)] {
            assert_eq!(status_of(TEXT, Ok(Imported { clauses, bytes }), LINES), Status::Disagreement);
        }
        for clause in 0..4 {
            assert_eq!(status_of(TEXT, Err(ImportRefusal::PastLimit { clause }), b""), Status::Disagreement);
            assert_eq!(status_of(TEXT, Err(ImportRefusal::ShortBuffer { clause }), b""), Status::Disagreement);
        }
        for byte in 0..TEXT.len() as u64 + 2 {
            assert_eq!(status_of(TEXT, Err(ImportRefusal::NotInSubset { byte }), b""), Status::Disagreement);
        }
        assert_eq!(status_of(TEXT, Err(ImportRefusal::Unknown([0, 2, 31, 1])), LINES), Status::Disagreement);
    }

    #[test]
    fn a_refused_text_has_its_place_and_leaves_the_buffer() {
        let (text, limited): (&[u8], &[u8]) = (b"a.\nb c.", b"a.\nabcdefghijklmnopq.");
        assert_eq!(status_of(text, Err(ImportRefusal::NotInSubset { byte: 5 }), b""), Status::Refused);
        assert_eq!(status_of(text, Err(ImportRefusal::NotInSubset { byte: 5 }), b"H"), Status::Disagreement);
        assert_eq!(status_of(text, Err(ImportRefusal::NotInSubset { byte: 4 }), b""), Status::Disagreement);
        assert_eq!(status_of(limited, Err(ImportRefusal::PastLimit { clause: 2 }), b""), Status::Refused);
        assert_eq!(status_of(limited, Err(ImportRefusal::PastLimit { clause: 2 }), b"H"), Status::Disagreement);
        assert_eq!(status_of(limited, Err(ImportRefusal::PastLimit { clause: 1 }), b""), Status::Disagreement);
        assert_eq!(status_of(limited, Err(ImportRefusal::ShortBuffer { clause: 2 }), b""), Status::Disagreement);
    }
}
