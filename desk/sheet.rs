//! `packdesk sheet PACK`: the sheet for the job folder, byte for byte as the library writes it. The desk works out the
//! same sheet from the lines that it reads, and compares: the numbers with check's, and every byte of the page.

use crate::findings::{examine, numbers_of, status, Finding};
use crate::findings_json::{refusal_json, verdict_json};
use crate::findings_page::{show_refusal, show_verdict};
use crate::input::{read_pack, Source};
use crate::json::Json;
use crate::pack::{Pack, Rule};
use crate::page::Page;
use crate::report::{disagreement_json, Disagreement, Misuse, Report};
use crate::words::shown;
use cerrundix::{Filing, Verdict, SHEET_LIMIT, SHEET_LINE};
use std::ffi::OsStr;

/// What the page is filled with before the call: a byte that no sheet has.
pub const UNWRITTEN: u8 = 0xFF;

/// The columns of a line, without its byte 10.
const COLUMNS: usize = SHEET_LINE - 1;

pub fn run(operands: &[&OsStr]) -> Result<Report, Misuse> {
    let source = read_pack(operands[0])?;
    let verdict = cerrundix::check(&source.text);
    let mut page = vec![UNWRITTEN; SHEET_LIMIT];
    let filing = cerrundix::sheet(&source.text, &mut page);
    Ok(report(&source, &verdict, &filing, &page))
}

/// The sheet of an accepted pack and nothing else; a refused one is explained as `packdesk check` does.
pub fn report(source: &Source, verdict: &Verdict, filing: &Filing, lent: &[u8]) -> Report {
    let finding = examine(source, verdict).and_then(|finding| {
        compare_numbers(verdict, filing)?;
        compare_page(&own_sheet(&finding), lent)?;
        Ok(finding)
    });
    let mut page = Page::default();
    let json = verdict_json("sheet", source, verdict);
    let json = match &finding {
        Ok(Finding::Accepted(pack)) => {
            page.exactly(&String::from_utf8_lossy(&lent[..SHEET_LINE * pack.rules.len()]));
            json.with("entries", entries_json(pack))
        }
        Ok(Finding::Refused(refusal)) => {
            show_verdict(&mut page, source, verdict);
            show_refusal(&mut page, refusal);
            json.with("refusal", refusal_json(refusal))
        }
        Err(disagreement) => {
            show_verdict(&mut page, source, verdict);
            disagreement.show(&mut page, 0);
            json
        }
    };
    let json = json.with("disagreement", disagreement_json(finding.as_ref().err()));
    Report { page, json, status: status(verdict, &finding) }
}

// ---------------------------------------------------------------------------------------------------------------
// The desk's own sheet.

/// What the desk expects on the page: nothing of a refused pack.
fn own_sheet(finding: &Finding) -> String {
    match finding {
        Finding::Accepted(pack) => sheet_of(pack),
        Finding::Refused(_) => String::new(),
    }
}

fn sheet_of(pack: &Pack) -> String {
    (1..).zip(&pack.rules).map(|(number, rule)| line_of(number, rule)).collect()
}

/// A rule's line: its number, its head's name, how many subgoals and how many `M` lines it has.
fn line_of(number: usize, rule: &Rule) -> String {
    let (name, subgoals, multiplier_lines) = (shown(rule.head.name), rule.subgoals.len(), rule.multipliers.len());
    let columns = format!("{number:>4} {name:<16} {subgoals:>2} {multiplier_lines:>3}");
    format!("{columns:<COLUMNS$}\n")
}

fn entries_json(pack: &Pack) -> Json {
    let entry_json = |(number, rule): (usize, &Rule)| {
        Json::object([
            ("rule", Json::number(number)),
            ("head", Json::text(shown(rule.head.name))),
            ("arity", Json::number(rule.head.arguments.len())),
            ("subgoals", Json::number(rule.subgoals.len())),
            ("multiplier_lines", Json::number(rule.multipliers.len())),
        ])
    };
    Json::List((1..).zip(&pack.rules).map(entry_json).collect())
}

// ---------------------------------------------------------------------------------------------------------------
// Comparing.

/// The call has check's numbers: the page that is lent has room for every sheet.
fn compare_numbers(verdict: &Verdict, filing: &Filing) -> Result<(), Disagreement> {
    let checked = numbers_of(verdict);
    let filed = match *filing {
        Filing::Filed { lines, rules, multiplier_lines } => [0, lines, rules, multiplier_lines],
        Filing::ShortPage => [23, 0, 0, 0],
        Filing::Refused { number, line, rule, claim } => [number, line, rule, claim],
    };
    if filed == checked {
        return Ok(());
    }
    Disagreement::that(format!("The library's check answers {checked:?}, its sheet {filed:?}."))
}

/// The page has the desk's sheet at its front and is untouched after it.
fn compare_page(own: &str, lent: &[u8]) -> Result<(), Disagreement> {
    let Some(front) = lent.get(..own.len()) else {
        return Disagreement::that("The desk works out a longer sheet than any pack has.");
    };
    let lines = own.as_bytes().chunks(SHEET_LINE).zip(front.chunks(SHEET_LINE));
    for (number, (own, library)) in (1..).zip(lines) {
        if own != library {
            let (own, library) = (shown(own), shown(library));
            return Disagreement::that(format!(
                "On line {number} of the sheet the library writes '{library}', the desk works out '{own}'."
            ));
        }
    }
    match lent[own.len()..].iter().position(|byte| *byte != UNWRITTEN) {
        None => Ok(()),
        Some(place) => Disagreement::that(format!(
            "The library writes on byte {} of the page, where no sheet lies.",
            own.len() + place
        )),
    }
}

#[cfg(test)]
mod tests {
    use super::*;
    use crate::pack::tests::JOIN;
    use crate::report::Status;

    const ACCEPTED: Verdict = Verdict::Accepted { lines: 11, rules: 2, multiplier_lines: 4 };
    const FILED: Filing = Filing::Filed { lines: 11, rules: 2, multiplier_lines: 4 };
    const REFUSED: Filing = Filing::Refused { number: 5, line: 2, rule: 0, claim: 0 };

    /// A page with this at its front.
    fn page_with(front: &[u8]) -> Vec<u8> {
        let mut page = vec![UNWRITTEN; SHEET_LIMIT];
        page[..front.len()].copy_from_slice(front);
        page
    }

    fn sheet_of_join() -> Vec<u8> {
        let first = format!("   1 join{} 0   2{}\n", " ".repeat(13), " ".repeat(36));
        let second = format!("   2 join{} 1   2{}\n", " ".repeat(13), " ".repeat(36));
        (first + &second).into_bytes()
    }

    fn status_of(filing: Filing, page: &[u8]) -> Status {
        report(&Source::of(JOIN), &ACCEPTED, &filing, page).status
    }

    fn status_of_refused(filing: Filing, page: &[u8]) -> Status {
        report(&Source::of(b"E\nE\n"), &Verdict::Refused { number: 5, line: 2 }, &filing, page).status
    }

    #[test]
    fn a_right_sheet_is_printed_as_it_is() {
        let report = report(&Source::of(JOIN), &ACCEPTED, &FILED, &page_with(&sheet_of_join()));
        assert_eq!(report.status, Status::Accepted);
        assert_eq!(report.page.written(true).as_bytes(), sheet_of_join());
    }

    #[test]
    fn any_other_byte_of_the_page_is_a_disagreement() {
        for place in 0..SHEET_LIMIT {
            let mut page = page_with(&sheet_of_join());
            page[place] ^= 1;
            assert_eq!(status_of(FILED, &page), Status::Disagreement, "byte {place}");
        }
        assert_eq!(status_of(FILED, &page_with(b"")), Status::Disagreement);
    }

    #[test]
    fn any_other_numbers_are_a_disagreement() {
        let page = page_with(&sheet_of_join());
        for (lines, rules, multiplier_lines) in [(12, 2, 4), (11, 3, 4), (11, 2, 3), (11 + (1 << 16), 2, 4)] {
            let filing = Filing::Filed { lines, rules, multiplier_lines };
            assert_eq!(status_of(filing, &page), Status::Disagreement);
        }
        assert_eq!(status_of(Filing::ShortPage, &page_with(b"")), Status::Disagreement);
        assert_eq!(status_of(REFUSED, &page_with(b"")), Status::Disagreement);
    }

    #[test]
    fn a_refused_pack_has_its_numbers_and_leaves_the_page() {
        assert_eq!(status_of_refused(REFUSED, &page_with(b"")), Status::Refused);
        for place in 0..SHEET_LIMIT {
            let mut page = page_with(b"");
            page[place] = b' ';
            assert_eq!(status_of_refused(REFUSED, &page), Status::Disagreement, "byte {place}");
        }
        for (number, line, rule, claim) in [(6, 2, 0, 0), (5, 1, 0, 0), (5, 2, 1, 0), (5, 2, 0, 1)] {
            let filing = Filing::Refused { number, line, rule, claim };
            assert_eq!(status_of_refused(filing, &page_with(b"")), Status::Disagreement);
        }
        assert_eq!(status_of_refused(Filing::ShortPage, &page_with(b"")), Status::Disagreement);
    }
}
