//! `packdesk check PACK`: the library's verdict, and the pack or its fault in words.

use crate::findings::{examine, status, Finding};
use crate::findings_json::{claims_json, facts_json, refusal_json, verdict_json};
use crate::findings_page::{show_claims, show_facts, show_refusal, show_verdict};
use crate::input::{read_pack, Source};
use crate::page::Page;
use crate::report::{disagreement_json, Misuse, Report};
use cerrundix::Verdict;
use std::ffi::OsStr;

pub fn run(operands: &[&OsStr]) -> Result<Report, Misuse> {
    let source = read_pack(operands[0])?;
    let verdict = cerrundix::check(&source.text);
    Ok(report(&source, &verdict))
}

pub fn report(source: &Source, verdict: &Verdict) -> Report {
    let finding = examine(source, verdict);
    let mut page = Page::default();
    show_verdict(&mut page, source, verdict);
    match &finding {
        Ok(Finding::Accepted(pack)) => {
            show_facts(&mut page, pack);
            show_claims(&mut page, pack);
        }
        Ok(Finding::Refused(refusal)) => show_refusal(&mut page, refusal),
        Err(disagreement) => disagreement.show(&mut page, 0),
    }
    let json = verdict_json("check", source, verdict);
    let json = match &finding {
        Ok(Finding::Accepted(pack)) => json.with("claims", claims_json(pack)).with("facts", facts_json(pack)),
        Ok(Finding::Refused(refusal)) => json.with("refusal", refusal_json(refusal)),
        Err(_) => json,
    };
    let json = json.with("disagreement", disagreement_json(finding.as_ref().err()));
    Report { page, json, status: status(verdict, &finding) }
}
