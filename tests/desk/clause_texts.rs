//! The desk against the library on clause texts: those of packs/clauses and of the stored vectors, and some thousands made
//! of them by damage (damage.rs). Whatever the library answers, the desk must work out the same numbers and bytes, say where
//! a refused text is at fault, and name what may stand there. `tests/desk/run` runs this with the other unit tests.

use crate::clauses::importing::OwnImport;
use crate::faults::Detail;
use crate::findings::{Refusal, Working};
use crate::import;
use crate::input::Source;
use crate::report::Status;
use crate::sheet::UNWRITTEN;
use crate::vectors::damage::damage_clauses;
use crate::vectors::random::Random;
use crate::vectors::read_vectors;
use cerrundix::{import_room, ImportRefusal, Imported};
use std::collections::BTreeSet;

const FOLDERS: [&str; 2] = ["packs/clauses", "packs/clauses/refused"];
const DAMAGED_TEXTS: usize = 12_000;

/// Longer texts are not damaged, nor cut at every byte: that would take minutes.
const DAMAGED_LENGTH: usize = 500;

fn texts() -> Vec<Vec<u8>> {
    let mut texts = read_vectors().clause_texts;
    for folder in FOLDERS {
        let entries = std::fs::read_dir(folder).expect("run this from the project's folder");
        let paths = entries.map(|entry| entry.expect("an entry of the folder").path());
        let clauses = paths.filter(|path| path.extension().is_some_and(|extension| extension == "pl"));
        texts.extend(clauses.map(|path| std::fs::read(path).expect("a file that can be read")));
    }
    assert!(texts.len() >= 12, "the examples are there");
    texts
}

// ---------------------------------------------------------------------------------------------------------------
// What is asked of each answer.

/// Imports; gives the library's number, and whether the text ends where it is at fault.
fn explain_import(text: &[u8]) -> (u64, bool) {
    let mut buffer = vec![UNWRITTEN; import_room(text.len())];
    let answer = cerrundix::import(text, &mut buffer);
    let report = import::report(&Source::of(text), &answer, &buffer);
    let printed = report.page.written(false);
    assert_ne!(report.status, Status::Disagreement, "{}\n{printed}", text.escape_ascii());
    assert!(report.json.written().starts_with('{'), "{}", text.escape_ascii());
    if let Ok(Imported { bytes, .. }) = answer {
        assert_eq!(printed.as_bytes(), &buffer[..bytes as usize]);
        explain_length(text, bytes as usize);
    } else {
        explain_refusal(text, &import::refusal_of(&OwnImport::of(text)).expect("a refusal"));
    }
    let [number, place, ..] = import::numbers_of(&answer);
    (number, place == text.len() as u64)
}

/// A buffer of just the lines' length will do, and one byte less will not.
fn explain_length(text: &[u8], length: usize) {
    assert!(cerrundix::import(text, &mut vec![UNWRITTEN; length]).is_ok());
    let Some(less) = length.checked_sub(1) else { return };
    let mut buffer = vec![UNWRITTEN; less];
    assert!(matches!(cerrundix::import(text, &mut buffer), Err(ImportRefusal::ShortBuffer { .. })));
    assert!(buffer.iter().all(|byte| *byte == UNWRITTEN));
}

/// It is said in sentences, marks bytes of the line or the place after it, and says what may stand there or what is passed.
fn explain_refusal(text: &[u8], refusal: &Refusal) {
    let quote = refusal.quote.as_ref().expect("a line");
    let mark = quote.mark.clone().expect("a mark");
    assert!(mark.start < mark.end && mark.end <= quote.text.len() + 1, "{} {mark:?}", text.escape_ascii());
    assert!(refusal.wrong.ends_with('.') && refusal.mend.ends_with('.'), "{} {}", refusal.wrong, refusal.mend);
    let is_told = match &refusal.working {
        Some(Working::Fault(Detail::Candidates(candidates))) => refusal.number == 25 && !candidates.is_empty(),
        Some(Working::Fault(Detail::Limits(limits))) => refusal.number == 26 && !limits.limits.is_empty(),
        _ => false,
    };
    assert!(is_told, "{}", text.escape_ascii());
}

// ---------------------------------------------------------------------------------------------------------------
// The tests.

#[test]
fn every_clause_text_is_explained() {
    let numbers: BTreeSet<u64> = texts().iter().map(|text| explain_import(text).0).collect();
    assert_eq!(numbers, [0, 25, 26].into(), "each answer has occurred");
}

/// The text up to every byte of it, which ends inside a clause or after one.
#[test]
fn every_front_of_a_clause_text_is_explained() {
    let mut answers = BTreeSet::new();
    for text in texts().iter().filter(|text| text.len() <= DAMAGED_LENGTH) {
        answers.extend((0..text.len()).map(|length| explain_import(&text[..length])));
    }
    assert!(answers.is_superset(&[(0, false), (25, false), (25, true)].into()), "{answers:?}");
}

#[test]
fn damaged_clause_texts_are_explained() {
    let texts: Vec<Vec<u8>> = texts().into_iter().filter(|text| text.len() <= DAMAGED_LENGTH).collect();
    let mut answers = BTreeSet::new();
    for number in 0..DAMAGED_TEXTS {
        let mut random = Random::for_pack(5, number as u64);
        let mut text = texts[random.below(texts.len())].clone();
        for _ in 0..random.below(5) {
            damage_clauses(&mut text, &mut random);
        }
        answers.insert(explain_import(&text));
    }
    let wanted = [(0, false), (25, false), (25, true), (26, false)];
    assert!(answers.is_superset(&wanted.into()), "each answer has occurred: {answers:?}");
}

/// Deep terms, closed and not; wide ones; many clauses; many variables.
#[test]
fn large_clause_texts_are_explained() {
    let deep = |levels: usize, closed: usize| format!("p({}a{}.", "f(".repeat(levels), ")".repeat(closed));
    let listed = |times: usize, word: &str| vec![word; times].join(",");
    assert_eq!(explain_import(deep(254, 255).as_bytes()), (0, false));
    assert_eq!(explain_import(deep(5_000, 5_001).as_bytes()), (26, false));
    assert_eq!(explain_import(deep(50_000, 0).trim_end_matches('.').as_bytes()), (25, true));
    assert_eq!(explain_import(deep(5_000, 5_000).as_bytes()), (25, false));
    assert_eq!(explain_import(format!("p({}).", listed(20_000, "_")).as_bytes()), (26, false));
    assert_eq!(explain_import(format!("p :- {}.", listed(20_000, "q(X)")).as_bytes()), (26, false));
    assert_eq!(explain_import("a.\n".repeat(20_000).as_bytes()), (0, false));
    assert_eq!(explain_import(" \n".repeat(20_000).as_bytes()), (0, false));
}

/// Texts whose lines are as long as `import_room` says, or near it.
#[test]
fn the_room_is_enough_and_no_longer_than_it_must_be() {
    let bytes = |text: &str| cerrundix::import(text.as_bytes(), &mut vec![0; import_room(text.len())]).unwrap().bytes;
    assert_eq!(bytes("a."), import_room(2) as u64);
    assert_eq!(bytes("a:-a."), 8);
    assert_eq!(bytes("p(a,a,a,a,a,a,a,a)."), import_room(19) as u64 - 2);
    let written = format!("p(f({}),f(_,_,_,_,_,_,_)).", "V1,V2,V3,V4,V5,V6,V7,V8,V9");
    let made = "H,p,f/9 V1 V2 V3 V4 V5 V6 V7 V8 V9,f/7 V10 V11 V12 V13 V14 V15 V16\n";
    assert_eq!(bytes(&written), made.len() as u64);
}
