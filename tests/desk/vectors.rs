//! The desk against the library: every text, query and term of the stored vectors, and some thousands of packs made of
//! them, of packs with facts and of packs with one name at several arities, by damage (damage.rs). Whatever the library answers, the desk must find the fault that it names or
//! work out the same numbers and the same sheet: no disagreement and no panic. `tests/desk/run` runs this with the other
//! unit tests, from the project's folder.

use crate::check;
use crate::findings::{examine, Finding};
use crate::input::Source;
use crate::measure;
use crate::pack::lines_of;
use crate::report::{Report, Status};
use crate::reserve;
use crate::sheet;
use cerrundix::{Filing, Reservation, Verdict, SHEET_LIMIT};
use damage::{damage, damaged_bytes, query_of};
use random::Random;
use std::collections::{BTreeMap, BTreeSet};

#[path = "../../fuzz/random.rs"]
#[allow(dead_code)]
pub mod random;

#[path = "damage.rs"]
pub mod damage;

const VECTORS: &str = "tests/vectors";
const DAMAGED_PACKS: usize = 6_000;

/// Packs with facts: one that is accepted, and one for each refusal that only facts can get.
const PACKS_WITH_FACTS: [&[u8]; 4] = [
    include_bytes!("../../packs/sorter.pack"),
    include_bytes!("../../packs/refused/20-fact-of-ruled.pack"),
    include_bytes!("../../packs/refused/21-variable-in-fact.pack"),
    include_bytes!("../../packs/refused/22-claim-not-met.pack"),
];

/// Packs with one name at several arities: kinds, claims and rules of each are its own.
const PACKS_WITH_ARITIES: [&[u8]; 3] = [
    b"P,path,2,R\nP,path,3,R\nP,path,1,G\nC,path,0,1,-1\nC,path,0,1,1,-1\nC,path,2,-1\nG,path,up/1 tray/0\n\
      H,path,X,Y\nB,path,X,nil/0,Y\nM,1\nH,path,nil/0,Y,Y\nM\n\
      H,path,cons/2 X Xs,Y,Z\nB,path,Xs,cons/2 X Y,Z\nB,path,X\nM,1,0\nE\n",
    b"P,k,0,R\nP,k,1,G\nP,k,8,R\nC,k,0\nC,k,7,-2\nC,k,7,-1,0,0,0,0,0,0,1\nC,k,0,1\n\
      H,k\nB,k,X\nM,0,0\nH,k,nil/0,B,C,D,E,F,G,H\nM\nE\n",
    b"P,k,0,G\nP,k,1,G\nP,k,2,G\nP,k,3,G\nP,k,4,G\nP,k,5,G\nP,k,6,G\nP,k,7,G\nP,k,8,G\n\
      C,k,4,-1\nC,k,-2,1,-1\nC,k,-9,0,1,-1\nG,k\nG,k,a/0\nG,k,s/2 a/0 a/0,a/0\nE\n",
];

// ---------------------------------------------------------------------------------------------------------------
// The vectors (tests/vectors/README.md says how their lines are written).

#[derive(Default)]
pub struct Vectors {
    packs: Vec<Vec<u8>>,
    queries: Vec<(Vec<u8>, Vec<u8>)>,
    terms: Vec<Vec<u8>>,
    pub clause_texts: Vec<Vec<u8>>,
}

/// A place in a line of a vector file, and what `let` has named so far.
struct LineReader<'v> {
    rest: &'v [u8],
    named: &'v BTreeMap<String, Vec<u8>>,
}

impl LineReader<'_> {
    fn word(&mut self, is_of_it: fn(&u8) -> bool) -> String {
        let length = self.rest.iter().take_while(|byte| is_of_it(byte)).count();
        let (word, rest) = self.rest.split_at(length);
        self.rest = rest;
        String::from_utf8_lossy(word).into_owned()
    }

    fn skip(&mut self, byte: u8) -> bool {
        let is_there = self.rest.first() == Some(&byte);
        self.rest = &self.rest[usize::from(is_there)..];
        is_there
    }

    /// What stands between quotes.
    fn quoted(&mut self) -> Vec<u8> {
        let mut bytes = Vec::new();
        assert!(self.skip(b'"'), "a quoted string");
        while !self.skip(b'"') {
            let byte = self.rest[0];
            self.rest = &self.rest[1..];
            bytes.push(if byte == b'\\' { self.escape() } else { byte });
        }
        bytes
    }

    fn escape(&mut self) -> u8 {
        let byte = self.rest[0];
        self.rest = &self.rest[1..];
        match byte {
            b'n' => b'\n',
            b'x' => {
                let digits = std::str::from_utf8(&self.rest[..2]).unwrap();
                self.rest = &self.rest[2..];
                u8::from_str_radix(digits, 16).unwrap()
            }
            other => other,
        }
    }

    /// Pieces joined by `+`, each with a count and `*` in front where it is repeated.
    fn bytes(&mut self) -> Vec<u8> {
        let mut bytes = Vec::new();
        self.skip(b' ');
        loop {
            let count = self.word(u8::is_ascii_digit);
            let times = if self.skip(b'*') { count.parse().unwrap() } else { 1 };
            let name = self.word(u8::is_ascii_lowercase);
            let piece = if name.is_empty() { self.quoted() } else { self.named[&name].clone() };
            bytes.extend(piece.repeat(times));
            if !self.skip(b'+') {
                return bytes;
            }
        }
    }
}

pub fn read_vectors() -> Vectors {
    let mut vectors = Vectors::default();
    let entries = std::fs::read_dir(VECTORS).expect("run this from the project's folder");
    let paths = entries.map(|entry| entry.expect("an entry of the folder").path());
    for path in paths.filter(|path| path.extension().is_some_and(|extension| extension == "txt")) {
        let text = std::fs::read(path).expect("a file that can be read");
        let mut named = BTreeMap::new();
        for line in lines_of(&text) {
            read_vector(line, &mut named, &mut vectors);
        }
    }
    vectors
}

fn read_vector(line: &[u8], named: &mut BTreeMap<String, Vec<u8>>, vectors: &mut Vectors) {
    let names = named.clone();
    let mut reader = LineReader { rest: line, named: &names };
    match reader.word(u8::is_ascii_lowercase).as_str() {
        "let" => {
            reader.skip(b' ');
            let name = reader.word(u8::is_ascii_lowercase);
            named.insert(name, reader.bytes());
        }
        "check" | "sheet" => vectors.packs.push(reader.bytes()),
        "reserve" => {
            let pack = reader.bytes();
            vectors.queries.push((pack, reader.bytes()));
        }
        "measure" => vectors.terms.push(reader.bytes()),
        "program" => vectors.packs.push(reader.bytes()),
        "import" => vectors.clause_texts.push(reader.bytes()),
        _ => {}
    }
}

// ---------------------------------------------------------------------------------------------------------------
// What is asked of each answer.

/// Whatever the library answers is explained, and can be written in every form.
fn explained(report: &Report, what: &[u8]) {
    let text = String::from_utf8_lossy(what);
    assert_ne!(report.status, Status::Disagreement, "{}\n{text}", report.page.written(false));
    assert!(report.page.written(false).ends_with('\n') && report.json.written().starts_with('{'), "{text}");
}

/// The page of the sheet is what is printed, byte for byte; a refused pack is explained in the words of check.
fn explain_sheet(source: &Source, verdict: &Verdict) {
    let mut page = vec![sheet::UNWRITTEN; SHEET_LIMIT];
    let filing = cerrundix::sheet(&source.text, &mut page);
    let report = sheet::report(source, verdict, &filing, &page);
    let printed = report.page.written(false);
    assert_ne!(report.status, Status::Disagreement, "{printed}");
    match filing {
        Filing::Filed { .. } => {
            page.retain(|byte| *byte != sheet::UNWRITTEN);
            assert_eq!(printed.as_bytes(), page);
        }
        _ => assert_eq!(printed, check::report(source, verdict).page.written(false)),
    }
}

/// Checks the text, and asks for its sheet; gives the library's number.
fn explain_check(text: &[u8]) -> u8 {
    let source = Source::of(text);
    let verdict = cerrundix::check(text);
    explained(&check::report(&source, &verdict), text);
    explain_sheet(&source, &verdict);
    if let Ok(Finding::Refused(refusal)) = examine(&source, &verdict) {
        assert!(refusal.wrong.ends_with(['.', '?']) && refusal.mend.ends_with('.'), "{}", refusal.wrong);
        if let Some((quote, mark)) =
            refusal.quote.as_ref().and_then(|quote| quote.mark.clone().map(|mark| (quote, mark)))
        {
            assert!(mark.start < mark.end && mark.end <= quote.text.len() + 1, "{mark:?}");
        }
    }
    match verdict {
        Verdict::Accepted { .. } => 0,
        Verdict::Unjustified { .. } => 13,
        Verdict::Refused { number, .. } => number,
    }
}

/// Reserves; gives the letter and number of the library's answer.
fn explain_reserve(text: &[u8], query: &[u8]) -> (char, u8) {
    let verdict = cerrundix::check(text);
    let reservation = cerrundix::reserve(text, query);
    let answered = match reservation {
        Reservation::Bound { .. } => ('B', 0),
        Reservation::NoBound => ('N', 0),
        Reservation::Impossible { .. } => ('I', 0),
        Reservation::Refused { number } => ('R', number),
    };
    explained(&reserve::report(&Source::of(text), &verdict, &[query.to_vec()], vec![reservation]), query);
    answered
}

fn explain_measure(term: &[u8]) -> u8 {
    let size = cerrundix::measure(term);
    explained(&measure::report(&[term.to_vec()], &[size]), term);
    size.err().unwrap_or(0)
}

// ---------------------------------------------------------------------------------------------------------------
// The tests.

#[test]
fn every_vector_is_explained() {
    let vectors = read_vectors();
    assert!(vectors.packs.len() > 300 && vectors.queries.len() > 400 && vectors.terms.len() > 100);
    for text in &vectors.packs {
        explain_check(text);
    }
    for (text, query) in &vectors.queries {
        explain_reserve(text, query);
    }
    for term in &vectors.terms {
        explain_measure(term);
    }
}

/// Damages packs and asks queries of them; the verdicts and the answers that have occurred.
fn explain_damaged(packs: &[&[u8]], seed: u64) -> (BTreeSet<u8>, BTreeSet<(char, u8)>) {
    let (mut verdicts, mut answers) = (BTreeSet::new(), BTreeSet::new());
    for number in 0..DAMAGED_PACKS {
        let mut random = Random::for_pack(seed, number as u64);
        let mut text = packs[random.below(packs.len())].to_vec();
        for _ in 0..random.below(4) {
            damage(&mut text, &mut random);
        }
        verdicts.insert(explain_check(&text));
        let query = query_of(&text, &mut random);
        answers.insert(explain_reserve(&text, &query));
        answers.insert(explain_reserve(&text, &damaged_bytes(&query, &mut random)));
    }
    (verdicts, answers)
}

#[test]
fn damaged_packs_are_explained() {
    let vectors = read_vectors();
    let packs = vectors.packs.iter().chain(vectors.queries.iter().map(|(pack, _)| pack));
    let (verdicts, answers) = explain_damaged(&packs.map(Vec::as_slice).collect::<Vec<&[u8]>>(), 1);
    let wanted = [0, 2, 3, 4, 5, 6, 7, 8, 9, 10, 11, 12, 13, 24];
    assert!(wanted.iter().all(|number| verdicts.contains(number)), "each verdict has occurred: {verdicts:?}");
    let wanted = [('B', 0), ('N', 0), ('I', 0), ('R', 14), ('R', 16), ('R', 17), ('R', 18), ('R', 24)];
    assert!(wanted.iter().all(|answer| answers.contains(answer)), "each answer has occurred: {answers:?}");
}

#[test]
fn damaged_packs_with_arities_are_explained() {
    for pack in PACKS_WITH_ARITIES {
        assert_eq!(explain_check(pack), 0);
    }
    let (verdicts, answers) = explain_damaged(&PACKS_WITH_ARITIES, 4);
    let wanted = [0, 3, 4, 5, 6, 7, 8, 9, 10, 11, 13, 20, 22, 24];
    assert!(wanted.iter().all(|number| verdicts.contains(number)), "each verdict has occurred: {verdicts:?}");
    let wanted = [('B', 0), ('N', 0), ('I', 0), ('R', 8), ('R', 14), ('R', 16), ('R', 17), ('R', 18)];
    assert!(wanted.iter().all(|answer| answers.contains(answer)), "each answer has occurred: {answers:?}");
    assert!(!answers.contains(&('R', 15)), "15 is no longer given");
}

#[test]
fn damaged_packs_with_facts_are_explained() {
    let (verdicts, answers) = explain_damaged(&PACKS_WITH_FACTS, 3);
    let wanted = [0, 3, 4, 5, 6, 7, 8, 9, 10, 11, 13, 20, 21, 22];
    assert!(wanted.iter().all(|number| verdicts.contains(number)), "each verdict has occurred: {verdicts:?}");
    let wanted = [('B', 0), ('N', 0), ('I', 0), ('R', 20), ('R', 21), ('R', 22)];
    assert!(wanted.iter().all(|answer| answers.contains(answer)), "each answer has occurred: {answers:?}");
}

#[test]
fn damaged_terms_are_explained() {
    let vectors = read_vectors();
    let mut numbers = BTreeSet::new();
    for number in 0..DAMAGED_PACKS {
        let mut random = Random::for_pack(2, number as u64);
        let term = &vectors.terms[random.below(vectors.terms.len())];
        numbers.insert(explain_measure(&damaged_bytes(term, &mut random)));
    }
    assert_eq!(numbers, [0, 4, 11, 19].into(), "each answer has occurred");
}
