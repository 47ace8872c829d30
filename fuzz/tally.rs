//! How often each kind of answer occurred in a run, and which kinds must have.

#[path = "tally_arities.rs"]
mod arities;
#[path = "tally_imports.rs"]
mod imports;

use crate::plain;
use std::collections::BTreeMap;
use std::time::Instant;

/// Among the accepted packs, those with facts are counted a second time under this name.
const ACCEPTED_WITH_FACTS: &str = "check 0 with facts";

/// The tests next to 24 are counted a second time under these names: packs refused with it that have lines after the
/// `E` line, which would be 4 or 5, and packs refused with 9 on an `E` line that would be 24 without its further fields.
const LINES_AFTER_24: &str = "check 24 with lines after E";
const FIELDS_BEFORE_24: &str = "check 9 in place of 24";

/// Among the sheets that were written, the shortest and the longest are counted a second time under these names; those of
/// refused packs, which leave the page, under the last.
const SHEET_WITHOUT_RULES: &str = "sheet 0 without rules";
const LONGEST_SHEET: &str = "sheet 0 of 64 rules";
const SHEET_OF_REFUSED: &str = "sheet (refused pack)";

/// What has been counted in a run.
#[derive(Default)]
pub struct Tally {
    /// How often each kind of answer occurred, under names as `check 13` or `reserve B`.
    answers: BTreeMap<String, u64>,
    pub bytes: u64,
    pub clause_bytes: u64,
    pub differences: u64,
    /// Whether every question is shown: for a pack that is made again alone.
    pub shows_questions: bool,
}

/// How many lines of the text begin so.
pub fn count_lines(text: &[u8], beginning: &[u8]) -> usize {
    text.split(|byte| *byte == 10).filter(|line| line.starts_with(beginning)).count()
}

impl Tally {
    pub fn new(shows_questions: bool) -> Tally {
        Tally { shows_questions, ..Tally::default() }
    }

    pub fn count(&mut self, name: String) {
        *self.answers.entry(name).or_default() += 1;
    }

    pub fn count_check(&mut self, word: u64, text: &[u8]) {
        self.count(format!("check {}", word & 255));
        if word & 255 == 0 && count_lines(text, b"G,") > 0 {
            self.count(ACCEPTED_WITH_FACTS.to_string());
        }
        self.count_end(word, text);
        arities::kinds_of_check(word, text).into_iter().for_each(|name| self.count(name));
    }

    /// Whether check's answer is one next to 24, by what the text has at and after the line of the refusal.
    fn count_end(&mut self, word: u64, text: &[u8]) {
        let (number, line) = (word & 0xFF, (word >> 8 & 0xFFFF) as usize);
        let lines: Vec<&[u8]> = text.split_inclusive(|byte| *byte == 10).collect();
        if number == 24 && line < lines.len() {
            self.count(LINES_AFTER_24.to_string());
        }
        if number == 9 && lines[line - 1].starts_with(b"E,") {
            let mended = [lines[..line - 1].concat(), b"E\n".to_vec()].concat();
            if plain::check(&mended, &mut [0; plain::AREA_NEEDED])[0] == 24 {
                self.count(FIELDS_BEFORE_24.to_string());
            }
        }
    }

    /// A refusal of an accepted pack's query is named by its number.
    pub fn count_reservation(&mut self, word: u64, text: &[u8], query: &[u8], accepted: bool) {
        let name = match (word & 255) as u8 {
            b'R' if accepted => format!("reserve R {}", word >> 16),
            b'R' => "reserve R (pack)".to_string(),
            letter => format!("reserve {}", letter as char),
        };
        if accepted && arities::shares_name(text, query) {
            self.count(name.clone() + arities::SHARED);
        }
        self.count(name);
    }

    /// A pack's own refusals are one kind of answer here: check is asked about each of them.
    pub fn count_sheet(&mut self, numbers: [u64; 4]) {
        match numbers {
            [0 | 23, ..] => self.count(format!("sheet {}", numbers[0])),
            _ => self.count(SHEET_OF_REFUSED.to_string()),
        }
        match numbers {
            [0, _, 0, _] => self.count(SHEET_WITHOUT_RULES.to_string()),
            [0, _, 64, _] => self.count(LONGEST_SHEET.to_string()),
            _ => {}
        }
    }

    pub fn count_import(&mut self, numbers: [u64; 4], text: &[u8], room: usize) {
        imports::kinds_of_import(numbers, text, room).into_iter().for_each(|name| self.count(name));
    }

    /// Prints how often each answer occurred.
    pub fn report(&self, start: Instant) {
        let mut names: Vec<&String> = self.answers.keys().collect();
        names.sort_by_key(|name| (name.split(' ').next(), name.len(), name.to_string()));
        let counts: Vec<String> = names.iter().map(|name| format!("{name}: {}", self.answers[*name])).collect();
        println!("{}", counts.join(", "));
        let seconds = start.elapsed().as_secs_f64();
        println!("{} bytes of packs, {} bytes of clauses, {seconds:.1} seconds", self.bytes, self.clause_bytes);
    }

    /// Names the answers that must occur and did not, or too rarely; true if there is one.
    pub fn say_missing(&self) -> bool {
        let packs = needed_answers().into_iter().map(|name| (name, 1));
        let imports = imports::needed_answers().map(|name| (name, imports::FEWEST));
        let mut is_missing = false;
        for (name, fewest) in packs.chain(imports) {
            let met = self.answers.get(&name).copied().unwrap_or(0);
            if met < fewest {
                println!("FAILED: met {met} times, fewer than {fewest}: {name}");
                is_missing = true;
            }
        }
        is_missing
    }
}

/// All answers about packs that a run must have met.
fn needed_answers() -> Vec<String> {
    let check = (0..=13).chain([20, 21, 22, 24]).map(|number| format!("check {number}"));
    let check = check.chain([ACCEPTED_WITH_FACTS, LINES_AFTER_24, FIELDS_BEFORE_24].map(String::from));
    let letters = ["B", "N", "I"].iter().map(|letter| format!("reserve {letter}"));
    let refusals = [4, 14, 16, 17, 18].iter().map(|number| format!("reserve R {number}"));
    let measure = [0, 4, 11, 19].iter().map(|number| format!("measure {number}"));
    let sheet = ["sheet 0", "sheet 23", SHEET_OF_REFUSED, SHEET_WITHOUT_RULES, LONGEST_SHEET].map(String::from);
    check.chain(letters).chain(refusals).chain(measure).chain(sheet).chain(arities::needed_answers()).collect()
}
