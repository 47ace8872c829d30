//! Asks the library and the plain implementation the same: of each kind's packs, and of copies with a byte changed.

use crate::calls::LONGEST_SHEET;
use crate::kinds::{Kind, Sample};
use crate::random::Random;
use crate::{library, plain};

/// How many damaged copies of a kind's packs are asked about.
const COPIES: usize = 40;
/// Bytes that packs are made of, and one that they may not have.
const BYTES: &[u8] = b"09,/- \nAXahEM\t";

/// Numbers that the area is filled with before each check: those that check leaves alone must stay.
const FILLED: [i64; plain::AREA_NEEDED + 1] = [-77; plain::AREA_NEEDED + 1];

/// The page before each sheet, with a byte that no sheet has: one byte longer than any sheet.
const BLANK: [u8; LONGEST_SHEET + 1] = [177; LONGEST_SHEET + 1];

/// What the calls answer: check's word and area, reserve's word, and the sheet's numbers and page.
#[derive(PartialEq)]
struct Answers {
    check: u64,
    area: [i64; FILLED.len()],
    reserve: u64,
    sheet: [u64; 4],
    page: [u8; BLANK.len()],
}

fn of_library(sample: &Sample) -> Answers {
    let (mut area, mut page) = (FILLED, BLANK);
    let check = library::check(&sample.text, &mut area);
    let reserve = library::reserve(&sample.text, &sample.query);
    Answers { check, area, reserve, sheet: library::sheet(&sample.text, &mut page), page }
}

fn of_plain(sample: &Sample) -> Answers {
    let (mut area, mut page) = (FILLED, BLANK);
    let check = plain::word_of_check(plain::check(&sample.text, &mut area));
    let reserve = plain::word_of_reserve(plain::reserve(&sample.text, &sample.query));
    Answers { check, area, reserve, sheet: plain::sheets::sheet(&sample.text, &mut page), page }
}

/// Check's four numbers, from the word that C gets.
fn numbers(word: u64) -> [u64; 4] {
    [word & 255, (word >> 8) & 0xFFFF, (word >> 24) & 255, word >> 32]
}

impl std::fmt::Display for Answers {
    fn fmt(&self, formatter: &mut std::fmt::Formatter) -> std::fmt::Result {
        let [refusal, line, rule, claim] = numbers(self.check);
        write!(formatter, "{refusal},{line},{rule},{claim}, area {:?}, reserve {:#x}", self.area, self.reserve)?;
        let sheet: Vec<u8> = self.page.iter().copied().filter(|byte| *byte != BLANK[0]).collect();
        write!(formatter, ", sheet {:?} of {} bytes: {}", self.sheet, sheet.len(), sheet.escape_ascii())
    }
}

/// The answer of both, or in words how they differ.
fn same_answers(sample: &Sample) -> Result<Answers, String> {
    let (library, plain) = (of_library(sample), of_plain(sample));
    if library == plain {
        Ok(library)
    } else {
        Err(format!("the library answers {library}; the plain implementation {plain}"))
    }
}

/// Do both accept all packs of the kind, with the same numbers and the same sheet, and leave the area alone? And is the kind
/// what its name says? In words, what is not so.
pub fn compare_packs(kind: &Kind) -> Result<(), String> {
    for sample in &kind.samples {
        let answers = same_answers(sample)?;
        if numbers(answers.check)[0] != 0 || answers.area != FILLED {
            return Err(format!("both refuse it: {answers}"));
        }
        if answers.sheet != numbers(answers.check) {
            return Err(format!("the sheet has not check's numbers: {answers}"));
        }
        if ![b'B', b'N', b'I'].contains(&(answers.reserve as u8)) {
            return Err(format!("both refuse the query: {answers}"));
        }
    }
    if (kind.is_as_named)(&kind.samples) {
        Ok(())
    } else {
        Err("its packs are not what its name says".to_string())
    }
}

/// Do both answer alike of the damaged copies? How many of these were refused, and for how many the area was changed.
pub fn compare_copies(kind: &Kind) -> Result<(usize, usize), String> {
    let mut random = Random::new(6);
    let (mut refused, mut residuals) = (0, 0);
    for copy in 0..COPIES {
        let sample = &kind.samples[copy % kind.samples.len()];
        let mut text = sample.text.clone();
        let place = random.below(text.len());
        // Another digit for a digit, so that many copies are refused for a claim only.
        text[place] = random.pick(if text[place].is_ascii_digit() { b"0123456789" } else { BYTES });
        let answers = same_answers(&Sample { text, query: sample.query.clone() })
            .map_err(|difference| format!("copy {copy}, byte {place} changed: {difference}"))?;
        refused += usize::from(numbers(answers.check)[0] != 0);
        residuals += usize::from(answers.area != FILLED);
    }
    Ok((refused, residuals))
}
