//! How much stack each call of the library uses, at most, on the packs and clause texts that are timed.

use crate::generate::term_of_length;
use crate::imports::{lines_for, CLAUSE_TEXTS};
use crate::kinds::{Kind, Sample};
use crate::{library, plain, stack};
use std::hint::black_box;

/// What a call may use at most.
pub const STACK_ALLOWED: usize = 32 * 1_024;

/// The bytes of the longest sheet, which is of 64 rules.
pub const LONGEST_SHEET: usize = 64 * plain::sheets::LINE_BYTES;

/// A call that is known to use more than is allowed, to see that this is noticed.
pub const DEEP_CALL: usize = 40_000;

/// Of each kind so many packs are tried.
const PACKS_TRIED: usize = 100;

/// What one call used at most.
pub struct Depth {
    pub call: &'static str,
    pub bytes: usize,
}

fn call_check(sample: &mut &Sample) {
    let mut area = [0; plain::AREA_NEEDED];
    black_box(library::check(&sample.text, &mut area));
}

fn call_reserve(sample: &mut &Sample) {
    black_box(library::reserve(&sample.text, &sample.query));
}

/// The page is long enough for every sheet, and is not on the stack that is measured.
fn call_sheet(sample: &mut &Sample) {
    let mut page = vec![0; LONGEST_SHEET];
    black_box(library::sheet(&sample.text, &mut page));
}

fn call_measure(term: &mut &[u8]) {
    black_box(library::measure(term));
}

/// A clause text, and a buffer for its lines, which is not on the stack that is measured.
fn call_import((text, lines): &mut (String, Vec<u8>)) {
    black_box(library::import(text.as_bytes(), lines));
}

fn call_deep(_: &mut ()) {
    black_box(&mut [0_u8; DEEP_CALL]);
}

/// The import of a clause text into a buffer that is long enough, and into one that is too short.
fn depth_of_import(text: String) -> usize {
    let lines = lines_for(&text);
    stack::depth(call_import, &mut (text.clone(), lines)).max(stack::depth(call_import, &mut (text, Vec::new())))
}

/// The calls with the most stack that each used: measure on terms, import on clause texts, the others on packs of all kinds.
pub fn depths(kinds: &[Kind]) -> [Depth; 5] {
    let samples = || kinds.iter().flat_map(|kind| kind.samples.iter().take(PACKS_TRIED));
    let most = |call: fn(&mut &Sample)| samples().map(|mut sample| stack::depth(call, &mut sample)).max().unwrap_or(0);
    let terms = ["a/0".to_string(), "s/1 X".to_string(), term_of_length(1_024), term_of_length(1_025)];
    let measure = terms.iter().map(|term| stack::depth(call_measure, &mut term.as_bytes())).max().unwrap_or(0);
    let import = CLAUSE_TEXTS.iter().map(|texts| depth_of_import(texts.shortest())).max().unwrap_or(0);
    [
        Depth { call: "check", bytes: most(call_check) },
        Depth { call: "reserve", bytes: most(call_reserve) },
        Depth { call: "measure", bytes: measure },
        Depth { call: "cerrundix_sheet", bytes: most(call_sheet) },
        Depth { call: "cerrundix_import", bytes: import },
    ]
}

/// What is seen of the call that uses too much.
pub fn depth_of_deep_call() -> usize {
    stack::depth(call_deep, &mut ())
}
