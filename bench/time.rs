//! What a check costs, in the library and in the plain implementation, and what the library's sheet costs beside it.

use crate::calls::LONGEST_SHEET;
use crate::kinds::{Kind, Sample, Unit};
use crate::{clock, library, plain};
use std::hint::black_box;

/// Each time is the best of so many rounds; in a round all kinds and all calls take their turns.
pub const ROUNDS: usize = 200;
/// What a turn takes at least, so that reading the clock does not matter.
const TURN_NANOSECONDS: u64 = 1_000_000;

/// A call on a text; the page is for the sheet, and is lent to all. What it returns has a first byte 0 for an accepted pack.
type Call = fn(&[u8], &mut [u8]) -> u64;

fn library_check(text: &[u8], _: &mut [u8]) -> u64 {
    library::check(text, &mut [0; plain::AREA_NEEDED])
}

fn plain_check(text: &[u8], _: &mut [u8]) -> u64 {
    plain::word_of_check(plain::check(text, &mut [0; plain::AREA_NEEDED]))
}

fn library_sheet(text: &[u8], page: &mut [u8]) -> u64 {
    library::sheet(text, page)[0]
}

/// The best time so far of one call on one kind.
struct Best {
    call: Call,
    /// How often a turn goes over the packs of the kind.
    passes: usize,
    /// For one pack.
    nanoseconds: f64,
}

impl Best {
    /// Finds how many passes a turn needs.
    fn new(call: Call, samples: &[Sample]) -> Best {
        let mut passes = 1;
        while time_of(call, samples, passes) < TURN_NANOSECONDS {
            passes *= 2;
        }
        Best { call, passes, nanoseconds: f64::MAX }
    }

    fn take_turn(&mut self, samples: &[Sample]) {
        let taken = time_of(self.call, samples, self.passes) as f64;
        self.nanoseconds = self.nanoseconds.min(taken / (self.passes * samples.len()) as f64);
    }
}

/// Nanoseconds for so many passes over the packs, all of which are accepted.
fn time_of(call: Call, samples: &[Sample], passes: usize) -> u64 {
    let mut page = [0; LONGEST_SHEET];
    let start = clock::nanoseconds();
    for _ in 0..passes {
        for sample in samples {
            assert_eq!(black_box(call(black_box(&sample.text), black_box(&mut page))) & 255, 0);
        }
    }
    clock::nanoseconds() - start
}

/// A kind with its times.
pub struct Timed {
    pub kind: Kind,
    library: Best,
    plain: Best,
    sheet: Best,
}

/// Times all kinds, in turns.
pub fn time(kinds: Vec<Kind>) -> Vec<Timed> {
    let timed = |kind: Kind| Timed {
        library: Best::new(library_check, &kind.samples),
        plain: Best::new(plain_check, &kind.samples),
        sheet: Best::new(library_sheet, &kind.samples),
        kind,
    };
    let mut rows: Vec<Timed> = kinds.into_iter().map(timed).collect();
    for _ in 0..ROUNDS {
        for row in &mut rows {
            row.library.take_turn(&row.kind.samples);
            row.plain.take_turn(&row.kind.samples);
            row.sheet.take_turn(&row.kind.samples);
        }
    }
    rows
}

/// A table in Markdown, as bench/README.md has it: check in the library against the plain one, its cost, and the library's sheet
/// against its check.
pub fn show(rows: &[Timed]) {
    println!("| packs | library / plain | library | sheet / check |");
    println!("|---|---|---|---|");
    for row in rows {
        let bytes = row.kind.samples.iter().map(|sample| sample.text.len()).sum::<usize>();
        let (library, plain) = (row.library.nanoseconds, row.plain.nanoseconds);
        let cost = match row.kind.unit {
            Unit::Byte => format!("{:.2} ns a byte", library * row.kind.samples.len() as f64 / bytes as f64),
            Unit::Pack => format!("{:.2} µs a pack", library / 1_000.0),
        };
        let (ratio, of_sheet) = (two_digits(library / plain), two_digits(row.sheet.nanoseconds / library));
        println!("| {} | {ratio} | {cost} | {of_sheet} |", row.kind.name);
    }
}

/// A ratio with two digits after the point, or with two that count.
fn two_digits(ratio: f64) -> String {
    if ratio < 0.0995 {
        format!("{ratio:.3}")
    } else {
        format!("{ratio:.2}")
    }
}
