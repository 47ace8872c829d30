//! The questions about clause text: a text, and a buffer for its lines.

use crate::compare;
use crate::damage_clauses::{clutter, damaged_clauses};
use crate::generate_clauses::clause_text;
use crate::plain_import::clauses_of;
use crate::question::{Call, Question};
use crate::random::Random;
use crate::tally::Tally;

/// Asks for the import of two texts: one as it was made, and one with changes, or of tokens or bytes in any order.
pub fn ask_about_clauses(random: &mut Random, number: u64, tally: &mut Tally) {
    let made = clause_text(random);
    ask_for_import(random, made, number, tally);
    let changed = changed_text(random);
    ask_for_import(random, changed, number, tally);
}

fn ask_for_import(random: &mut Random, text: Vec<u8>, number: u64, tally: &mut Tally) {
    let page = make_buffer(random, &text);
    tally.clause_bytes += text.len() as u64;
    let guard = random.pick(b"09aA_,(. -\n\x00\xFF");
    let import = Question { call: Call::Import, text, area: Vec::new(), query: Vec::new(), page, guard };
    let answer = compare(&import, number, tally);
    tally.count_import(answer.numbers, &import.text, import.page.len());
}

/// Four fifths are texts with changes, the others of tokens or bytes alone.
fn changed_text(random: &mut Random) -> Vec<u8> {
    if random.chance(80) {
        let text = clause_text(random);
        return damaged_clauses(random, &text);
    }
    clutter(random)
}

/// A buffer for the lines of all clauses that can be read, or of the first ones of them: mostly just as long, or one byte
/// shorter.
fn make_buffer(random: &mut Random, text: &[u8]) -> Vec<u8> {
    let lengths: Vec<usize> = clauses_of(text).0.iter().map(|clause| clause.lines.len()).collect();
    let all: usize = lengths.iter().sum();
    let some: usize = lengths[..random.below(lengths.len() + 1)].iter().sum();
    let length = match random.below(100) {
        0..=49 => all,
        50..=59 => all.saturating_sub(1),
        60..=64 => some,
        65..=69 => some.saturating_sub(1),
        70..=89 => all + 1 + random.below(80),
        90..=92 => 0,
        _ => random.below(all + 20),
    };
    (0..length).map(|_| random.next() as u8).collect()
}
