//! The sheet, 02's 2/14. Whether there is one, `check` says; what it tells of the rules is counted from the lines of the
//! accepted text, where the first field is a letter and a rule's lines stand together.

use super::terms::fields_of;
use super::{check, AREA_NEEDED};

/// A line of the sheet has 64 columns and byte 10.
const COLUMNS: usize = 64;
pub const LINE_BYTES: usize = COLUMNS + 1;

/// What a line tells of its rule.
struct Entry<'a> {
    name: &'a [u8],
    subgoals: usize,
    multiplier_lines: usize,
}

/// Writes the sheet to the front of the page. Returns check's numbers, or 23; a refusal leaves the page as it is.
pub fn sheet(text: &[u8], page: &mut [u8]) -> [u64; 4] {
    let numbers = check(text, &mut [0; AREA_NEEDED]);
    if numbers[0] != 0 {
        return numbers;
    }
    let entries = entries_of(text);
    if page.len() < entries.len() * LINE_BYTES {
        return [23, 0, 0, 0];
    }
    for (place, entry) in entries.iter().enumerate() {
        page[place * LINE_BYTES..][..LINE_BYTES].copy_from_slice(&line_of(place + 1, entry));
    }
    numbers
}

/// The rules of an accepted text.
fn entries_of(text: &[u8]) -> Vec<Entry<'_>> {
    let mut entries: Vec<Entry> = Vec::new();
    for line in text.split(|byte| *byte == 10) {
        let fields = fields_of(line);
        match (fields[0], entries.last_mut()) {
            (b"H", _) => entries.push(Entry { name: fields[1], subgoals: 0, multiplier_lines: 0 }),
            (b"B", Some(entry)) => entry.subgoals += 1,
            (b"M", Some(entry)) => entry.multiplier_lines += 1,
            _ => {}
        }
    }
    entries
}

/// Spaces, and on them the rule's number up to column 4, its name from column 6, its subgoals up to column 24 and its `M`
/// lines up to column 28.
fn line_of(number: usize, entry: &Entry) -> [u8; LINE_BYTES] {
    let mut line = [b' '; LINE_BYTES];
    put_number(&mut line, 4, number);
    line[5..5 + entry.name.len()].copy_from_slice(entry.name);
    put_number(&mut line, 24, entry.subgoals);
    put_number(&mut line, 28, entry.multiplier_lines);
    line[COLUMNS] = 10;
    line
}

/// A number whose last digit stands in this column, the first column being 1.
fn put_number(line: &mut [u8], column: usize, number: usize) {
    let digits = number.to_string();
    line[column - digits.len()..column].copy_from_slice(digits.as_bytes());
}
