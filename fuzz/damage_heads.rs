//! Changes to what the rules are headed by, and to the pack's end: what 02's 3/14 tests, and the tests next to it.

use super::{find_line, FIELDS};
use crate::random::Random;

/// Takes out all rules of one predicate, or heads them by another name that is declared: the misspelt head.
pub fn edit_heads(random: &mut Random, lines: &mut Vec<Vec<u8>>) {
    let Some(head) = find_line(random, lines, b"H") else { return };
    let name = name_of(&lines[head]);
    if random.chance(50) {
        take_out_rules(&name, lines);
    } else if let Some(declared) = find_line(random, lines, b"P") {
        let other = name_of(&lines[declared]);
        // The subgoals too, or the heads alone.
        let letters: &[u8] = if random.chance(50) { b"HB" } else { b"H" };
        rename(letters, &name, &other, lines);
    }
}

/// The second field.
pub(super) fn name_of(line: &[u8]) -> Vec<u8> {
    line.split(|byte| *byte == b',').nth(1).unwrap_or_default().to_vec()
}

/// Takes out each line from a head of this name to the next head or the end.
fn take_out_rules(name: &[u8], lines: &mut Vec<Vec<u8>>) {
    let mut is_taken_out = false;
    lines.retain(|line| {
        match line.first() {
            Some(b'H') => is_taken_out = name_of(line) == name,
            Some(b'E') => is_taken_out = false,
            _ => {}
        }
        !is_taken_out
    });
}

/// Puts another name in the place of this one, on lines with these letters.
pub(super) fn rename(letters: &[u8], name: &[u8], other: &[u8], lines: &mut [Vec<u8>]) {
    for line in lines {
        let mut fields: Vec<&[u8]> = line.split(|byte| *byte == b',').collect();
        let is_due = fields[0].first().is_some_and(|first| letters.contains(first));
        if is_due && fields.get(1) == Some(&name) {
            fields[1] = other;
            *line = fields.join(&b',');
        }
    }
}

/// A field too many on the `E` line, a line after it, or the line before it or itself taken out.
pub fn edit_end(random: &mut Random, lines: &mut Vec<Vec<u8>>) {
    let Some(end) = lines.iter().rposition(|line| line.starts_with(b"E")) else { return };
    match random.below(8) {
        0..=2 => {
            lines[end].push(b',');
            lines[end].extend_from_slice(random.pick(&FIELDS).as_bytes());
        }
        3..=5 => lines.insert(end + 1, lines[random.below(lines.len())].clone()),
        6 if end > 0 => drop(lines.remove(end - 1)),
        _ => drop(lines.remove(end)),
    }
}
