//! Changes to how many arguments a line or a query has, and to what is declared at which arity: what 02's 5/14 looks at.

use super::heads::{name_of, rename};
use super::{find_line, FIELDS};
use crate::random::Random;

/// Arities that cannot be read; some of them nearly.
const MALFORMED: [&str; 12] = ["", "x", "9", "00", "02", "10", "-1", "-0", "+1", " 2", "2 ", "R"];

pub fn edit_arities(random: &mut Random, lines: &mut Vec<Vec<u8>>) {
    match random.below(10) {
        0..=2 => edit_count(random, lines),
        3..=5 => declare_again(random, lines),
        6 => edit_declared(random, lines),
        7..=8 => share_name(random, lines),
        _ => add_bare_claim(random, lines),
    }
}

/// A field more or fewer at the end of a claim, a fact, a head or a subgoal.
fn edit_count(random: &mut Random, lines: &mut [Vec<u8>]) {
    let letter = random.pick(b"CGHB");
    if let Some(line) = find_line(random, lines, &[letter]) {
        lines[line] = other_count(random, &lines[line]);
    }
}

/// The last field once more, or gone; or another field more, or all gone but the first two; or 256 more, so that a count
/// in a byte would be the same.
pub fn other_count(random: &mut Random, line: &[u8]) -> Vec<u8> {
    let mut fields: Vec<&[u8]> = line.split(|byte| *byte == b',').collect();
    match random.below(18) {
        0..=5 => fields.push(fields[fields.len() - 1]),
        6..=11 => drop(fields.pop()),
        12..=13 => fields.push(random.pick(&FIELDS).as_bytes()),
        14..=15 => fields.truncate(2),
        _ => fields.resize(fields.len() + 256, b"1"),
    }
    fields.join(&b',')
}

/// A declared name once more: at the same arity, another one or none that can be read, and with a wrong number of fields
/// in half of the cases.
fn declare_again(random: &mut Random, lines: &mut Vec<Vec<u8>>) {
    let Some(declared) = find_line(random, lines, b"P") else { return };
    let arity = match random.below(10) {
        0..=2 => fields_of(&lines[declared]).nth(2).unwrap_or_default().to_vec(),
        3..=4 => vec![random.pick(b"012345678")],
        _ => random.pick(&MALFORMED).as_bytes().to_vec(),
    };
    let fields = [b"P".to_vec(), name_of(&lines[declared]), arity, b"G".to_vec(), b"x".to_vec()];
    let count = random.pick(&[2, 3, 4, 4, 4, 5]);
    let place = if random.chance(50) { declared + 1 } else { end_of_declarations(lines) };
    lines.insert(place, fields[..count].join(&b','));
}

fn fields_of(line: &[u8]) -> impl Iterator<Item = &[u8]> {
    line.split(|byte| *byte == b',')
}

/// The place after the last `P` line.
fn end_of_declarations(lines: &[Vec<u8>]) -> usize {
    lines.iter().rposition(|line| line.starts_with(b"P")).map_or(0, |last| last + 1)
}

/// A declared arity with 1 more or less: what the other lines say of the name is then not declared.
fn edit_declared(random: &mut Random, lines: &mut [Vec<u8>]) {
    let Some(declared) = find_line(random, lines, b"P") else { return };
    let mut fields: Vec<Vec<u8>> = fields_of(&lines[declared]).map(<[u8]>::to_vec).collect();
    if let Some([digit]) = fields.get_mut(2).map(Vec::as_mut_slice) {
        *digit = if random.chance(50) { digit.saturating_add(1) } else { digit.saturating_sub(1) };
    }
    lines[declared] = fields.join(&b',');
}

/// Gives one predicate the name of another, wherever it stands. If their arities differ, the pack says the same as before.
fn share_name(random: &mut Random, lines: &mut [Vec<u8>]) {
    let (one, other) = (find_line(random, lines, b"P"), find_line(random, lines, b"P"));
    if let (Some(one), Some(other)) = (one, other) {
        let (name, taken) = (name_of(&lines[one]), name_of(&lines[other]));
        rename(b"PCGHB", &name, &taken, lines);
    }
}

/// A claim without numbers, where claims may stand.
fn add_bare_claim(random: &mut Random, lines: &mut Vec<Vec<u8>>) {
    if let Some(declared) = find_line(random, lines, b"P") {
        let claim = [b"C,".to_vec(), name_of(&lines[declared])].concat();
        lines.insert(end_of_declarations(lines), claim);
    }
}
