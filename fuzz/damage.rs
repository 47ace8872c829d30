//! Takes packs, queries and terms and changes them a little: one field or line, or some bytes.

#[path = "damage_arities.rs"]
pub mod arities;
#[path = "damage_heads.rs"]
mod heads;

use crate::random::Random;

/// Fields that are wrong in most places, or nearly right.
#[rustfmt::skip]
const FIELDS: [&str; 48] = [
    "", "0", "1", "2", "7", "8", "9", "10", "00", "01", "-0", "-1", "+1", "-", "--1", "1-", "9999", "10000", "-9999",
    "-10000", "65535", "65536", "99999999999999999999", " 1", "1 ", "G", "R", "g", "GR", "p", "P", "q", "join", "_p",
    "1p", "p-q", "abcdefghijklmnop", "abcdefghijklmnopq", "X", "Abcdefghijklmnopq", "a/0", "a/1", "a/0 a/0",
    "cons/2 X X", " a/0", "s/1  X", "a/00", "A/0",
];

/// Bytes on the edges of what is allowed, and those that mean something.
#[rustfmt::skip]
const BYTES: [u8; 30] = [
    0, 9, 10, 10, 13, 31, 32, 32, b'+', b',', b',', b'-', b'.', b'/', b'0', b'1', b'9', b':', b'@', b'A', b'Z', b'[',
    b'_', b'`', b'a', b'z', b'{', 126, 127, 128,
];

/// One to three changes to fields and lines.
pub fn edited_lines(random: &mut Random, text: &[u8]) -> Vec<u8> {
    let mut lines: Vec<Vec<u8>> = text.split(|byte| *byte == 10).map(|line| line.to_vec()).collect();
    // What stands after the last byte 10 is no line.
    lines.pop();
    let count = if random.chance(70) { 1 } else { 2 + random.below(2) };
    for _ in 0..count {
        edit_lines(random, &mut lines);
    }
    let mut edited = lines.join(&10);
    if !lines.is_empty() {
        edited.push(10);
    }
    edited
}

fn edit_lines(random: &mut Random, lines: &mut Vec<Vec<u8>>) {
    if lines.is_empty() {
        return;
    }
    let (one, other) = (random.below(lines.len()), random.below(lines.len()));
    match random.below(33) {
        0..=3 => edit_number(random, &mut lines[one]),
        4..=6 => edit_multiplier(random, lines),
        7..=8 => lines[one] = edited_fields(random, &lines[one]),
        9 => edit_twice(random, &mut lines[one]),
        10 => lines.swap(one, other),
        11 if one > 0 => lines.swap(one - 1, one),
        12 => lines.insert(other, lines[one].clone()),
        13 => lines.insert(one, lines[one].clone()),
        14 => drop(lines.remove(one)),
        15 => lines[one] = made_longer(random, &lines[one]),
        16 => lines.truncate(one + 1),
        17 => lines.push(lines[one].clone()),
        18 => lines.insert(one, Vec::new()),
        19..=22 => edit_term(random, lines),
        23..=24 => add_fact(random, lines),
        25..=26 => heads::edit_heads(random, lines),
        27 => heads::edit_end(random, lines),
        28..=31 => arities::edit_arities(random, lines),
        _ => change_letter(random, &mut lines[one]),
    }
}

/// Adds or subtracts 1 in some number of the line: the nearest that a justified claim can come to an unjustified one.
fn edit_number(random: &mut Random, line: &mut Vec<u8>) {
    let mut fields: Vec<String> = String::from_utf8_lossy(line).split(',').map(|field| field.to_string()).collect();
    let numbers: Vec<usize> = (0..fields.len()).filter(|index| fields[*index].parse::<i32>().is_ok()).collect();
    if numbers.is_empty() {
        return;
    }
    let chosen = random.pick(&numbers);
    let number: i64 = fields[chosen].parse().unwrap_or(0);
    fields[chosen] = (number + random.pick(&[-1, 1])).to_string();
    *line = fields.join(",").into_bytes();
}

/// The number of some line that starts with one of the letters, if there is one.
fn find_line(random: &mut Random, lines: &[Vec<u8>], letters: &[u8]) -> Option<usize> {
    let starts = |line: &Vec<u8>| line.first().is_some_and(|first| letters.contains(first));
    let found: Vec<usize> = (0..lines.len()).filter(|line| starts(&lines[*line])).collect();
    if found.is_empty() {
        None
    } else {
        Some(random.pick(&found))
    }
}

fn edit_multiplier(random: &mut Random, lines: &mut [Vec<u8>]) {
    if let Some(line) = find_line(random, lines, b"M") {
        edit_number(random, &mut lines[line]);
    }
}

/// Two or three faults on one line: the lowest number must win.
fn edit_twice(random: &mut Random, line: &mut Vec<u8>) {
    for _ in 0..2 + random.below(2) {
        *line = edited_fields(random, line);
    }
}

/// Writes a fact, a head or a subgoal once more as a fact, mostly where facts may stand, and perhaps with faults.
fn add_fact(random: &mut Random, lines: &mut Vec<Vec<u8>>) {
    let letters: &[u8] = if random.chance(50) { b"G" } else { b"GHB" };
    let Some(line) = find_line(random, lines, letters) else { return };
    let mut fact = lines[line].clone();
    fact[0] = b'G';
    match random.below(10) {
        0..=3 => edit_twice(random, &mut fact),
        4..=7 => put_variable(random, &mut fact),
        _ => {}
    }
    let first_after = lines.iter().position(|line| line.starts_with(b"H") || line.starts_with(b"E"));
    let place = match first_after {
        Some(place) if random.chance(85) => place,
        _ => random.below(lines.len()),
    };
    lines.insert(place, fact);
}

/// Puts a variable in the place of one constant, if the line has one.
fn put_variable(random: &mut Random, line: &mut Vec<u8>) {
    let ends: Vec<usize> = (0..=line.len()).filter(|end| line[..*end].ends_with(b"/0")).collect();
    if ends.is_empty() {
        return;
    }
    let end = random.pick(&ends);
    let start = line[..end].iter().rposition(|byte| b" ,".contains(byte)).map_or(0, |place| place + 1);
    line.splice(start..end, *b"X");
}

/// Changes one token of a fact, a head or a subgoal.
fn edit_term(random: &mut Random, lines: &mut [Vec<u8>]) {
    let Some(line) = find_line(random, lines, b"GHB") else { return };
    let mut tokens: Vec<Vec<u8>> = lines[line].split(|byte| *byte == b' ').map(|token| token.to_vec()).collect();
    let one = random.below(tokens.len());
    match random.below(6) {
        0 => tokens.insert(one, random.pick(&FIELDS).as_bytes().to_vec()),
        1 => drop(tokens.remove(one)),
        2 => tokens.push(b"X".to_vec()),
        3 => tokens[one].push(random.pick(b"0129XZ_ /a")),
        4 => drop(tokens[one].pop()),
        _ => change_last(random, &mut tokens[one]),
    }
    lines[line] = tokens.join(&b' ');
}

fn change_last(random: &mut Random, token: &mut [u8]) {
    if let Some(last) = token.last_mut() {
        *last = random.pick(b"012345678XYZabc_/");
    }
}

fn change_letter(random: &mut Random, line: &mut [u8]) {
    if let Some(first) = line.first_mut() {
        *first = random.pick(b"PCHBMEGDp ");
    }
}

/// Replaces, removes, doubles, exchanges or adds one field.
pub fn edited_fields(random: &mut Random, line: &[u8]) -> Vec<u8> {
    let mut fields: Vec<Vec<u8>> = line.split(|byte| *byte == b',').map(|field| field.to_vec()).collect();
    let (one, other) = (random.below(fields.len()), random.below(fields.len()));
    match random.below(9) {
        0..=4 => fields[one] = random.pick(&FIELDS).as_bytes().to_vec(),
        5 => drop(fields.remove(one)),
        6 => fields.insert(one, fields[one].clone()),
        7 => fields.swap(one, other),
        _ => fields.push(random.pick(&FIELDS).as_bytes().to_vec()),
    }
    fields.join(&b',')
}

/// The line with some byte of it repeated until it has about 1,024 bytes.
fn made_longer(random: &mut Random, line: &[u8]) -> Vec<u8> {
    if line.is_empty() || line.len() >= 1_000 {
        return line.to_vec();
    }
    let (place, bytes) = (random.below(line.len()), 1_022 + random.below(5));
    let mut longer = line[..place].to_vec();
    longer.resize(place + bytes - line.len(), line[place]);
    longer.extend_from_slice(&line[place..]);
    longer
}

/// One to four changes to single bytes, or a cut.
pub fn damaged_bytes(random: &mut Random, text: &[u8]) -> Vec<u8> {
    let mut damaged = text.to_vec();
    for _ in 0..1 + random.below(4) {
        damage_byte(random, &mut damaged);
    }
    damaged
}

fn damage_byte(random: &mut Random, text: &mut Vec<u8>) {
    let place = random.below(text.len() + 1);
    if place == text.len() {
        text.push(random.pick(&BYTES));
        return;
    }
    match random.below(12) {
        0..=2 => text[place] ^= 1 << random.below(8),
        3..=5 => text[place] = random.pick(&BYTES),
        6..=7 => text.insert(place, random.pick(&BYTES)),
        8..=9 => drop(text.remove(place)),
        10 => text.truncate(place),
        _ => drop(text.pop()),
    }
}
