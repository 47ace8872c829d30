//! Damage to packs, queries, terms and clause texts, for the desk's runs against the library (vectors.rs, clause_texts.rs).

use super::random::Random;
use crate::pack::{fields_of, lines_of};

#[rustfmt::skip]
const FIELDS: [&[u8]; 37] = [
    b"", b"0", b"1", b"2", b"-1", b"-2", b"7", b"9", b"01", b"+1", b"-0", b"-", b"10000", b"65536", b"x", b"X", b"Xs", b"_",
    b"nil/0", b"cons/2 X Xs", b"cons/2 X", b"f/1  X", b"a/0 a/0", b"s/1 Y", b"cons(X,Xs)", b"G", b"R", b"E", b"M", b"join",
    b"next", b"trail", b"tray/0", b"up/1 tray/0", b"3", b"8", b"path",
];
const BYTES: &[u8] = b"PCGHBME,, /019-+XYan_.#(\n\n\r\t\x00\x7f\xc3\xa9";
/// Parts of clause texts: tokens of the subset, tokens that it leaves out, and what passes limits.
#[rustfmt::skip]
const CLAUSE_PARTS: [&[u8]; 50] = [
    b"a", b"X", b"_", b"V1", b"V2", b"(", b")", b",", b" ", b"\n", b":-", b".", b". ", b".\n", b"f(", b"f(X)", b"p(a) :- q.",
    b"_,_", b"cons(_,", b"9", b"9a", b"_a", b"__", b"[", b"|", b"%", b"/*", b"\t", b"\r", b"'", b"\"", b"\\+", b"->", b"-->",
    b"!", b";", b"=", b" is ", b" > Y", b":", b"-", b"{", b"\xc3\xa9", b"\x00", b"\xef\xbb\xbf", b"(a)", b" (",
    b"abcdefghijklmnopq", b"a,a,a,a,a,a,a,a,a,a", b"_,_,_,_,_,_,_,_",
];

pub fn damage(text: &mut Vec<u8>, random: &mut Random) {
    if text.is_empty() {
        text.push(random.pick(BYTES));
        return;
    }
    match random.below(6) {
        0 => {
            let place = random.below(text.len());
            text[place] = random.pick(BYTES);
        }
        1 => {
            text.remove(random.below(text.len()));
        }
        _ => damage_lines(text, random),
    }
}

/// Changes, adds or takes out a field, or takes out, doubles or moves a line.
fn damage_lines(text: &mut Vec<u8>, random: &mut Random) {
    let mut lines: Vec<Vec<u8>> = lines_of(text).into_iter().map(<[u8]>::to_vec).collect();
    let place = random.below(lines.len());
    match random.below(6) {
        0 => {
            lines.remove(place);
        }
        1 => lines.insert(place, lines[random.below(lines.len())].clone()),
        2 => {
            let other = random.below(lines.len());
            lines.swap(place, other);
        }
        _ => {
            let mut fields: Vec<Vec<u8>> = fields_of(&lines[place]).into_iter().map(<[u8]>::to_vec).collect();
            damage_fields(&mut fields, random);
            lines[place] = fields.join(&b',');
        }
    }
    *text = lines.join(&b'\n');
    text.push(b'\n');
}

/// Changes a field, or adds or takes out one, which makes another arity.
fn damage_fields(fields: &mut Vec<Vec<u8>>, random: &mut Random) {
    let field = random.below(fields.len());
    match random.below(5) {
        0 => fields.insert(field + 1, random.pick(&FIELDS).to_vec()),
        1 if fields.len() > 1 => {
            fields.remove(field);
        }
        _ => fields[field] = random.pick(&FIELDS).to_vec(),
    }
}

pub fn damaged_bytes(bytes: &[u8], random: &mut Random) -> Vec<u8> {
    let mut damaged = bytes.to_vec();
    for _ in 0..random.below(3) {
        if damaged.is_empty() || random.chance(30) {
            let piece = random.pick(&FIELDS);
            let place = random.below(damaged.len() + 1);
            damaged.splice(place..place, piece.iter().copied());
        } else {
            let place = random.below(damaged.len());
            damaged[place] = random.pick(BYTES);
        }
    }
    damaged
}

/// Puts a part in, takes some bytes out, repeats some, or cuts the text off.
pub fn damage_clauses(text: &mut Vec<u8>, random: &mut Random) {
    let place = random.below(text.len() + 1);
    let end = (place + random.below(12)).min(text.len());
    match random.below(10) {
        0 => text.truncate(place),
        1 | 2 => {
            text.drain(place..end);
        }
        3 => {
            let repeated = text[place..end].repeat(1 + random.below(20));
            text.splice(place..place, repeated);
        }
        _ => {
            text.splice(place..place, random.pick(&CLAUSE_PARTS).iter().copied());
        }
    }
}

/// A query of a predicate that the pack declares, mostly well-formed.
pub fn query_of(text: &[u8], random: &mut Random) -> Vec<u8> {
    let declared: Vec<&[u8]> = lines_of(text).into_iter().filter(|line| line.starts_with(b"P,")).collect();
    if declared.is_empty() {
        return b"k,1,-".to_vec();
    }
    let fields = fields_of(declared[random.below(declared.len())]);
    let arity: usize = fields.get(2).and_then(|field| String::from_utf8_lossy(field).parse().ok()).unwrap_or(1);
    let asked = 1 + random.below(arity.clamp(1, 8));
    let mut query = [fields[1], b",", asked.to_string().as_bytes()].concat();
    for argument in 1..=arity {
        let is_unknown = argument == asked || random.chance(30);
        let size = if is_unknown { "-".to_string() } else { random.below(40).to_string() };
        query.extend([b",", size.as_bytes()].concat());
    }
    query
}
