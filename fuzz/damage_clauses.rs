//! Takes clause texts and changes them a little, by tokens or by bytes, or makes texts of tokens or bytes alone.

use crate::random::Random;

/// Tokens that stand somewhere in clauses, and others that stand nowhere.
#[rustfmt::skip]
const TOKENS: [&str; 53] = [
    "p", "q", "a", "X", "V1", "_", "_", "(", "(", ")", ")", ",", ",", ".", ". ", ".\n", ":-", ":-", " ", "\n", "f(", "p(a)",
    "f(X)", "_x", "__", "_1", "9", "9a", "0", ":", "-", ";", "|", "!", "[", "]", "[]", "{", "}", "'a'", "\"", "%", "/*", "\t",
    "\r", "\\+", "=", "X(", "_(", "a.b", "\u{0}", "é", ": ",
];

/// Bytes on the edges of what is allowed, and those that mean something.
#[rustfmt::skip]
const BYTES: [u8; 36] = [
    0, 9, 10, 10, 11, 13, 31, 32, 32, 33, b'(', b'(', b')', b')', b',', b',', b'-', b'.', b'.', b'/', b'0', b'9', b':', b';',
    b'@', b'A', b'Z', b'[', b'_', b'_', b'`', b'a', b'z', b'{', 127, 255,
];

/// One or two changes to the text, most often one.
pub fn damaged_clauses(random: &mut Random, text: &[u8]) -> Vec<u8> {
    let mut damaged = change(random, text);
    if random.chance(20) {
        damaged = change(random, &damaged);
    }
    damaged
}

fn change(random: &mut Random, text: &[u8]) -> Vec<u8> {
    match random.below(20) {
        0..=7 => change_tokens(random, text),
        8..=9 => other_mark(random, text),
        10..=11 => without_layout(random, text),
        12 => other_layout(random, text),
        13 => with_layout(random, text),
        14..=17 => change_bytes(random, text),
        _ => text[..random.below(text.len() + 1)].to_vec(),
    }
}

/// The text in pieces: runs of letters, digits and `_`, `:-`, and single bytes, layout too.
fn pieces_of(text: &[u8]) -> Vec<Vec<u8>> {
    let mut pieces: Vec<Vec<u8>> = Vec::new();
    for byte in text {
        let is_of_run = |byte: &u8| byte.is_ascii_alphanumeric() || *byte == b'_';
        match pieces.last_mut() {
            Some(last) if is_of_run(byte) && last.iter().all(is_of_run) => last.push(*byte),
            Some(last) if *byte == b'-' && last == b":" => last.push(*byte),
            _ => pieces.push(vec![*byte]),
        }
    }
    pieces
}

/// Swaps, drops, doubles, replaces or adds a token.
fn change_tokens(random: &mut Random, text: &[u8]) -> Vec<u8> {
    let mut pieces = pieces_of(text);
    if pieces.is_empty() {
        return random.pick(&TOKENS).as_bytes().to_vec();
    }
    let (one, other) = (random.below(pieces.len()), random.below(pieces.len()));
    let odd = random.pick(&TOKENS).as_bytes().to_vec();
    match random.below(8) {
        0 => pieces.swap(one, other),
        1 if one > 0 => pieces.swap(one - 1, one),
        2..=3 => drop(pieces.remove(one)),
        4 => pieces.insert(one, pieces[one].clone()),
        5 => pieces[one] = odd,
        _ => pieces.insert(one, odd),
    }
    pieces.concat()
}

/// Puts another bracket, comma, dot or `:-` in the place of one.
fn other_mark(random: &mut Random, text: &[u8]) -> Vec<u8> {
    const MARKS: [&[u8]; 5] = [b"(", b")", b",", b".", b":-"];
    let mut pieces = pieces_of(text);
    let places: Vec<usize> = (0..pieces.len()).filter(|place| MARKS.contains(&pieces[*place].as_slice())).collect();
    if places.is_empty() {
        return change_tokens(random, text);
    }
    pieces[random.pick(&places)] = random.pick(&MARKS).to_vec();
    pieces.concat()
}

fn is_layout(byte: &u8) -> bool {
    b" \n".contains(byte)
}

/// Takes out the layout after some dot, which then ends no clause, unless nothing follows.
fn without_layout(random: &mut Random, text: &[u8]) -> Vec<u8> {
    let is_end = |place: &usize| text[*place] == b'.' && text.get(place + 1).is_some_and(is_layout);
    let places: Vec<usize> = (0..text.len()).filter(is_end).collect();
    if places.is_empty() {
        return change_tokens(random, text);
    }
    let place = random.pick(&places) + 1;
    let rest: Vec<u8> = text[place..].iter().copied().skip_while(is_layout).collect();
    [&text[..place], &rest].concat()
}

/// Puts a byte that others take for layout in the place of one that is, half of the time after a dot.
fn other_layout(random: &mut Random, text: &[u8]) -> Vec<u8> {
    let all: Vec<usize> = (0..text.len()).filter(|place| is_layout(&text[*place])).collect();
    let after_dots: Vec<usize> = all.iter().copied().filter(|place| *place > 0 && text[place - 1] == b'.').collect();
    let places = if after_dots.is_empty() || random.chance(50) { all } else { after_dots };
    if places.is_empty() {
        return change_tokens(random, text);
    }
    let mut changed = text.to_vec();
    changed[random.pick(&places)] = random.pick(&[9, 13, 9, 13, 0, 11, 12, 127, 133, 160]);
    changed
}

/// Puts layout before some `(`.
fn with_layout(random: &mut Random, text: &[u8]) -> Vec<u8> {
    let places: Vec<usize> = (0..text.len()).filter(|place| text[*place] == b'(').collect();
    if places.is_empty() {
        return change_tokens(random, text);
    }
    let place = random.pick(&places);
    let layout = random.pick(&[" ", "\n", "  ", " \n"]);
    [&text[..place], layout.as_bytes(), &text[place..]].concat()
}

/// Changes, drops or adds one to three bytes.
fn change_bytes(random: &mut Random, text: &[u8]) -> Vec<u8> {
    let mut bytes = text.to_vec();
    for _ in 0..1 + random.below(3) {
        let place = random.below(bytes.len() + 1);
        let byte = if random.chance(80) { random.pick(&BYTES) } else { random.next() as u8 };
        match random.below(3) {
            0 if place < bytes.len() => bytes[place] = byte,
            1 if place < bytes.len() => drop(bytes.remove(place)),
            _ => bytes.insert(place, byte),
        }
    }
    bytes
}

/// A text of tokens in any order, or of bytes; most of them after a clause or the beginning of one.
pub fn clutter(random: &mut Random) -> Vec<u8> {
    let start = random.pick(&["", "", "a. ", "p(X):-q.\n", "a:-b,", "p(a,", "p(f("]).as_bytes().to_vec();
    let count = random.below(12);
    let rest: Vec<Vec<u8>> = if random.chance(75) {
        // the first 21 stand somewhere in clauses
        let choices = if random.chance(70) { &TOKENS[..21] } else { &TOKENS[..] };
        (0..count).map(|_| random.pick(choices).as_bytes().to_vec()).collect()
    } else {
        (0..count).map(|_| vec![if random.chance(70) { random.pick(&BYTES) } else { random.next() as u8 }]).collect()
    };
    [start, rest.concat()].concat()
}
