//! Packs that are nearly all terms: one make for all of them, with words of their own.

use crate::filling::{text_of_rules, FULL_BYTES};
use crate::random::Random;

/// The words that the terms of a pack are made of.
pub struct Words {
    /// Symbols that take arguments, with their arities.
    pub symbols: &'static [(&'static str, usize)],
    /// What stands for a whole term: variables, at most 16 different ones, or constants with their `/0`.
    pub leaves: &'static [&'static str],
}

#[rustfmt::skip]
pub const GROUND: Words = Words {
    symbols: &[("f", 1), ("s", 1), ("cons", 2), ("node", 3)],
    leaves: &["a/0", "nil/0", "zero/0"],
};

/// Names as long as they may be, which differ only near their ends, and symbols of many arguments.
#[rustfmt::skip]
pub const LONG_VARIABLES: Words = Words {
    symbols: &[("pair", 2), ("node", 3), ("record", 5)],
    leaves: &[
        "Remaining_coin_A", "Remaining_coin_B", "Remaining_coin_C", "Remaining_coin_D",
        "Remaining_coins1", "Remaining_coins2", "Remaining_coins3", "Remaining_coins4",
        "Sorted_so_far_01", "Sorted_so_far_02", "Sorted_so_far_03", "Sorted_so_far_04",
        "Sorted_so_far_10", "Sorted_so_far_20", "Sorted_so_far_30", "Sorted_so_far_40",
    ],
};

#[rustfmt::skip]
pub const SHORT: Words = Words {
    symbols: &[("s", 1), ("f", 1), ("cons", 2), ("pair", 2), ("g", 2), ("node", 3)],
    leaves: &["X", "Xs", "Y", "Ys", "Z", "Zs", "A", "B", "U", "V1", "V2", "Acc", "N", "M1", "L", "R"],
};

/// An accepted pack of exactly 32,768 bytes: heads and subgoals with lines of up to 1,000 bytes, each with three terms
/// of these words. Two claims on the heads have no number below 0; the two on the subgoals say that two sizes are
/// equal, and their multipliers are equal, so that they cancel each other.
pub fn pack_of_terms(words: &Words) -> Vec<u8> {
    let mut random = Random::new(3);
    let opening =
        ["P,collect,3,R", "P,part,3,G", "C,collect,0,1,0,0", "C,collect,5,1,2,1", "C,part,0,1,-1,0", "C,part,0,-1,1,0"];
    let mut next_rule = |room: usize| {
        let line_room = 1_000.min(room.checked_sub("M,1,1\nM,3,3\n\n\n".len())? / 2);
        let head = atom(&mut random, words, "H,collect", line_room)?;
        let subgoal = atom(&mut random, words, "B,part", line_room)?;
        Some(vec![head, subgoal, "M,1,1".to_string(), "M,3,3".to_string()])
    };
    text_of_rules(&opening.map(String::from), FULL_BYTES, &mut next_rule)
}

/// A line with three terms, at most as long as there is room. None if there is hardly any.
fn atom(random: &mut Random, words: &Words, start: &str, room: usize) -> Option<String> {
    if room < start.len() + 150 {
        return None;
    }
    let mut line = start.to_string();
    for terms_left in (1..=3).rev() {
        let share = (room - line.len()) / terms_left;
        line = line + "," + &term(random, words, share - ",".len());
    }
    Some(line)
}

/// A term of at most so many bytes and not many less: symbols and leaves as they come while there is room for what the
/// symbols open, then leaves.
pub fn term(random: &mut Random, words: &Words, bytes: usize) -> String {
    let longest_leaf = words.leaves.iter().map(|leaf| leaf.len() + 1).max().unwrap_or(0);
    let mut tokens: Vec<String> = Vec::new();
    let (mut open, mut taken) = (1, 0);
    while open > 0 {
        let (symbol, arity) = random.pick(words.symbols);
        let has_room = taken + symbol.len() + "/1 ".len() + (open - 1 + arity) * longest_leaf <= bytes;
        // The last open place goes to a symbol: the term is to fill the room.
        let token = if has_room && (open == 1 || random.chance(50)) {
            open += arity - 1;
            format!("{symbol}/{arity}")
        } else {
            open -= 1;
            random.pick(words.leaves).to_string()
        };
        taken += token.len() + 1;
        tokens.push(token);
    }
    tokens.join(" ")
}
