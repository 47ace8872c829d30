//! A pack that is nearly all facts: what comes with a pack is read, measured and put into the claims on its predicate.

use crate::filling::{text_of_rules, FULL_BYTES};
use crate::random::Random;
use crate::terms::{term, GROUND};

/// The room of a fact's term: its size is at most 5.
const TERM_BYTES: usize = 24;

/// An accepted pack of exactly 32,768 bytes: facts of three short ground terms each, with four claims on them that
/// sizes up to 5 meet.
pub fn pack_of_facts() -> Vec<u8> {
    let mut random = Random::new(5);
    let opening =
        ["P,link,3,G", "C,link,0,1,0,0", "C,link,15,-1,-1,-1", "C,link,10,-2,3,0", "C,link,9999,-999,999,-999"];
    let mut next_fact = |room: usize| {
        let fact = (0..3).fold("G,link".to_string(), |line, _| line + "," + &term(&mut random, &GROUND, TERM_BYTES));
        (fact.len() < room).then(|| vec![fact])
    };
    text_of_rules(&opening.map(String::from), FULL_BYTES, &mut next_fact)
}
