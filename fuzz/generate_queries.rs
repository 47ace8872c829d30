//! Makes queries on the predicates of a pack.

use super::Declared;
use crate::random::Random;

/// A query as document 01 wants it, on one of the pack's predicates; mostly for an argument that may have a bound.
pub fn query(random: &mut Random, declared: &[Declared]) -> Vec<u8> {
    let bounded: Vec<usize> = (0..declared.len()).filter(|index| !declared[*index].bounded.is_empty()).collect();
    let for_bound = !bounded.is_empty() && random.chance(75);
    let predicate = &declared[if for_bound { random.pick(&bounded) } else { random.below(declared.len()) }];
    let asked = if for_bound { random.pick(&predicate.bounded) } else { 1 + random.below(predicate.arity.max(1)) };
    let (unknown, large) = (random.pick(&[0, 10, 30]), random.chance(20));
    let mut line = format!("{},{asked}", predicate.name);
    for argument in 1..=predicate.arity {
        if argument == asked || random.chance(unknown) {
            line.push_str(",-");
        } else {
            line.push_str(&format!(",{}", known_size(random, large)));
        }
    }
    line.into_bytes()
}

fn known_size(random: &mut Random, large: bool) -> i64 {
    match random.below(10) {
        0 => 0,
        1 => random.between(0, 65535),
        _ if large => random.pick(&[65535, 65534, 65535, 10000]),
        _ => random.between(0, 40),
    }
}
