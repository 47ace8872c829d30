//! How large a pack is to be.

use crate::random::Random;

/// How large a pack is to be.
pub struct Plan {
    pub predicates: usize,
    /// How many of a hundred predicates take the name of an earlier one, with another arity. None here: who wants some
    /// says how many.
    pub shared: usize,
    pub most_arity: usize,
    pub most_claims: usize,
    /// How many facts come with the pack, if it has a given predicate. None here: who wants some says how many.
    pub facts: usize,
    pub rules: usize,
    /// Whether a ruled predicate may have a claim and head no rule. Not so here: who wants it says so.
    pub headless: bool,
    pub most_subgoals: usize,
    pub variables: usize,
    pub depth: usize,
    /// Whether claim numbers and multipliers are mostly the largest allowed.
    pub extreme: bool,
    /// Whether arities, claims and subgoals are as many as they may be, and not anything up to that.
    pub full: bool,
}

impl Plan {
    /// A pack of some 50 to 600 bytes.
    pub fn small(random: &mut Random) -> Plan {
        Plan {
            predicates: 1 + random.below(4),
            shared: 0,
            most_arity: if random.chance(8) { 8 } else { 1 + random.below(4) },
            most_claims: if random.chance(10) { 0 } else { 1 + random.below(4) },
            facts: 0,
            rules: if random.chance(10) { 0 } else { 1 + random.below(5) },
            headless: false,
            most_subgoals: random.below(4),
            variables: 1 + random.below(6),
            depth: random.below(3),
            extreme: random.chance(8),
            full: false,
        }
    }

    /// A pack of some kilobytes up to beyond the limit of 32,768 bytes.
    pub fn large(random: &mut Random) -> Plan {
        Plan {
            predicates: 4 + random.below(28),
            shared: 0,
            most_arity: 1 + random.below(8),
            most_claims: 1 + random.below(8),
            facts: 0,
            rules: 20 + random.below(45),
            headless: false,
            most_subgoals: 1 + random.below(8),
            variables: 4 + random.below(13),
            depth: 1 + random.below(3),
            extreme: random.chance(20),
            full: false,
        }
    }

    /// A pack with few rules, of which each line of multipliers is long.
    pub fn heavy(random: &mut Random) -> Plan {
        Plan {
            predicates: 1 + random.below(3),
            shared: 0,
            most_arity: 8,
            most_claims: 16,
            facts: 0,
            rules: 1 + random.below(5),
            headless: false,
            most_subgoals: 8,
            variables: 16,
            depth: random.below(3),
            extreme: random.chance(50),
            full: random.chance(30),
        }
    }

    /// A pack of a bit more than 32,768 bytes, all of it predicates, claims and rules.
    pub fn full(predicates: usize) -> Plan {
        Plan {
            predicates,
            shared: 0,
            most_arity: 7,
            most_claims: 5,
            facts: 0,
            rules: 62,
            headless: false,
            most_subgoals: 6,
            variables: 12,
            depth: 2,
            extreme: false,
            full: true,
        }
    }

    /// From 0 to `most`, or just `most` in a full pack.
    pub(super) fn up_to(&self, random: &mut Random, most: usize) -> usize {
        if self.full {
            most
        } else {
            random.below(most + 1)
        }
    }
}
