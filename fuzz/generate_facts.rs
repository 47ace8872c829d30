//! Facts that come with a pack, and claims that they meet, just meet or just fail.

use super::*;

/// The largest number that a claim may have.
const LARGEST: i64 = 9_999;

impl Model {
    /// Ground facts of given predicates, if there are such; some are written twice.
    pub(super) fn add_facts(&mut self, random: &mut Random, plan: &Plan) {
        let given: Vec<usize> = (0..plan.predicates).filter(|index| self.predicates[*index].is_given).collect();
        if given.is_empty() {
            return;
        }
        let ground = Plan { variables: 0, ..*plan };
        for _ in 0..plan.facts {
            let predicate = random.pick(&given);
            let fact = match self.facts.last() {
                Some(last) if random.chance(5) => last.clone(),
                _ => self.atom(random, &ground, predicate),
            };
            self.facts.push(fact);
        }
    }

    /// The numbers of a claim with the constant changed so that the facts of its predicate meet it, often just so; if
    /// not `justified` they may fail it, often by 1. A predicate without facts keeps the numbers.
    pub(super) fn claim_for_facts(
        &self,
        random: &mut Random,
        predicate: usize,
        numbers: Vec<i64>,
        justified: bool,
    ) -> Vec<i64> {
        let mut claim = Claim { predicate, numbers };
        let facts = self.facts.iter().filter(|fact| fact.predicate == predicate);
        let Some(least) = facts.map(|fact| claim.at(fact)[0]).min() else { return claim.numbers };
        let is_free = if justified { least >= 0 } else { random.chance(50) };
        if is_free && random.chance(60) {
            return claim.numbers;
        }
        let spare = if justified { random.pick(&[0, 0, 1]) } else { random.pick(&[0, -1]) };
        let constant = claim.numbers[0] - least + spare;
        if constant.abs() <= LARGEST {
            claim.numbers[0] = constant;
        } else if justified {
            claim.numbers.iter_mut().for_each(|number| *number = 0.max(*number));
        }
        claim.numbers
    }
}
