//! Names that several predicates share, as 02's 5/14 allows: which arities they have, and rules that call the one with the
//! other.

use super::*;

/// The most that a predicate may have.
const MOST_ARITY: usize = 8;

impl Model {
    /// A predicate of an earlier one's name: mostly with an argument more or fewer, sometimes with any number of them.
    /// Nothing if the arity that comes up is taken, so that the caller makes another.
    pub(super) fn shared_predicate(&self, random: &mut Random) -> Option<(String, usize)> {
        let Predicate { name, arity, .. } = &self.predicates[random.below(self.predicates.len())];
        let arity = match random.below(10) {
            0..=3 => (arity + 1).min(MOST_ARITY),
            4..=7 => arity.saturating_sub(1),
            _ => random.below(MOST_ARITY + 1),
        };
        let is_taken = self.predicates.iter().any(|other| other.name == *name && other.arity == arity);
        (!is_taken).then(|| (name.clone(), arity))
    }

    /// The other predicates of this one's name.
    fn namesakes(&self, predicate: usize) -> Vec<usize> {
        let name = &self.predicates[predicate].name;
        (0..self.predicates.len())
            .filter(|other| *other != predicate && self.predicates[*other].name == *name)
            .collect()
    }

    /// A rule whose first subgoal is a namesake of the head: variables, or a constant where it has more of them. Nothing if
    /// no other predicate has the head's name.
    pub(super) fn namesake_rule(&self, random: &mut Random, plan: &Plan, head: usize) -> Option<Rule> {
        let namesakes = self.namesakes(head);
        if namesakes.is_empty() {
            return None;
        }
        let callee = random.pick(&namesakes);
        let arguments = self.distinct_variables(plan, head);
        let count = self.predicates[callee].arity;
        let mut passed: Vec<Term> = arguments.iter().take(count).cloned().collect();
        while passed.len() < count {
            // As a list of what is done already begins.
            passed.insert(random.below(passed.len() + 1), Term::Symbol("nil", Vec::new()));
        }
        let mut subgoals = vec![Atom { predicate: callee, arguments: passed }];
        subgoals.extend(self.subgoals(random, plan, plan.most_subgoals.saturating_sub(1)));
        Some(Rule { head: Atom { predicate: head, arguments }, subgoals, multipliers: Vec::new() })
    }
}
