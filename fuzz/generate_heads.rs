//! Which predicates head the rules. 02's 3/14 refuses a ruled predicate that has a claim and heads no rule, so only
//! some packs are made without looking at that.

use super::*;

impl Model {
    /// Rules of ruled predicates, if there are such.
    pub(super) fn add_rules(&mut self, random: &mut Random, plan: &Plan) {
        for head in self.heads(random, plan) {
            let calls_namesake = plan.shared > 0 && random.chance(35);
            let rule = if calls_namesake { self.namesake_rule(random, plan, head) } else { None };
            let rule = rule.unwrap_or_else(|| self.any_rule(random, plan, head));
            self.rules.push(rule);
        }
    }

    fn any_rule(&self, random: &mut Random, plan: &Plan, head: usize) -> Rule {
        match random.below(9) {
            0..=1 => self.passing_rule(random, plan, head),
            2..=5 => self.recursive_rule(random, plan, head),
            6..=7 => self.base_rule(random, plan, head),
            _ => self.free_rule(random, plan, head),
        }
    }

    /// The predicates that head the rules: each ruled one once, as far as there are so many rules, and any for the
    /// rest; in a headless pack any for all of them. In a full pack, whose last rules may be dropped, the former come
    /// first.
    fn heads(&self, random: &mut Random, plan: &Plan) -> Vec<usize> {
        let mut ruled: Vec<usize> = (0..plan.predicates).filter(|index| !self.predicates[*index].is_given).collect();
        if ruled.is_empty() {
            return Vec::new();
        }
        random.shuffle(&mut ruled);
        let once = if plan.headless { 0 } else { ruled.len().min(plan.rules) };
        let mut heads = ruled[..once].to_vec();
        heads.extend((once..plan.rules).map(|_| random.pick(&ruled)));
        if !plan.full {
            random.shuffle(&mut heads);
        }
        heads
    }

    /// Whether a predicate may have claims: a ruled one that heads no rule only in a headless pack.
    pub(super) fn may_be_claimed(&self, plan: &Plan, predicate: usize) -> bool {
        let heads_a_rule = self.rules.iter().any(|rule| rule.head.predicate == predicate);
        plan.headless || heads_a_rule || self.predicates[predicate].is_given
    }
}
