//! Facts that come with the pack, against the claims on their predicates. The desk works out which claims a fact fails
//! (22), and sees that the facts that the library has passed fail none.

use crate::claims::{inequality, sides};
use crate::pack::{add_variables, Atom, Fact, Pack};
use crate::report::Disagreement;
use crate::words::listed;

/// A claim that a fact fails.
pub struct FailedClaim {
    pub claim: usize,
    pub line: usize,
    pub inequality: String,
    /// Both sides of the inequality at the fact's sizes.
    pub left: i64,
    pub right: i64,
}

/// A fact, the sizes of its arguments, and the claims that they fail.
pub struct FactJudgement {
    pub fact: String,
    pub predicate: String,
    pub sizes: Vec<i64>,
    pub failed: Vec<FailedClaim>,
}

/// Nothing where the fact has a variable, and so no sizes of its own.
pub fn judge(pack: &Pack, fact: &Atom) -> Option<FactJudgement> {
    let mut variables = Vec::new();
    add_variables(&fact.arguments, &mut variables);
    if !variables.is_empty() {
        return None;
    }
    let predicate = pack.predicate_of(fact);
    let sizes: Vec<i64> = fact.sizes(&[]).iter().map(|size| size.constant).collect();
    let mut failed = Vec::new();
    for (place, claim) in predicate.claims.iter().enumerate() {
        let (left, right) = sides(&claim.numbers, &sizes);
        if left < right {
            let inequality = inequality(&claim.numbers);
            failed.push(FailedClaim { claim: place + 1, line: claim.line, inequality, left, right });
        }
    }
    Some(FactJudgement { fact: fact.usual(), predicate: predicate.indicator(), sizes, failed })
}

impl FactJudgement {
    /// What is wrong, in a sentence.
    pub fn wrong(&self) -> String {
        let claims = self.each_failed(|failed| format!("claim {}", failed.claim));
        let numbers = self.each_failed(FailedClaim::at_sizes);
        let hold = if self.failed.len() == 1 { "does not hold" } else { "do not hold" };
        format!("The fact fails {claims} on {}: with its sizes put in, {numbers} {hold}.", self.predicate)
    }

    /// What to mend: the fact, or the claims.
    pub fn mend(&self) -> String {
        let claims = self.each_failed(|failed| format!("claim {} (line {})", failed.claim, failed.line));
        format!("Correct the fact's terms or take the fact out; or weaken {claims}, by a larger c0 or other numbers.")
    }

    fn each_failed(&self, written: impl Fn(&FailedClaim) -> String) -> String {
        listed(&self.failed.iter().map(written).collect::<Vec<String>>(), "and")
    }
}

impl FailedClaim {
    /// The inequality with the fact's sizes put in: `1 >= 2`.
    pub fn at_sizes(&self) -> String {
        format!("{} >= {}", self.left, self.right)
    }
}

/// The facts, which the library has passed, are of given predicates, have no variable and fail no claim.
pub fn compare(pack: &Pack) -> Result<(), Disagreement> {
    for fact in &pack.facts {
        if let Some(why) = objection(pack, fact) {
            return Disagreement::that(format!("The library passes the fact on line {}. {why}", fact.line));
        }
    }
    Ok(())
}

fn objection(pack: &Pack, fact: &Fact) -> Option<String> {
    let predicate = pack.predicate_of(&fact.atom);
    if !predicate.is_given {
        return Some(format!("The desk finds {} ruled.", predicate.indicator()));
    }
    match judge(pack, &fact.atom) {
        None => Some("The desk finds a variable in it.".to_string()),
        Some(judgement) if !judgement.failed.is_empty() => Some(judgement.wrong()),
        Some(_) => None,
    }
}

#[cfg(test)]
mod tests {
    use super::*;
    use crate::pack::lines_of;

    const OPENING: &str = "P,next,2,G\nP,trail,1,R\nC,next,0,1,-1\nC,next,-1,1,-1\n";

    fn judged(fact: &str) -> Option<(Vec<i64>, Vec<(usize, String)>)> {
        let text = format!("{OPENING}{fact}\n");
        let pack = Pack::read(&lines_of(text.as_bytes())).ok().unwrap();
        let judgement = judge(&pack, &pack.facts[0].atom)?;
        let failed = judgement.failed.iter().map(|failed| (failed.claim, failed.at_sizes())).collect();
        Some((judgement.sizes, failed))
    }

    #[test]
    fn each_claim_that_a_fact_fails_is_found() {
        assert_eq!(judged("G,next,up/1 tray/0,tray/0"), Some((vec![1, 0], vec![])));
        assert_eq!(judged("G,next,tray/0,tray/0"), Some((vec![0, 0], vec![(2, "0 >= 1".to_string())])));
        let both = vec![(1, "0 >= 1".to_string()), (2, "0 >= 2".to_string())];
        assert_eq!(judged("G,next,tray/0,up/1 tray/0"), Some((vec![0, 1], both)));
        assert_eq!(judged("G,next,up/1 X,tray/0"), None);
    }

    #[test]
    fn a_fact_that_is_passed_wrongly_is_a_disagreement() {
        let compared = |fact: &str| {
            let text = format!("{OPENING}{fact}\n");
            compare(&Pack::read(&lines_of(text.as_bytes())).ok().unwrap()).is_ok()
        };
        assert!(compared("G,next,up/1 tray/0,tray/0"));
        assert!(!compared("G,next,up/1 tray/0,tray/0\nG,next,tray/0,tray/0"));
        assert!(!compared("G,next,up/1 X,X"));
        assert!(!compared("G,trail,nil/0"));
    }
}
