//! Ruled predicates that have claims and head no rule. The desk finds them where the library refuses the `E` line for
//! them (24), with predicates of the same name or of near names that head rules, and sees that there is none where the
//! library has passed the line.

use crate::claims::inequality;
use crate::near::near_predicates;
use crate::pack::{Pack, Predicate};
use crate::report::Disagreement;
use crate::words::{capital, count, listed};

/// A ruled predicate that has claims and heads no rule.
pub struct HeadlessPredicate {
    /// Name and arity.
    pub predicate: String,
    pub line: usize,
    pub claims: Vec<IdleClaim>,
    pub near: Vec<NearHead>,
}

/// A claim that no rule has to justify.
pub struct IdleClaim {
    pub line: usize,
    pub inequality: String,
}

/// A predicate of a near name, or of the same name and another arity, that heads rules.
pub struct NearHead {
    /// Name and arity.
    pub predicate: String,
    pub has_same_name: bool,
    pub line: usize,
    pub rules: usize,
}

/// How many rules a predicate heads. A predicate is known by the line that declares it.
fn rules_of(pack: &Pack, predicate: &Predicate) -> usize {
    pack.rules.iter().filter(|rule| pack.predicate_of(&rule.head).line == predicate.line).count()
}

/// In the order in which they are declared.
pub fn headless(pack: &Pack) -> Vec<HeadlessPredicate> {
    let owes_a_rule = |predicate: &&Predicate| !predicate.is_given && !predicate.claims.is_empty();
    let owing = pack.predicates.iter().filter(owes_a_rule);
    owing.filter(|predicate| rules_of(pack, predicate) == 0).map(|predicate| describe(pack, predicate)).collect()
}

fn describe(pack: &Pack, predicate: &Predicate) -> HeadlessPredicate {
    let heads = pack.predicates.iter().filter(|other| rules_of(pack, other) > 0);
    let near = near_predicates(predicate.name, Some(predicate.arity), heads).into_iter().map(|other| NearHead {
        predicate: other.indicator(),
        has_same_name: other.name == predicate.name,
        line: other.line,
        rules: rules_of(pack, other),
    });
    let claims = predicate.claims.iter();
    let claims = claims.map(|claim| IdleClaim { line: claim.line, inequality: inequality(&claim.numbers) });
    HeadlessPredicate {
        predicate: predicate.indicator(),
        line: predicate.line,
        claims: claims.collect(),
        near: near.collect(),
    }
}

impl HeadlessPredicate {
    fn wrong(&self) -> String {
        let claims = count(self.claims.len(), "claim");
        let wrong = format!("{} (line {}) has {claims} and heads no rule.", self.predicate, self.line);
        if self.near.is_empty() {
            return wrong;
        }
        let near: Vec<String> = self.near.iter().map(NearHead::written).collect();
        format!("{wrong} Did you mean it where {}?", listed(&near, "or"))
    }
}

impl NearHead {
    /// `trial/2 (line 3) heads 2 rules`
    pub fn written(&self) -> String {
        format!("{} (line {}) heads {}", self.predicate, self.line, count(self.rules, "rule"))
    }
}

/// What is wrong: a sentence for each, and for each with near names a question.
pub fn wrong(headless: &[HeadlessPredicate]) -> String {
    headless.iter().map(HeadlessPredicate::wrong).collect::<Vec<String>>().join(" ")
}

/// What to mend: name or arguments on the rules where there is a near one, else rules, kind or claims.
pub fn mend(headless: &[HeadlessPredicate]) -> String {
    let misspelt: Vec<String> = headless
        .iter()
        .filter(|predicate| !predicate.near.is_empty())
        .map(|predicate| predicate.predicate.clone())
        .collect();
    let them = match headless {
        [only] => only.predicate.clone(),
        _ => "each of them".to_string(),
    };
    let otherwise =
        format!("add rules headed by {them}, declare it with kind G if its facts are given, or take its claims out.");
    if misspelt.is_empty() {
        return capital(&otherwise);
    }
    format!(
        "If {} was meant, correct {} on the rules' H and B lines, and give each rule an M line for every claim on its \
         head. If not, {otherwise}",
        listed(&misspelt, "or"),
        to_correct(headless)
    )
}

/// What makes a rule's head another predicate than the one that was meant.
fn to_correct(headless: &[HeadlessPredicate]) -> &'static str {
    let has = |same: bool| headless.iter().flat_map(|found| &found.near).any(|near| near.has_same_name == same);
    match (has(false), has(true)) {
        (false, _) => "the number of arguments",
        (true, false) => "the name",
        (true, true) => "the name or the number of arguments",
    }
}

/// The library has passed the `E` line only if each ruled predicate with a claim heads a rule.
pub fn compare(pack: &Pack) -> Result<(), Disagreement> {
    match (pack.end_line, &headless(pack)[..]) {
        (Some(line), found @ [_, ..]) => {
            Disagreement::that(format!("The library passes the E line, line {line}. {}", wrong(found)))
        }
        _ => Ok(()),
    }
}

#[cfg(test)]
mod tests {
    use super::*;
    use crate::pack::lines_of;

    const OPENING: &str = "P,trail,1,R\nP,trial,1,R\nP,given,1,G\nP,rail,0,R\nC,given,0,1\nC,trail,0,1\nC,trail,4,-1\n";

    /// For each predicate found: how it is called, how many claims it has, and the near ones with their rules.
    fn found(rest: &str) -> Vec<(String, usize, Vec<(String, usize)>)> {
        let text = format!("{OPENING}{rest}");
        let pack = Pack::read(&lines_of(text.as_bytes())).ok().unwrap();
        let near = |predicate: &HeadlessPredicate| {
            predicate.near.iter().map(|near| (near.predicate.clone(), near.rules)).collect()
        };
        headless(&pack)
            .iter()
            .map(|predicate| (predicate.predicate.clone(), predicate.claims.len(), near(predicate)))
            .collect()
    }

    #[test]
    fn ruled_predicates_with_claims_and_without_rules_are_found() {
        assert_eq!(found("E\n"), [("trail/1".to_string(), 2, vec![])]);
        assert_eq!(found("C,trial,0,1\nE\n").len(), 2);
        assert!(found("H,trail,X\nM\nM\nE\n").is_empty());
        let of_a_subgoal = found("C,rail,0\nH,rail\nB,trail,X\nM,0,0\nE\n");
        assert_eq!(of_a_subgoal, [("trail/1".to_string(), 2, vec![("rail/0".to_string(), 1)])]);
    }

    #[test]
    fn near_names_are_offered_where_they_head_rules() {
        let trial = ("trial/1".to_string(), 2);
        assert_eq!(found("H,trial,X\nH,trial,Y\nE\n")[0].2, [trial.clone()]);
        let both = found("H,trial,X\nH,rail\nH,trial,X\nE\n");
        assert_eq!(both[0].2, [trial, ("rail/0".to_string(), 1)]);
        // trial heads no rule itself, and so is not offered
        let [trail, trial] = &found("C,trial,0,1\nH,rail\nE\n")[..] else { panic!("two are found") };
        assert_eq!(trail.2, [("rail/0".to_string(), 1)]);
        assert_eq!(*trial, ("trial/1".to_string(), 1, vec![]));
    }

    #[test]
    fn another_arity_of_the_name_is_near() {
        let other = "P,trail,3,R\nP,trail,2,R\nP,rail,2,R\nP,trail,1,R\nC,trail,0,1,1\n";
        let mended = |rest: &str| {
            let text = format!("{other}{rest}");
            let found = headless(&Pack::read(&lines_of(text.as_bytes())).ok().unwrap());
            let near: Vec<String> = found[0].near.iter().map(|near| near.predicate.clone()).collect();
            assert_eq!(found[0].predicate, "trail/2");
            (near, to_correct(&found))
        };
        let near = |names: &[&str]| names.iter().map(|name| name.to_string()).collect::<Vec<String>>();
        assert_eq!(mended("H,trail,X\nE\n"), (near(&["trail/1"]), "the number of arguments"));
        assert_eq!(mended("H,rail,X,Y\nE\n"), (near(&["rail/2"]), "the name"));
        let all = mended("H,trail,X\nH,rail,X,Y\nH,trail,X,Y,Z\nE\n");
        assert_eq!(all, (near(&["trail/3", "trail/1", "rail/2"]), "the name or the number of arguments"));
    }

    #[test]
    fn an_end_that_is_passed_wrongly_is_a_disagreement() {
        let compared = |rest: &str| {
            let text = format!("{OPENING}{rest}");
            compare(&Pack::read(&lines_of(text.as_bytes())).ok().unwrap()).is_ok()
        };
        assert!(compared("H,trail,X\nM\nM\nE\n"));
        assert!(compared("H,trial,X\n"));
        assert!(!compared("H,trial,X\nE\n"));
    }
}
