//! 13: why a claim is not justified. The desk works out the head form, the subgoals' claims and the residual, and
//! compares the residual with the library's area.

use crate::claims::inequality;
use crate::forms::Form;
use crate::limits::HIGHEST_NUMBER;
use crate::pack::{Atom, Pack};
use crate::report::Disagreement;
use crate::words::{listed, shown};
use cerrundix::Residual;

/// A claim on a subgoal, with the subgoal's sizes put in.
pub struct SubgoalClaim {
    /// The subgoal's number, and how it is written.
    pub subgoal: usize,
    pub written: String,
    pub claim: usize,
    pub multiplier: i64,
    pub form: Form,
}

/// How the last `M` line that was read judges its claim.
pub struct Judgement<'t> {
    pub rule: usize,
    pub claim: usize,
    pub predicate: String,
    pub inequality: String,
    pub clause: String,
    pub variables: Vec<&'t [u8]>,
    pub head_sizes: Vec<Form>,
    pub head_form: Form,
    pub subgoals: usize,
    pub subgoal_claims: Vec<SubgoalClaim>,
    pub residual: Form,
}

/// Head form, less each subgoal claim times its multiplier.
pub fn work_out<'t>(pack: &Pack<'t>) -> Option<Judgement<'t>> {
    let rule = pack.rules.last()?;
    let multipliers = rule.multipliers.last()?;
    let claim = rule.multipliers.len();
    let head = pack.predicate_of(&rule.head);
    let numbers = &head.claims.get(claim - 1)?.numbers;
    let variables = rule.variables();
    let head_sizes = rule.head.sizes(&variables);
    let head_form = Form::of_claim(numbers, &head_sizes, variables.len());
    let subgoal_claims = subgoal_claims(pack, &rule.subgoals, &variables, multipliers);
    let residual = subgoal_claims
        .iter()
        .fold(head_form.clone(), |rest, used| rest.plus(&used.form.clone().times(-used.multiplier)));
    Some(Judgement {
        rule: pack.rules.len(),
        claim,
        predicate: head.indicator(),
        inequality: inequality(numbers),
        clause: rule.clause(),
        variables,
        head_sizes,
        head_form,
        subgoals: rule.subgoals.len(),
        subgoal_claims,
        residual,
    })
}

/// Each claim on each subgoal with its multiplier, in the order of an `M` line.
fn subgoal_claims(pack: &Pack, subgoals: &[Atom], variables: &[&[u8]], multipliers: &[i64]) -> Vec<SubgoalClaim> {
    let mut multipliers = multipliers.iter();
    let mut found = Vec::new();
    for (place, subgoal) in subgoals.iter().enumerate() {
        let sizes = subgoal.sizes(variables);
        for (number, claim) in pack.predicate_of(subgoal).claims.iter().enumerate() {
            found.push(SubgoalClaim {
                subgoal: place + 1,
                written: subgoal.usual(),
                claim: number + 1,
                multiplier: multipliers.next().copied().unwrap_or(0),
                form: Form::of_claim(&claim.numbers, &sizes, variables.len()),
            });
        }
    }
    found
}

impl Judgement<'_> {
    /// The residual is the library's, and it has a number below 0.
    pub fn compare(&self, rule: u8, claim: u8, area: &Residual) -> Result<(), Disagreement> {
        if (self.rule, self.claim) != (usize::from(rule), usize::from(claim)) {
            return Disagreement::that(format!(
                "The library refuses rule {rule}, claim {claim}; the line is of rule {}, claim {}.",
                self.rule, self.claim
            ));
        }
        let mut worked_out: Residual = [0; 17];
        worked_out[0] = self.residual.constant;
        for (place, coefficient) in worked_out[1..].iter_mut().zip(&self.residual.coefficients) {
            *place = *coefficient;
        }
        if self.variables.len() > 16 || worked_out != *area {
            return Disagreement::that(format!(
                "The library's residual is {area:?}, the desk works out {worked_out:?}."
            ));
        }
        if self.below_zero().is_empty() {
            return Disagreement::that("The library refuses the claim, and no number of its residual is below 0.");
        }
        Ok(())
    }

    /// What is below 0 in the residual, each with its number: the constant, or a variable's coefficient.
    pub fn below_zero(&self) -> Vec<(String, i64)> {
        let constant = ("the constant".to_string(), self.residual.constant);
        let coefficients =
            self.variables.iter().zip(&self.residual.coefficients).map(|(variable, number)| (shown(variable), *number));
        std::iter::once(constant).chain(coefficients).filter(|(_, number)| *number < 0).collect()
    }

    /// What is wrong, in a sentence.
    pub fn wrong(&self) -> String {
        let below: Vec<String> = self.below_zero().iter().map(|(what, number)| format!("{what} ({number})")).collect();
        let how = if self.subgoal_claims.is_empty() { "Rule" } else { "With these multipliers rule" };
        format!(
            "{how} {} does not justify claim {} on {}: its residual is below 0 at {}.",
            self.rule,
            self.claim,
            self.predicate,
            listed(&below, "and")
        )
    }

    /// What to mend: which multipliers would raise what is below 0, if any, and what else may do.
    pub fn mend(&self) -> String {
        let weaker = format!("a weaker claim on {} or another base case", self.predicate);
        let else_mends = format!("another claim on a subgoal, {weaker}");
        if self.subgoals == 0 {
            return format!("The rule has no subgoals to draw on: {weaker} may mend it.");
        }
        if self.subgoal_claims.is_empty() {
            return format!("The subgoals have no claims to draw on: claims on them, {weaker} may mend it.");
        }
        let places: Vec<usize> =
            (0..=self.variables.len()).filter(|place| number_at(&self.residual, *place) < 0).collect();
        let out_of_reach: Vec<String> = places
            .iter()
            .filter(|place| self.hint(**place).is_none())
            .map(|place| self.number_called(*place))
            .collect();
        if !out_of_reach.is_empty() {
            let numbers = listed(&out_of_reach, "and");
            return format!("No multiplier on this line can raise {numbers}: {else_mends} may mend it.");
        }
        let hints: Vec<String> = places.iter().filter_map(|place| self.hint(*place)).collect();
        format!("{} If other multipliers do not do, {else_mends} may.", hints.join(" "))
    }

    fn number_called(&self, place: usize) -> String {
        match place {
            0 => "the constant".to_string(),
            _ => format!("the number of {}", shown(self.variables[place - 1])),
        }
    }

    /// How the number at a place of the residual can be raised by other multipliers, if it can.
    fn hint(&self, place: usize) -> Option<String> {
        let which = |wanted: fn(i64, i64) -> bool| -> Vec<String> {
            let helps = self.subgoal_claims.iter().filter(|used| wanted(number_at(&used.form, place), used.multiplier));
            helps.map(|used| format!("claim {} on subgoal {}", used.claim, used.subgoal)).collect()
        };
        let raise = which(|number, multiplier| number < 0 && multiplier < HIGHEST_NUMBER);
        let lower = which(|number, multiplier| number > 0 && multiplier > 0);
        let change = match (raise.is_empty(), lower.is_empty()) {
            (true, true) => return None,
            (false, true) => format!("A higher multiplier of {} raises", listed(&raise, "or")),
            (true, false) => format!("A lower multiplier of {} raises", listed(&lower, "or")),
            (false, false) => {
                format!(
                    "A higher multiplier of {}, or a lower one of {}, raises",
                    listed(&raise, "or"),
                    listed(&lower, "or")
                )
            }
        };
        Some(format!("{change} {}.", self.number_called(place)))
    }
}

/// The number at a place as the area counts them: 0 is the constant.
fn number_at(form: &Form, place: usize) -> i64 {
    match place {
        0 => form.constant,
        _ => form.coefficients[place - 1],
    }
}

#[cfg(test)]
mod tests {
    use super::*;
    use crate::pack::lines_of;

    const UNJUSTIFIED: &[u8] = include_bytes!("../packs/refused/13-not-justified.pack");
    const AREA: Residual = [0, 0, 2, 2, -2, 0, 0, 0, 0, 0, 0, 0, 0, 0, 0, 0, 0];

    fn judgement() -> Judgement<'static> {
        work_out(&Pack::read(&lines_of(UNJUSTIFIED)[..9]).ok().unwrap()).unwrap()
    }

    #[test]
    fn the_residual_is_document_01s() {
        assert_eq!(judgement().compare(2, 1, &AREA), Ok(()));
        assert_eq!(judgement().below_zero(), [("Zs".to_string(), -2)]);
    }

    #[test]
    fn another_residual_rule_or_claim_is_a_disagreement() {
        for place in 0..17 {
            let mut other = AREA;
            other[place] += 1;
            assert!(judgement().compare(2, 1, &other).is_err(), "place {place}");
        }
        assert!(judgement().compare(1, 1, &AREA).is_err());
        assert!(judgement().compare(2, 2, &AREA).is_err());
    }

    #[test]
    fn a_residual_with_nothing_below_zero_is_a_disagreement() {
        let mut judgement = judgement();
        judgement.residual = Form { constant: 0, coefficients: vec![0, 2, 2, 2] };
        let mut area = AREA;
        area[4] = 2;
        assert!(judgement.compare(2, 1, &area).is_err());
    }
}
