//! Makes rule packs that the documents accept (or nearly do), terms and queries. A pack is made as a model first:
//! predicates, then facts and rules, then claims that suit both, then multipliers that justify the claims. The
//! arithmetic here only steers the making; what a pack is worth is for the library and the plain implementation to say.

#[path = "generate_arities.rs"]
mod arities;
#[path = "generate_facts.rs"]
mod facts;
#[path = "generate_heads.rs"]
mod heads;
#[path = "generate_plan.rs"]
mod plan;
#[path = "generate_queries.rs"]
mod queries;
#[path = "generate_text.rs"]
pub mod text;

use crate::random::Random;
pub use plan::Plan;
pub use queries::query;

/// A constant and a number for each variable.
type Numbers = [i64; 17];

pub struct Pack {
    pub text: Vec<u8>,
    /// The declared predicates, for the queries.
    pub declared: Vec<Declared>,
}

/// What a query needs to know of a predicate.
pub struct Declared {
    pub name: String,
    pub arity: usize,
    /// The arguments, counted from 1, that some claim has a number below 0 for: there may be a bound on these.
    pub bounded: Vec<usize>,
}

// ---------------------------------------------------------------------------------------------------------------
// Names and numbers.

/// Names that are close to each other: parts of one another, other case inside, the longest allowed.
#[rustfmt::skip]
const NAMES: [&str; 12] = [
    "p", "pp", "p_", "pQ", "p1", "q", "join", "edge", "abcdefghijklmnop", "abcdefghijklmnoq", "abcdefghijklmno", "z9_Z",
];

#[rustfmt::skip]
const VARIABLES: [&str; 16] = [
    "X", "Xs", "XS", "X1", "X11", "X_", "Y", "Ys", "Z", "V1", "V2", "Abcdefghijklmnop", "Abcdefghijklmnoq", "A", "B",
    "M",
];

#[rustfmt::skip]
const SYMBOLS: [(&str, usize); 11] = [
    ("a", 0), ("nil", 0), ("b", 0), ("s", 1), ("f", 1), ("cons", 2), ("cons", 1), ("node", 3), ("f", 4), ("wide_5", 5),
    ("abcdefghijklmnop", 2),
];

fn predicate_name(index: usize) -> String {
    match NAMES.get(index) {
        Some(name) => name.to_string(),
        None => format!("r{index}"),
    }
}

/// A number of a claim: mostly small, sometimes at the limit.
fn claim_number(random: &mut Random, plan: &Plan) -> i64 {
    match random.below(if plan.extreme { 40 } else { 20 }) {
        0..=6 => 0,
        7..=16 => random.between(-2, 2),
        17 => random.between(-40, 40),
        18 => random.between(-9999, 9999),
        _ => random.pick(&[-9999, 9999, 9998, -9998]),
    }
}

fn multiplier(random: &mut Random, plan: &Plan) -> i64 {
    match random.below(if plan.extreme { 80 } else { 40 }) {
        0..=21 => 0,
        22..=33 => 1,
        34..=38 => random.between(2, 9),
        _ => random.pick(&[9999, 9998, 1000, 77]),
    }
}

// ---------------------------------------------------------------------------------------------------------------
// Terms.

#[derive(Clone)]
enum Term {
    Variable(usize),
    Symbol(&'static str, Vec<Term>),
}

impl Term {
    /// Without variables (`variables` is 0) the term is ground.
    fn make(random: &mut Random, variables: usize, depth: usize) -> Term {
        if variables > 0 && random.chance(55) {
            return Term::Variable(random.below(variables));
        }
        let choices = if depth == 0 { 3 } else { SYMBOLS.len() };
        let (name, arity) = SYMBOLS[random.below(choices)];
        Term::Symbol(name, (0..arity).map(|_| Term::make(random, variables, depth - 1)).collect())
    }

    fn write(&self, names: &[&str], text: &mut String) {
        match self {
            Term::Variable(index) => text.push_str(names[*index]),
            Term::Symbol(name, parts) => {
                text.push_str(&format!("{name}/{}", parts.len()));
                for part in parts {
                    text.push(' ');
                    part.write(names, text);
                }
            }
        }
    }

    /// Adds the term's size times a factor.
    fn add_size(&self, factor: i64, sum: &mut Numbers) {
        match self {
            Term::Variable(index) => sum[1 + index] += factor,
            Term::Symbol(_, parts) => {
                sum[0] += factor * parts.len() as i64;
                parts.iter().for_each(|part| part.add_size(factor, sum));
            }
        }
    }
}

/// A ground term of exactly so many bytes, 3 or more: `f/1 f/1 .. a/0`, the last name longer where 4 does not divide.
pub fn term_of_length(bytes: usize) -> String {
    let (wraps, rest) = ((bytes - 3) / 4, (bytes - 3) % 4);
    "f/1 ".repeat(wraps) + &"abcd"[..1 + rest] + "/0"
}

/// A term for `measure`.
pub fn measured_term(random: &mut Random) -> Vec<u8> {
    if random.chance(3) {
        return term_of_length(1018 + random.below(10)).into_bytes();
    }
    let variables = if random.chance(25) { 1 + random.below(16) } else { 0 };
    let depth = random.below(5);
    let mut text = String::new();
    Term::make(random, variables, depth).write(&VARIABLES, &mut text);
    text.into_bytes()
}

// ---------------------------------------------------------------------------------------------------------------
// The model.

struct Predicate {
    name: String,
    arity: usize,
    is_given: bool,
}

struct Claim {
    predicate: usize,
    numbers: Vec<i64>,
}

#[derive(Clone)]
struct Atom {
    predicate: usize,
    arguments: Vec<Term>,
}

struct Rule {
    head: Atom,
    subgoals: Vec<Atom>,
    /// One list for each claim on the head.
    multipliers: Vec<Vec<i64>>,
}

pub struct Model {
    predicates: Vec<Predicate>,
    claims: Vec<Claim>,
    /// Those that come with the pack.
    facts: Vec<Atom>,
    rules: Vec<Rule>,
    /// How the variables are called, in an order of this pack's own.
    variables: Vec<&'static str>,
}

impl Claim {
    fn at(&self, atom: &Atom) -> Numbers {
        let mut sum = [0; 17];
        sum[0] = self.numbers[0];
        for (number, argument) in self.numbers[1..].iter().zip(&atom.arguments) {
            argument.add_size(*number, &mut sum);
        }
        sum
    }
}

impl Model {
    /// A model of which each claim is justified and met by the facts if `justified`; otherwise some may not be.
    pub fn make(random: &mut Random, plan: &Plan, justified: bool) -> Model {
        let mut variables = VARIABLES.to_vec();
        random.shuffle(&mut variables);
        let (predicates, claims, facts, rules) = (Vec::new(), Vec::new(), Vec::new(), Vec::new());
        let mut model = Model { predicates, claims, facts, rules, variables };
        model.add_predicates(random, plan);
        model.add_facts(random, plan);
        model.add_rules(random, plan);
        model.add_claims(random, plan, justified);
        random.shuffle(&mut model.claims);
        while !model.choose_multipliers(random, plan, justified) {}
        model
    }

    fn add_predicates(&mut self, random: &mut Random, plan: &Plan) {
        let first = random.below(NAMES.len());
        for index in 0..plan.predicates {
            let arity = if random.chance(8) { 0 } else { 1 + plan.up_to(random, plan.most_arity - 1) };
            let mut named = (predicate_name(first + index), arity);
            if plan.shared > 0 && index > 0 && random.chance(plan.shared) {
                named = self.shared_predicate(random).unwrap_or(named);
            }
            let is_given = random.chance(if index == 0 { 15 } else { 45 });
            self.predicates.push(Predicate { name: named.0, arity: named.1, is_given });
        }
    }

    fn atom(&self, random: &mut Random, plan: &Plan, predicate: usize) -> Atom {
        let arity = self.predicates[predicate].arity;
        let depth = random.below(plan.depth + 1);
        Atom { predicate, arguments: (0..arity).map(|_| Term::make(random, plan.variables, depth)).collect() }
    }

    fn subgoals(&self, random: &mut Random, plan: &Plan, most: usize) -> Vec<Atom> {
        let count = plan.up_to(random, most);
        (0..count)
            .map(|_| {
                let predicate = random.below(self.predicates.len());
                self.atom(random, plan, predicate)
            })
            .collect()
    }

    /// Any head with any subgoals.
    fn free_rule(&self, random: &mut Random, plan: &Plan, head: usize) -> Rule {
        let head = self.atom(random, plan, head);
        Rule { head, subgoals: self.subgoals(random, plan, plan.most_subgoals), multipliers: Vec::new() }
    }

    /// No subgoals, and one or two variables that stand in several arguments.
    fn base_rule(&self, random: &mut Random, plan: &Plan, head: usize) -> Rule {
        let few = Plan { variables: plan.variables.min(1 + random.below(2)), ..*plan };
        Rule { head: self.atom(random, &few, head), subgoals: Vec::new(), multipliers: Vec::new() }
    }

    /// The head's arguments are variables, and stand in the first subgoal in some order.
    fn passing_rule(&self, random: &mut Random, plan: &Plan, head: usize) -> Rule {
        let arguments = self.distinct_variables(plan, head);
        let predicate = random.below(self.predicates.len());
        let mut passed = self.distinct_variables(plan, predicate);
        random.shuffle(&mut passed);
        let mut subgoals = vec![Atom { predicate, arguments: passed }];
        subgoals.extend(self.subgoals(random, plan, plan.most_subgoals.saturating_sub(1)));
        Rule { head: Atom { predicate: head, arguments }, subgoals, multipliers: Vec::new() }
    }

    /// The head's predicate again as first subgoal, with some of the head's arguments wrapped one time less.
    fn recursive_rule(&self, random: &mut Random, plan: &Plan, head: usize) -> Rule {
        let inner = self.distinct_variables(plan, head);
        let other = Term::make(random, plan.variables, 0);
        let arguments = inner.iter().map(|term| wrapped_perhaps(random, term, &other)).collect();
        let mut subgoals = vec![Atom { predicate: head, arguments: inner }];
        subgoals.extend(self.subgoals(random, plan, plan.most_subgoals.saturating_sub(1)));
        Rule { head: Atom { predicate: head, arguments }, subgoals, multipliers: Vec::new() }
    }

    fn distinct_variables(&self, plan: &Plan, predicate: usize) -> Vec<Term> {
        (0..self.predicates[predicate].arity).map(|index| Term::Variable(index % plan.variables)).collect()
    }

    /// Some claims are written twice, so that two give the same bound.
    fn add_claims(&mut self, random: &mut Random, plan: &Plan, justified: bool) {
        let tries = if justified { 10 } else { 1 };
        for predicate in 0..self.predicates.len() {
            if !self.may_be_claimed(plan, predicate) {
                continue;
            }
            let least = usize::from(random.chance(80)).min(plan.most_claims);
            let count = least + plan.up_to(random, plan.most_claims - least);
            while self.claims_on(predicate).len() < count {
                let numbers = self.suitable_claim(random, plan, predicate, tries);
                let numbers = self.claim_for_facts(random, predicate, numbers, justified);
                if random.chance(10) && self.claims_on(predicate).len() + 2 <= count {
                    self.claims.push(Claim { predicate, numbers: numbers.clone() });
                }
                self.claims.push(Claim { predicate, numbers });
            }
        }
    }

    /// Any numbers for a given predicate; for a ruled one, numbers that its rules justify if so many tries find some.
    fn suitable_claim(&mut self, random: &mut Random, plan: &Plan, predicate: usize, tries: usize) -> Vec<i64> {
        let arity = self.predicates[predicate].arity;
        let mut numbers = Vec::new();
        for _ in 0..tries {
            numbers = (0..=arity).map(|_| claim_number(random, plan)).collect();
            self.claims.push(Claim { predicate, numbers: numbers.clone() });
            let last = self.claims.len() - 1;
            let suits = (0..self.rules.len())
                .filter(|rule| self.rules[*rule].head.predicate == predicate)
                .all(|rule| self.find_multipliers(random, plan, rule, last).is_some());
            self.claims.pop();
            if suits {
                break;
            }
        }
        numbers
    }

    fn claims_on(&self, predicate: usize) -> Vec<usize> {
        (0..self.claims.len()).filter(|claim| self.claims[*claim].predicate == predicate).collect()
    }

    /// The claims on the subgoals with the subgoals' sizes put in, in the order of the multipliers.
    fn subgoal_forms(&self, rule: &Rule) -> Vec<Numbers> {
        let mut forms = Vec::new();
        for subgoal in &rule.subgoals {
            for claim in self.claims_on(subgoal.predicate) {
                forms.push(self.claims[claim].at(subgoal));
            }
        }
        forms
    }

    /// Multipliers that justify the claim for the rule, if a short search finds some: random ones, a single 1, all 0.
    fn find_multipliers(&self, random: &mut Random, plan: &Plan, rule: usize, claim: usize) -> Option<Vec<i64>> {
        let rule = &self.rules[rule];
        let head = self.claims[claim].at(&rule.head);
        let forms = self.subgoal_forms(rule);
        for _ in 0..4 {
            let tried: Vec<i64> = forms.iter().map(|_| multiplier(random, plan)).collect();
            if is_justified(&head, &forms, &tried) {
                return Some(tried);
            }
        }
        let mut tried = vec![0; forms.len()];
        for chosen in 0..forms.len() {
            tried[chosen] = 1;
            if is_justified(&head, &forms[chosen..=chosen], &[1]) {
                return Some(tried);
            }
            tried[chosen] = 0;
        }
        is_justified(&head, &[], &[]).then_some(tried)
    }

    /// Gives every rule its multipliers. A claim for which none are found is raised to numbers of at least 0 if
    /// `justified`; then the search must start again, and this returns false.
    fn choose_multipliers(&mut self, random: &mut Random, plan: &Plan, justified: bool) -> bool {
        let mut all_found = true;
        for rule in 0..self.rules.len() {
            let mut lists = Vec::new();
            for claim in self.claims_on(self.rules[rule].head.predicate) {
                let found = self.find_multipliers(random, plan, rule, claim);
                if found.is_none() && justified {
                    self.claims[claim].numbers.iter_mut().for_each(|number| *number = 0.max(*number));
                    all_found = false;
                }
                let count = self.subgoal_forms(&self.rules[rule]).len();
                lists.push(found.unwrap_or_else(|| (0..count).map(|_| multiplier(random, plan)).collect()));
            }
            self.rules[rule].multipliers = lists;
        }
        all_found || !justified
    }
}

/// Three of five times the term inside `cons/2`, with the same other term in each of a rule's arguments.
fn wrapped_perhaps(random: &mut Random, term: &Term, other: &Term) -> Term {
    match random.below(5) {
        0..=1 => term.clone(),
        2 => Term::Symbol("s", vec![term.clone()]),
        _ => Term::Symbol("cons", vec![other.clone(), term.clone()]),
    }
}

/// Is what is left of the head form, when the multiplied forms are subtracted, at least 0 throughout?
fn is_justified(head: &Numbers, forms: &[Numbers], multipliers: &[i64]) -> bool {
    (0..head.len()).all(|place| {
        let subtracted: i64 = forms.iter().zip(multipliers).map(|(form, multiplier)| form[place] * multiplier).sum();
        head[place] >= subtracted
    })
}
