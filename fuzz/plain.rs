//! Document 01, with 02's 1/14 to 5/14, in plain Rust: `check`, `reserve`, `measure` and `sheet`, written from the
//! documents' words and not from the code under `crates/`. The fuzz test compares the project's library with it, so it
//! aims at being easy to compare with the documents, not at speed. All arithmetic on forms is checked: an overflow stops
//! the test.

#[path = "plain_queries.rs"]
mod queries;
#[path = "plain_sheet.rs"]
pub mod sheets;
#[path = "plain_terms.rs"]
mod terms;

use queries::{bound_by_claims, read_query};
use terms::{claim_at, fields_of, is_clean, is_name, read_number_within, read_term, Form, Term};

/// The area that `check` needs, in numbers: a residual's constant and its coefficients.
pub const AREA_NEEDED: usize = 1 + VARIABLES;

const TEXT_BYTES: usize = 32_768;
const LINE_BYTES: usize = 1_024;
const PREDICATES: usize = 32;
const CLAIMS: usize = 16;
const RULES: u64 = 64;
const SUBGOALS: usize = 8;
const VARIABLES: usize = 16;
const NAME_BYTES: usize = 16;

// ---------------------------------------------------------------------------------------------------------------
// The calls. The sheet has a file of its own.

/// Judges the pack. Returns check's four numbers; changes the area's first 17 numbers for 13 only.
pub fn check(text: &[u8], area: &mut [i64]) -> [u64; 4] {
    if area.len() < AREA_NEEDED {
        return [1, 0, 0, 0];
    }
    match judge(text) {
        Ok(pack) => [0, pack.lines, pack.rules, pack.multiplier_lines],
        Err(refusal) => {
            if let Some(residual) = refusal.residual {
                area[0] = residual.constant;
                area[1..AREA_NEEDED].copy_from_slice(&residual.coefficients);
            }
            [refusal.number, refusal.line, refusal.rule, refusal.claim]
        }
    }
}

/// What `reserve` answers to a query.
#[derive(Clone, Copy, PartialEq, Debug)]
pub enum Reservation {
    Bound { bound: u64, claim: u64 },
    NoBound,
    Impossible { claim: u64 },
    Refused { number: u64 },
}

/// Checks the pack, then answers the query (a line without its byte 10).
pub fn reserve(text: &[u8], query: &[u8]) -> Reservation {
    let answer = match judge(text) {
        Ok(pack) => read_query(&pack, query).map(|query| bound_by_claims(&query)),
        Err(refusal) => Err(refusal),
    };
    answer.unwrap_or_else(|refusal| Reservation::Refused { number: refusal.number })
}

/// The size of a ground term, or the number of the refusal.
pub fn measure(term: &[u8]) -> Result<u64, u64> {
    if !is_clean(term) {
        return Err(4);
    }
    let term = read_term(term).ok_or(11_u64)?;
    if term.variables.is_empty() {
        Ok(term.arities as u64)
    } else {
        Err(19)
    }
}

// ---------------------------------------------------------------------------------------------------------------
// The words in which C gets the answers.

/// Check's numbers times 1, 2^8, 2^24, 2^32.
pub fn word_of_check(numbers: [u64; 4]) -> u64 {
    numbers[0] + (numbers[1] << 8) + (numbers[2] << 24) + (numbers[3] << 32)
}

/// The letter as its byte, the claim times 2^8, the middle field times 2^16.
pub fn word_of_reserve(answer: Reservation) -> u64 {
    let (letter, middle, claim) = match answer {
        Reservation::Bound { bound, claim } => (b'B', bound, claim),
        Reservation::NoBound => (b'N', 0, 0),
        Reservation::Impossible { claim } => (b'I', 0, claim),
        Reservation::Refused { number } => (b'R', number, 0),
    };
    u64::from(letter) + (claim << 8) + (middle << 16)
}

/// The refusal or 0, and the size times 2^8.
pub fn word_of_measure(answer: Result<u64, u64>) -> u64 {
    match answer {
        Ok(size) => size << 8,
        Err(refusal) => refusal,
    }
}

// ---------------------------------------------------------------------------------------------------------------
// The pack.

/// A refusal as check's four numbers, with the residual that goes into the area for 13.
struct Refusal {
    number: u64,
    line: u64,
    rule: u64,
    claim: u64,
    residual: Option<Box<Form>>,
}

/// A refusal that has a number only; `judge` adds the line.
fn refuse<T>(number: u64) -> Result<T, Refusal> {
    Err(Refusal { number, line: 0, rule: 0, claim: 0, residual: None })
}

fn refuse_unless(holds: bool, number: u64) -> Result<(), Refusal> {
    if holds {
        Ok(())
    } else {
        refuse(number)
    }
}

struct Predicate<'a> {
    name: &'a [u8],
    arity: usize,
    is_given: bool,
    /// Each claim's numbers c0, c1, .., cn.
    claims: Vec<Vec<i64>>,
    heads_a_rule: bool,
}

/// A head or a subgoal: which predicate, and the sizes of its arguments.
struct Atom {
    predicate: usize,
    sizes: Vec<Form>,
}

/// The rule whose lines are being read.
struct Rule<'a> {
    head: Atom,
    subgoals: Vec<Atom>,
    /// The rule's variables by first occurrence.
    variables: Vec<&'a [u8]>,
    /// How many `M` lines it has so far.
    multiplier_lines: usize,
}

/// Where in the order of lines the pack stands.
#[derive(PartialEq)]
enum Place {
    Predicates,
    Claims,
    Facts,
    Rules,
    Ended,
}

/// All that has been read of a pack.
struct Pack<'a> {
    place: Place,
    predicates: Vec<Predicate<'a>>,
    /// The last rule, if there is one.
    rule: Option<Rule<'a>>,
    lines: u64,
    rules: u64,
    multiplier_lines: u64,
}

/// Refusals 2 to 13, 20 to 22 and 24: the whole text, then its lines from the top, then 6.
fn judge(text: &[u8]) -> Result<Pack<'_>, Refusal> {
    refuse_unless(text.len() <= TEXT_BYTES, 2)?;
    refuse_unless(text.last() == Some(&10), 3)?;
    let mut pack =
        Pack { place: Place::Predicates, predicates: Vec::new(), rule: None, lines: 0, rules: 0, multiplier_lines: 0 };
    for line in text[..text.len() - 1].split(|byte| *byte == 10) {
        pack.lines += 1;
        if let Err(refusal) = pack.judge_line(line) {
            return Err(Refusal { line: pack.lines, ..refusal });
        }
    }
    refuse_unless(pack.place == Place::Ended, 6)?;
    Ok(pack)
}

impl<'a> Pack<'a> {
    /// The tests of a line stand in the order in which they apply, here and in the functions for each letter: that of
    /// their numbers, and 02's where it puts them.
    fn judge_line(&mut self, line: &'a [u8]) -> Result<(), Refusal> {
        refuse_unless(is_clean(line), 4)?;
        let fields = fields_of(line);
        refuse_unless(self.is_allowed(fields[0]), 5)?;
        match fields[0] {
            b"P" => self.read_predicate(&fields),
            b"C" => self.read_claim(&fields),
            b"G" => self.read_fact(&fields),
            b"H" => self.read_head(&fields),
            b"B" => self.read_subgoal(&fields),
            b"M" => self.read_multipliers(&fields),
            _ => self.read_end(&fields),
        }
    }

    /// Is this first field a letter that may stand at this point?
    fn is_allowed(&self, letter: &[u8]) -> bool {
        match (&self.place, letter) {
            (Place::Predicates, b"P" | b"C" | b"G" | b"H" | b"E") => true,
            (Place::Claims, b"C" | b"G" | b"H" | b"E") => true,
            (Place::Facts, b"G" | b"H" | b"E") => true,
            (Place::Rules, b"B") => self.last_rule().multiplier_lines == 0,
            (Place::Rules, b"M") => self.claims_left() > 0,
            (Place::Rules, b"H" | b"E") => self.claims_left() == 0,
            _ => false,
        }
    }

    fn last_rule(&self) -> &Rule<'a> {
        self.rule.as_ref().expect("among the rules there is a last one")
    }

    /// How many claims on the last rule's head have no `M` line yet.
    fn claims_left(&self) -> usize {
        let rule = self.last_rule();
        self.predicates[rule.head.predicate].claims.len() - rule.multiplier_lines
    }

    /// The place of the predicate that has both this name and this arity.
    fn find(&self, name: &[u8], arity: usize) -> Option<usize> {
        self.predicates.iter().position(|predicate| predicate.name == name && predicate.arity == arity)
    }

    /// The declared predicate of a line on which so many fields are no arguments: refusals 7 and 8. The arity is the
    /// number of the others; where there are not as many fields, it is below 0, and nothing is declared with that.
    fn find_second(&self, fields: &[&'a [u8]], no_arguments: usize) -> Result<usize, Refusal> {
        refuse_unless(fields.len() > 1 && is_name(fields[1]), 7)?;
        let arity = fields.len().checked_sub(no_arguments);
        match arity.and_then(|arity| self.find(fields[1], arity)) {
            Some(predicate) => Ok(predicate),
            None => refuse(8),
        }
    }

    /// `P,name,n,kind`: without an arity that can be read, the line passes 8.
    fn read_predicate(&mut self, fields: &[&'a [u8]]) -> Result<(), Refusal> {
        refuse_unless(fields.len() > 1 && is_name(fields[1]), 7)?;
        let arity = match fields.get(2) {
            Some([digit @ b'0'..=b'8']) => Some(usize::from(digit - b'0')),
            _ => None,
        };
        refuse_unless(arity.is_none_or(|arity| self.find(fields[1], arity).is_none()), 8)?;
        refuse_unless(fields.len() == 4, 9)?;
        let Some(arity) = arity else { return refuse(10) };
        refuse_unless(fields[3] == b"G" || fields[3] == b"R", 10)?;
        refuse_unless(self.predicates.len() < PREDICATES, 12)?;
        let is_given = fields[3] == b"G";
        self.predicates.push(Predicate { name: fields[1], arity, is_given, claims: Vec::new(), heads_a_rule: false });
        Ok(())
    }

    /// `C,name,c0,c1,..,cn`
    fn read_claim(&mut self, fields: &[&'a [u8]]) -> Result<(), Refusal> {
        let predicate = self.find_second(fields, 3)?;
        let claim = read_numbers(&fields[2..], -9999)?;
        let claims = &mut self.predicates[predicate].claims;
        refuse_unless(claims.len() < CLAIMS, 12)?;
        claims.push(claim);
        self.place = Place::Claims;
        Ok(())
    }

    /// `G,name,t1,..,tn`: a fact that comes with the pack. Ground, so its sizes are constants.
    fn read_fact(&mut self, fields: &[&'a [u8]]) -> Result<(), Refusal> {
        let predicate = &self.predicates[self.find_second(fields, 2)?];
        refuse_unless(predicate.is_given, 20)?;
        let terms = read_terms(fields)?;
        refuse_unless(terms.iter().all(|term| term.variables.is_empty()), 21)?;
        let sizes: Vec<Form> = terms.iter().map(|term| Form::constant(term.arities)).collect();
        refuse_unless(predicate.claims.iter().all(|claim| claim_at(claim, &sizes).is_at_least_zero()), 22)?;
        self.place = Place::Facts;
        Ok(())
    }

    /// `H,name,t1,..,tn`
    fn read_head(&mut self, fields: &[&'a [u8]]) -> Result<(), Refusal> {
        let predicate = self.find_second(fields, 2)?;
        refuse_unless(!self.predicates[predicate].is_given, 8)?;
        let terms = read_terms(fields)?;
        refuse_unless(self.rules < RULES, 12)?;
        let mut variables = Vec::new();
        let head = Atom { predicate, sizes: sizes_of(&terms, &mut variables)? };
        self.rule = Some(Rule { head, subgoals: Vec::new(), variables, multiplier_lines: 0 });
        self.predicates[predicate].heads_a_rule = true;
        self.rules += 1;
        self.place = Place::Rules;
        Ok(())
    }

    /// `B,name,t1,..,tn`
    fn read_subgoal(&mut self, fields: &[&'a [u8]]) -> Result<(), Refusal> {
        let predicate = self.find_second(fields, 2)?;
        let terms = read_terms(fields)?;
        let rule = self.rule.as_mut().expect("a subgoal stands after a head");
        refuse_unless(rule.subgoals.len() < SUBGOALS, 12)?;
        let sizes = sizes_of(&terms, &mut rule.variables)?;
        rule.subgoals.push(Atom { predicate, sizes });
        Ok(())
    }

    /// `M` and one multiplier for each claim on each subgoal's predicate.
    fn read_multipliers(&mut self, fields: &[&'a [u8]]) -> Result<(), Refusal> {
        let subgoals = &self.last_rule().subgoals;
        let due: usize = subgoals.iter().map(|subgoal| self.predicates[subgoal.predicate].claims.len()).sum();
        refuse_unless(fields.len() == 1 + due, 9)?;
        let multipliers = read_numbers(&fields[1..], 0)?;
        let residual = self.residual(&multipliers);
        let rule = self.rule.as_mut().expect("an M line stands in a rule");
        rule.multiplier_lines += 1;
        self.multiplier_lines += 1;
        if residual.is_at_least_zero() {
            return Ok(());
        }
        let claim = rule.multiplier_lines as u64;
        Err(Refusal { number: 13, line: 0, rule: self.rules, claim, residual: Some(Box::new(residual)) })
    }

    /// The head form of the claim whose turn it is, less each subgoal's claims times their multipliers.
    fn residual(&self, multipliers: &[i64]) -> Form {
        let rule = self.last_rule();
        let claim = &self.predicates[rule.head.predicate].claims[rule.multiplier_lines];
        let mut residual = claim_at(claim, &rule.head.sizes);
        let mut multipliers = multipliers.iter();
        for subgoal in &rule.subgoals {
            for claim in &self.predicates[subgoal.predicate].claims {
                let multiplier = multipliers.next().expect("the fields have been counted");
                residual = residual.plus(claim_at(claim, &subgoal.sizes).times(-multiplier));
            }
        }
        residual
    }

    /// `E`: by now each ruled predicate with a claim heads a rule.
    fn read_end(&mut self, fields: &[&'a [u8]]) -> Result<(), Refusal> {
        refuse_unless(fields.len() == 1, 9)?;
        let is_headless = |predicate: &Predicate| !predicate.claims.is_empty() && !predicate.heads_a_rule;
        refuse_unless(!self.predicates.iter().any(|predicate| !predicate.is_given && is_headless(predicate)), 24)?;
        self.place = Place::Ended;
        Ok(())
    }
}

/// Claim numbers or multipliers, at most 9999 each: refusal 10.
fn read_numbers(fields: &[&[u8]], lowest: i64) -> Result<Vec<i64>, Refusal> {
    let numbers: Option<Vec<i64>> = fields.iter().map(|field| read_number_within(field, lowest, 9999)).collect();
    match numbers {
        Some(numbers) => Ok(numbers),
        None => refuse(10),
    }
}

/// The arguments of a `G`, `H` or `B` line: refusal 11.
fn read_terms<'a>(fields: &[&'a [u8]]) -> Result<Vec<Term<'a>>, Refusal> {
    let terms: Option<Vec<Term<'a>>> = fields[2..].iter().map(|field| read_term(field)).collect();
    match terms {
        Some(terms) => Ok(terms),
        None => refuse(11),
    }
}

/// The terms' sizes as forms. Variables not yet among the rule's are added; the 17th different one is refusal 12.
fn sizes_of<'a>(terms: &[Term<'a>], variables: &mut Vec<&'a [u8]>) -> Result<Vec<Form>, Refusal> {
    let mut sizes = Vec::new();
    for term in terms {
        let mut size = Form::constant(term.arities);
        for name in &term.variables {
            let number = match variables.iter().position(|variable| variable == name) {
                Some(number) => number,
                None => {
                    variables.push(name);
                    variables.len() - 1
                }
            };
            refuse_unless(number < VARIABLES, 12)?;
            size.coefficients[number] += 1;
        }
        sizes.push(size);
    }
    Ok(sizes)
}
