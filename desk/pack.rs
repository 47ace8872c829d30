//! A pack as people read it: predicates with their claims, facts, and rules with their multipliers. It reads lines that
//! the library has passed and judges nothing; a line that it cannot read is a disagreement with the library.

use crate::forms::Form;
use crate::letters::Letter;
use crate::limits::HIGHEST_NUMBER;
use crate::naming::{declared_arity, Naming};
use crate::terms::{applied, read_term, Term, Token};
use crate::tokens::{is_name, number};
use crate::words::{are, listed, shown};

pub struct Predicate<'t> {
    pub name: &'t [u8],
    pub arity: usize,
    pub is_given: bool,
    pub line: usize,
    pub claims: Vec<Claim>,
}

/// A claim's numbers c0, c1, .., cn.
pub struct Claim {
    pub line: usize,
    pub numbers: Vec<i64>,
}

/// A head, a subgoal or a fact.
pub struct Atom<'t> {
    /// Its predicate's place among the pack's.
    pub predicate: usize,
    pub name: &'t [u8],
    pub arguments: Vec<Term<'t>>,
}

/// A fact that comes with the pack.
pub struct Fact<'t> {
    pub line: usize,
    pub atom: Atom<'t>,
}

pub struct Rule<'t> {
    pub head: Atom<'t>,
    pub subgoals: Vec<Atom<'t>>,
    /// The multipliers of each `M` line so far.
    pub multipliers: Vec<Vec<i64>>,
}

#[derive(Default)]
pub struct Pack<'t> {
    /// How many lines have been read.
    pub lines: usize,
    pub predicates: Vec<Predicate<'t>>,
    pub facts: Vec<Fact<'t>>,
    pub rules: Vec<Rule<'t>>,
    /// The number of the `E` line.
    pub end_line: Option<usize>,
}

/// The lines of a text, without their byte 10. A last line that lacks it is a line too.
pub fn lines_of(text: &[u8]) -> Vec<&[u8]> {
    let text = text.strip_suffix(b"\n").unwrap_or(text);
    text.split(|byte| *byte == b'\n').collect()
}

pub fn fields_of(line: &[u8]) -> Vec<&[u8]> {
    line.split(|byte| *byte == b',').collect()
}

impl Predicate<'_> {
    pub fn name_shown(&self) -> String {
        shown(self.name)
    }

    /// Name and arity: `join/3`.
    pub fn indicator(&self) -> String {
        format!("{}/{}", self.name_shown(), self.arity)
    }
}

impl Atom<'_> {
    /// `join(Xs,Y,Zs)`
    pub fn usual(&self) -> String {
        applied(self.name, &self.arguments)
    }

    /// The sizes of its arguments, as forms over these variables.
    pub fn sizes(&self, variables: &[&[u8]]) -> Vec<Form> {
        self.arguments.iter().map(|argument| Form::of_term(argument, variables)).collect()
    }
}

impl<'t> Rule<'t> {
    /// The rule as a clause: `join(cons(X,Xs),Y,cons(X,Zs)) :- join(Xs,Y,Zs).`
    pub fn clause(&self) -> String {
        if self.subgoals.is_empty() {
            return format!("{}.", self.head.usual());
        }
        let subgoals: Vec<String> = self.subgoals.iter().map(Atom::usual).collect();
        format!("{} :- {}.", self.head.usual(), subgoals.join(", "))
    }

    /// The rule's variables in the order of their first occurrence, the head's first.
    pub fn variables(&self) -> Vec<&'t [u8]> {
        let mut variables = Vec::new();
        for atom in std::iter::once(&self.head).chain(&self.subgoals) {
            add_variables(&atom.arguments, &mut variables);
        }
        variables
    }
}

/// Adds the variables of these terms that are not among those so far.
pub fn add_variables<'t>(terms: &[Term<'t>], variables: &mut Vec<&'t [u8]>) {
    for term in terms {
        term.walk(&mut |token| match token {
            Token::Variable(name) if !variables.contains(&name) => variables.push(name),
            _ => {}
        });
    }
}

impl<'t> Pack<'t> {
    /// Reads these lines; if one cannot be read, its number.
    pub fn read(lines: &[&'t [u8]]) -> Result<Pack<'t>, usize> {
        let mut pack = Pack::default();
        for line in lines {
            pack.lines += 1;
            if pack.read_line(line).is_none() {
                return Err(pack.lines);
            }
        }
        Ok(pack)
    }

    fn read_line(&mut self, line: &'t [u8]) -> Option<()> {
        let fields = fields_of(line);
        match Letter::of(fields[0])? {
            Letter::Predicate => self.read_predicate(&fields),
            Letter::Claim => self.read_claim(&fields),
            Letter::Fact => self.read_fact(&fields),
            Letter::Head => self.read_head(&fields),
            Letter::Subgoal => self.read_subgoal(&fields),
            Letter::Multipliers => self.read_multipliers(&fields),
            Letter::End => {
                self.end_line = Some(self.lines);
                Some(())
            }
        }
    }

    fn read_predicate(&mut self, fields: &[&'t [u8]]) -> Option<()> {
        let &[_, name, arity, kind] = fields else { return None };
        let is_given = match kind {
            b"G" => true,
            b"R" => false,
            _ => return None,
        };
        let arity = declared_arity(arity)?;
        if !is_name(name) || self.place_of(&Naming::of_fields(fields)?).is_some() {
            return None;
        }
        self.predicates.push(Predicate { name, arity, is_given, line: self.lines, claims: Vec::new() });
        Some(())
    }

    fn read_claim(&mut self, fields: &[&'t [u8]]) -> Option<()> {
        let place = self.place_of(&Naming::of_fields(fields)?)?;
        let numbers = read_numbers(&fields[2..], -HIGHEST_NUMBER)?;
        self.predicates[place].claims.push(Claim { line: self.lines, numbers });
        Some(())
    }

    fn read_fact(&mut self, fields: &[&'t [u8]]) -> Option<()> {
        let atom = self.read_atom(fields)?;
        self.facts.push(Fact { line: self.lines, atom });
        Some(())
    }

    fn read_head(&mut self, fields: &[&'t [u8]]) -> Option<()> {
        let head = self.read_atom(fields)?;
        self.rules.push(Rule { head, subgoals: Vec::new(), multipliers: Vec::new() });
        Some(())
    }

    fn read_subgoal(&mut self, fields: &[&'t [u8]]) -> Option<()> {
        let subgoal = self.read_atom(fields)?;
        self.rules.last_mut()?.subgoals.push(subgoal);
        Some(())
    }

    /// The head, subgoal or fact that a line states.
    pub fn read_atom(&self, fields: &[&'t [u8]]) -> Option<Atom<'t>> {
        let naming = Naming::of_fields(fields)?;
        let predicate = self.place_of(&naming)?;
        let arguments: Vec<Term> = fields[2..].iter().map(|field| read_term(field).ok()).collect::<Option<_>>()?;
        Some(Atom { predicate, name: naming.name, arguments })
    }

    fn read_multipliers(&mut self, fields: &[&'t [u8]]) -> Option<()> {
        let multipliers = read_numbers(&fields[1..], 0)?;
        if multipliers.len() != self.multipliers_due() || self.multiplier_lines_due() == 0 {
            return None;
        }
        self.rules.last_mut()?.multipliers.push(multipliers);
        Some(())
    }

    fn place_of(&self, naming: &Naming) -> Option<usize> {
        let arity = naming.arity?;
        self.predicates.iter().position(|predicate| predicate.name == naming.name && predicate.arity == arity)
    }

    /// The predicate of this name and arity.
    pub fn declared(&self, naming: &Naming) -> Option<&Predicate<'t>> {
        self.place_of(naming).map(|place| &self.predicates[place])
    }

    /// The predicates of this name, by arity.
    pub fn of_name(&self, name: &[u8]) -> Vec<&Predicate<'t>> {
        let mut found: Vec<&Predicate> = self.predicates.iter().filter(|predicate| predicate.name == name).collect();
        found.sort_by_key(|predicate| predicate.arity);
        found
    }

    /// A sentence, after a space, on the predicates of the same name and the other kind; empty if there are none.
    pub fn of_other_kind(&self, predicate: &Predicate) -> String {
        let others = self.of_name(predicate.name).into_iter().filter(|other| other.is_given != predicate.is_given);
        let others: Vec<String> = others.map(|other| format!("{} (line {})", other.indicator(), other.line)).collect();
        let kind = if predicate.is_given { "ruled" } else { "given" };
        match others.len() {
            0 => String::new(),
            number => format!(" Of the same name {} {} {kind}.", listed(&others, "and"), are(number)),
        }
    }

    pub fn predicate_of(&self, atom: &Atom) -> &Predicate<'t> {
        &self.predicates[atom.predicate]
    }

    /// How many claims there are on all predicates.
    pub fn claims(&self) -> usize {
        self.predicates.iter().map(|predicate| predicate.claims.len()).sum()
    }

    pub fn multiplier_lines(&self) -> usize {
        self.rules.iter().map(|rule| rule.multipliers.len()).sum()
    }

    /// How many claims on the last rule's head have no `M` line yet.
    pub fn multiplier_lines_due(&self) -> usize {
        self.rules.last().map_or(0, |rule| self.predicate_of(&rule.head).claims.len() - rule.multipliers.len())
    }

    /// How many multipliers an `M` line of the last rule has: one for each claim on each subgoal.
    pub fn multipliers_due(&self) -> usize {
        self.rules
            .last()
            .map_or(0, |rule| rule.subgoals.iter().map(|subgoal| self.predicate_of(subgoal).claims.len()).sum())
    }
}

fn read_numbers(fields: &[&[u8]], lowest: i64) -> Option<Vec<i64>> {
    fields.iter().map(|field| number(field, lowest, HIGHEST_NUMBER).ok()).collect()
}

#[cfg(test)]
pub mod tests {
    use super::*;

    pub const JOIN: &[u8] = include_bytes!("../packs/join.pack");
    pub const SORTER: &[u8] = include_bytes!("../packs/sorter.pack");

    #[test]
    fn a_pack_is_read_as_it_is_written() {
        let pack = Pack::read(&lines_of(JOIN)).ok().unwrap();
        assert_eq!((pack.lines, pack.rules.len(), pack.multiplier_lines(), pack.end_line), (11, 2, 4, Some(11)));
        assert_eq!(pack.predicates[0].indicator(), "join/3");
        assert_eq!(pack.rules[0].clause(), "join(nil,Y,Y).");
        assert_eq!(pack.rules[1].clause(), "join(cons(X,Xs),Y,cons(X,Zs)) :- join(Xs,Y,Zs).");
        assert_eq!(pack.rules[1].variables(), [&b"X"[..], b"Xs", b"Y", b"Zs"]);
        assert_eq!(pack.rules[1].multipliers, [[1, 0], [0, 1]]);
    }

    #[test]
    fn facts_are_read_with_their_lines() {
        let pack = Pack::read(&lines_of(SORTER)).ok().unwrap();
        assert_eq!(pack.facts.iter().map(|fact| fact.line).collect::<Vec<_>>(), [6, 7, 8, 9, 10]);
        assert_eq!(pack.facts[3].atom.usual(), "next(up(up(tray)),scale,up(tray))");
        assert_eq!(pack.predicate_of(&pack.facts[3].atom).indicator(), "next/3");
    }

    #[test]
    fn predicates_go_by_name_and_arity() {
        let text = b"P,k,2,R\nP,k,1,G\nP,l,1,R\nC,k,0,1\nC,k,0,1,1\nC,k,1,1\nG,k,a/0\nH,k,X,Y\nB,k,X\n";
        let pack = Pack::read(&lines_of(text)).ok().unwrap();
        let claims: Vec<usize> = pack.predicates.iter().map(|predicate| predicate.claims.len()).collect();
        assert_eq!((claims, pack.facts[0].atom.predicate), (vec![1, 2, 0], 1));
        assert_eq!((pack.rules[0].head.predicate, pack.rules[0].subgoals[0].predicate), (0, 1));
        assert_eq!((pack.multiplier_lines_due(), pack.multipliers_due()), (1, 2));
        let of_name: Vec<String> = pack.of_name(b"k").iter().map(|predicate| predicate.indicator()).collect();
        assert_eq!(of_name, ["k/1", "k/2"]);
        let declared = |query: &'static [u8]| pack.declared(&Naming::of_query(query)).map(|found| found.line);
        assert_eq!(
            [declared(b"k"), declared(b"k,1"), declared(b"k,1,-"), declared(b"k,1,-,-")],
            [None, None, Some(2), Some(1)]
        );
    }

    #[test]
    fn a_line_that_cannot_be_read_is_told() {
        for (text, line) in [
            (&b"P,k,9,R\nE\n"[..], 1),
            (b"P,k,1,R\nC,k,0\nE\n", 2),
            (b"P,k,0,R\nC,k\nE\n", 2),
            (b"P,k,1,R\nP,k,2,R\nP,k,1,G\nE\n", 3),
            (b"P,k,1,G\nG,k\nE\n", 2),
            (b"P,k,1,G\nG,l,a/0\nE\n", 2),
            (b"P,k,1,R\nH,k,x\nE\n", 2),
            (b"P,k,1,R\nB,k,X\nE\n", 2),
            (b"M\n", 1),
            (b"", 1),
        ] {
            assert_eq!(Pack::read(&lines_of(text)).err(), Some(line));
        }
    }

    #[test]
    fn a_last_line_without_its_end_is_a_line() {
        assert_eq!(lines_of(b"a\nE"), [&b"a"[..], b"E"]);
        assert_eq!(lines_of(b"a\nE\n"), [&b"a"[..], b"E"]);
        assert_eq!(lines_of(b"a\n\n"), [&b"a"[..], b""]);
    }
}
