//! Writes a model of a pack as the documents want its lines.

use super::*;

pub(super) fn with_numbers(start: &str, numbers: &[i64]) -> String {
    numbers.iter().fold(start.to_string(), |line, number| format!("{line},{number}"))
}

impl Model {
    pub(super) fn atom_line(&self, letter: &str, atom: &Atom) -> String {
        let mut line = format!("{letter},{}", self.predicates[atom.predicate].name);
        for argument in &atom.arguments {
            line.push(',');
            argument.write(&self.variables, &mut line);
        }
        line
    }

    pub(super) fn opening_lines(&self) -> Vec<String> {
        let mut lines = Vec::new();
        for predicate in &self.predicates {
            let kind = if predicate.is_given { "G" } else { "R" };
            lines.push(format!("P,{},{},{kind}", predicate.name, predicate.arity));
        }
        for claim in &self.claims {
            lines.push(with_numbers(&format!("C,{}", self.predicates[claim.predicate].name), &claim.numbers));
        }
        lines.extend(self.facts.iter().map(|fact| self.atom_line("G", fact)));
        lines
    }

    pub(super) fn rule_lines(&self, rule: &Rule) -> Vec<String> {
        let mut lines = vec![self.atom_line("H", &rule.head)];
        lines.extend(rule.subgoals.iter().map(|subgoal| self.atom_line("B", subgoal)));
        lines.extend(rule.multipliers.iter().map(|list| with_numbers("M", list)));
        lines
    }

    pub fn lines(&self) -> Vec<String> {
        let mut lines = self.opening_lines();
        self.rules.iter().for_each(|rule| lines.extend(self.rule_lines(rule)));
        lines.push("E".to_string());
        lines
    }

    pub fn pack(&self) -> Pack {
        let declared = (0..self.predicates.len()).map(|predicate| self.declared(predicate)).collect();
        Pack { text: text_of(&self.lines()), declared }
    }

    pub(super) fn declared(&self, predicate: usize) -> Declared {
        let Predicate { name, arity, .. } = &self.predicates[predicate];
        let claims = self.claims_on(predicate);
        let is_bounded = |argument: &usize| claims.iter().any(|claim| self.claims[*claim].numbers[*argument] < 0);
        Declared { name: name.clone(), arity: *arity, bounded: (1..=*arity).filter(is_bounded).collect() }
    }

    /// The text with exactly so many bytes: rules are dropped from the end while it is longer, then rules for a
    /// predicate `pad` without claims fill it up. Nothing if it is too long even without rules.
    pub fn text_of_size(&mut self, bytes: usize) -> Option<Vec<u8>> {
        let name = "pad";
        self.predicates.push(Predicate { name: name.to_string(), arity: 1, is_given: false });
        let mut taken = text_of(&self.lines()).len();
        while taken + shortest_head(name) > bytes {
            let dropped = self.rules.pop()?;
            taken -= text_of(&self.rule_lines(&dropped)).len();
        }
        let mut lines = self.lines();
        let end = lines.pop()?;
        lines.extend(heads_of_size(name, bytes - taken));
        lines.push(end);
        Some(text_of(&lines))
    }
}

/// How many bytes `H,name,a/0` takes with its byte 10.
pub fn shortest_head(name: &str) -> usize {
    "H,".len() + name.len() + ",a/0\n".len()
}

/// Heads of a predicate of arity 1 that take exactly so many bytes together, none over 1,000.
pub fn heads_of_size(name: &str, bytes: usize) -> Vec<String> {
    atoms_of_size("H", name, bytes, 1_000)
}

/// Lines with this letter, of a predicate of arity 1, that take exactly so many bytes together, none over `most`.
pub fn atoms_of_size(letter: &str, name: &str, bytes: usize, most: usize) -> Vec<String> {
    let mut missing = bytes;
    let mut lines = Vec::new();
    while missing > 0 {
        // What is left must have room for another line.
        let taken = if missing <= most { missing } else { most.min(missing - shortest_head(name)) };
        lines.push(format!("{letter},{name},{}", term_of_length(taken - shortest_head(name) + "a/0".len())));
        missing -= taken;
    }
    lines
}

pub fn text_of(lines: &[String]) -> Vec<u8> {
    let mut text = lines.join("\n").into_bytes();
    text.push(b'\n');
    text
}
