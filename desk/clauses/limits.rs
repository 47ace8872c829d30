//! The limits of packs that a clause passes (26), the first of each kind, with where and by what.

use super::{Clause, NodeKind, Word};
use crate::limits::{HIGHEST_ARITY, HIGHEST_SYMBOL_ARITY, LINE_BYTES, NAME_BYTES, SUBGOALS, VARIABLES};
use crate::words::{count, grouped, quoted};
use std::collections::BTreeSet;
use std::ops::Range;

#[derive(Clone, Copy, Debug, PartialEq)]
pub enum Limit {
    Name,
    Variable,
    PredicateArity,
    SymbolArity,
    Line,
    Subgoals,
    Variables,
}

impl Limit {
    /// What is counted, as JSON has it.
    pub fn counted(self) -> &'static str {
        match self {
            Limit::Name => "bytes of a name",
            Limit::Variable => "bytes of a variable",
            Limit::PredicateArity => "arguments of a head or subgoal",
            Limit::SymbolArity => "arguments of a symbol",
            Limit::Line => "bytes of a line",
            Limit::Subgoals => "subgoals",
            Limit::Variables => "variables",
        }
    }

    /// What has the limit, in a sentence.
    fn bearer(self) -> &'static str {
        match self {
            Limit::Name => "a name",
            Limit::Variable => "a variable",
            Limit::PredicateArity => "a head or subgoal",
            Limit::SymbolArity => "a symbol in a term",
            Limit::Line => "a line",
            Limit::Subgoals | Limit::Variables => "a rule",
        }
    }

    pub fn highest(self) -> usize {
        match self {
            Limit::Name | Limit::Variable => NAME_BYTES,
            Limit::PredicateArity => HIGHEST_ARITY as usize,
            Limit::SymbolArity => HIGHEST_SYMBOL_ARITY,
            Limit::Line => LINE_BYTES,
            Limit::Subgoals => SUBGOALS,
            Limit::Variables => VARIABLES,
        }
    }

    /// What may be done about it.
    pub fn mend(self) -> &'static str {
        match self {
            Limit::Name => "Shorten the name, wherever it stands.",
            Limit::Variable => "Shorten the variable, wherever it stands in the clause.",
            Limit::PredicateArity | Limit::SymbolArity => "Put several arguments into one term, as pair(X,Y).",
            Limit::Line => "Write shorter names, or leave a part of the term to a subgoal that builds it.",
            Limit::Subgoals => "Move some of the subgoals to a predicate of their own, and call that.",
            Limit::Variables => {
                "Move some of the subgoals to a predicate of their own, with the variables that only they need."
            }
        }
    }
}

/// A limit that a clause passes.
#[derive(Debug, PartialEq)]
pub struct PassedLimit {
    pub limit: Limit,
    pub found: usize,
    /// The bytes of the text that show it.
    pub place: Range<usize>,
    /// The sentence that says it.
    pub said: String,
}

/// The limits that the clause with these lines passes, none twice.
pub fn passed(clause: &Clause, lines: &[Vec<u8>]) -> Vec<PassedLimit> {
    let found = [
        long_name(clause),
        long_variable(clause),
        wide_goal(clause),
        wide_symbol(clause),
        long_line(clause, lines),
        many_subgoals(clause),
        many_variables(clause),
    ];
    found.into_iter().flatten().collect()
}

impl PassedLimit {
    /// `It has 9 subgoals, and a rule has at most 8.`, of what this word shows.
    fn at(word: Word, limit: Limit, found: usize, subject: &str, counted: &str) -> PassedLimit {
        let (bearer, highest) = (limit.bearer(), grouped(limit.highest() as u64));
        let said = format!("{subject} {counted}, and {bearer} has at most {highest}.");
        PassedLimit { limit, found, place: word.place(), said }
    }
}

fn long_name(clause: &Clause) -> Option<PassedLimit> {
    let words = clause.goals.iter().flat_map(|goal| {
        let symbols = goal.nodes.iter().filter(|node| matches!(node.kind, NodeKind::Symbol { .. }));
        std::iter::once(goal.name).chain(symbols.map(|node| node.word))
    });
    long_word(Limit::Name, words)
}

fn long_variable(clause: &Clause) -> Option<PassedLimit> {
    let variables = clause.nodes().filter(|node| node.kind == NodeKind::Variable);
    long_word(Limit::Variable, variables.map(|node| node.word))
}

fn long_word<'t>(limit: Limit, mut words: impl Iterator<Item = Word<'t>>) -> Option<PassedLimit> {
    let word = words.find(|word| word.bytes.len() > limit.highest())?;
    let what = if limit == Limit::Name { "name" } else { "variable" };
    let (length, subject) = (word.bytes.len(), format!("The {what} {} has", quoted(word.bytes)));
    Some(PassedLimit::at(word, limit, length, &subject, &count(length, "byte")))
}

fn wide_goal(clause: &Clause) -> Option<PassedLimit> {
    let limit = Limit::PredicateArity;
    let goal = clause.goals.iter().find(|goal| goal.arity > limit.highest())?;
    let subject = format!("{} has", quoted(goal.name.bytes));
    Some(PassedLimit::at(goal.name, limit, goal.arity, &subject, &count(goal.arity, "argument")))
}

fn wide_symbol(clause: &Clause) -> Option<PassedLimit> {
    let limit = Limit::SymbolArity;
    let (word, arity) = clause.nodes().find_map(|node| match node.kind {
        NodeKind::Symbol { arity } if arity > limit.highest() => Some((node.word, arity)),
        _ => None,
    })?;
    let subject = format!("{} has", quoted(word.bytes));
    Some(PassedLimit::at(word, limit, arity, &subject, &count(arity, "argument")))
}

fn long_line(clause: &Clause, lines: &[Vec<u8>]) -> Option<PassedLimit> {
    let limit = Limit::Line;
    let place = lines.iter().position(|line| line.len() > limit.highest())?;
    let subject = match place {
        0 => "The H line of its head would have".to_string(),
        subgoal => format!("The B line of its subgoal {subgoal} would have"),
    };
    let length = lines[place].len();
    Some(PassedLimit::at(clause.goals[place].name, limit, length, &subject, &count(length, "byte")))
}

fn many_subgoals(clause: &Clause) -> Option<PassedLimit> {
    let (limit, found) = (Limit::Subgoals, clause.goals.len() - 1);
    let first = clause.goals.get(limit.highest() + 1)?;
    Some(PassedLimit::at(first.name, limit, found, "It has", &count(found, "subgoal")))
}

/// Each `_` is a variable of its own.
fn many_variables(clause: &Clause) -> Option<PassedLimit> {
    let limit = Limit::Variables;
    let mut seen = BTreeSet::new();
    let others = clause.nodes().filter(|node| match node.kind {
        NodeKind::Symbol { .. } => false,
        NodeKind::Anonymous => true,
        NodeKind::Variable => seen.insert(node.word.bytes),
    });
    let variables: Vec<Word> = others.map(|node| node.word).collect();
    let first = variables.get(limit.highest())?;
    let has_anonymous = variables.len() > seen.len();
    let counted = count(variables.len(), "variable") + if has_anonymous { ", each _ one of them" } else { "" };
    Some(PassedLimit::at(*first, limit, variables.len(), "It has", &counted))
}

#[cfg(test)]
mod tests {
    use super::*;
    use crate::clauses::reading::ClauseReader;
    use crate::clauses::writing::lines_of;

    fn passed_by(text: &str) -> Vec<(Limit, usize, Range<usize>)> {
        let clause = ClauseReader::of(text.as_bytes()).next_clause().unwrap().unwrap();
        let passed = passed(&clause, &lines_of(&clause));
        passed.into_iter().map(|passed| (passed.limit, passed.found, passed.place)).collect()
    }

    /// So many of these, parted by commas.
    fn times(number: usize, word: &str) -> String {
        vec![word; number].join(",")
    }

    #[test]
    fn what_is_just_within_the_limits_passes_none() {
        assert_eq!(passed_by(&format!("p({}) :- {}.", times(8, "_"), times(8, "q(_)"))), []);
        assert_eq!(passed_by(&format!("p(f({})).", times(9, "a"))), []);
        assert_eq!(passed_by("abcdefghijklmnop(Abcdefghijklmnop,abcdefghijklmnop)."), []);
        assert_eq!(passed_by(&format!("p({}a{}).", "f(".repeat(254), ")".repeat(254))), []);
    }

    #[test]
    fn one_more_passes_each_of_them() {
        assert_eq!(passed_by(&format!("p :- {}.", times(9, "q"))), [(Limit::Subgoals, 9, 21..22)]);
        assert_eq!(passed_by(&format!("p({}).", times(9, "a"))), [(Limit::PredicateArity, 9, 0..1)]);
        assert_eq!(passed_by(&format!("p(f({})).", times(10, "a"))), [(Limit::SymbolArity, 10, 2..3)]);
        assert_eq!(passed_by("abcdefghijklmnopq."), [(Limit::Name, 17, 0..17)]);
        assert_eq!(passed_by("p(abcdefghijklmnopq)."), [(Limit::Name, 17, 2..19)]);
        assert_eq!(passed_by("p(Abcdefghijklmnopq)."), [(Limit::Variable, 17, 2..19)]);
        let rule = format!("p({}) :- q({}).", times(8, "_"), times(8, "_"));
        assert_eq!(passed_by(&rule), []);
        assert_eq!(passed_by(&rule.replace(").", "), r(X).")), [(Limit::Variables, 17, 44..45)]);
        let deep = format!("p({}a{}).", "f(".repeat(255), ")".repeat(255));
        assert_eq!(passed_by(&deep), [(Limit::Line, 1027, 0..1)]);
        let several = format!("p({}) :- q(f({})).", times(9, "X"), times(10, "a"));
        assert_eq!(passed_by(&several), [(Limit::PredicateArity, 9, 0..1), (Limit::SymbolArity, 10, 26..27)]);
    }

    #[test]
    fn a_variable_that_stands_twice_is_one() {
        let variables: Vec<String> = (1..=16).map(|number| format!("X{number}")).collect();
        let rule = |more: &str| format!("p(f({}),g({}),{more}).", variables[..9].join(","), variables[9..].join(","));
        assert_eq!(passed_by(&rule("X3")), []);
        assert_eq!(passed_by(&rule("_")).len(), 1);
    }
}
