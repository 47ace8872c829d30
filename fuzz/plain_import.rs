//! The import of clause text, 6/14 of document 02 in plain Rust: the trees that `plain_clauses.rs` reads, held against
//! document 01's limits and written as `H` and `B` lines.

#[path = "plain_clauses.rs"]
mod clauses;

use clauses::{Atom, Clause, Reader, Tree};

const LINE_LIMIT: usize = 1_024;
const NAME_LIMIT: usize = 16;
const PREDICATE_ARITY_LIMIT: usize = 8;
const SYMBOL_ARITY_LIMIT: usize = 9;
const SUBGOAL_LIMIT: usize = 8;
const VARIABLE_LIMIT: usize = 16;

/// What 26 can be about.
#[derive(Clone, Copy, Debug, PartialEq, Eq, PartialOrd, Ord)]
pub enum Limit {
    Line,
    PredicateArity,
    SymbolArity,
    PredicateName,
    SymbolName,
    VariableName,
    Subgoals,
    Variables,
}

/// A clause of the subset: its lines, and the limits that it breaks.
pub struct Imported {
    pub lines: Vec<u8>,
    pub limits: Vec<Limit>,
}

/// The clauses of a text up to the first that is not in the subset, and where that one fails, if there is one.
pub fn clauses_of(text: &[u8]) -> (Vec<Imported>, Option<usize>) {
    let (mut reader, mut imported) = (Reader::new(text), Vec::new());
    while !reader.is_at_end() {
        let clause = match reader.clause() {
            Ok(clause) => clause,
            Err(refused) => return (imported, Some(refused.place)),
        };
        let lines = lines_of(&clause);
        imported.push(Imported { limits: limits_broken(&clause, &lines), lines: lines.concat() });
    }
    (imported, None)
}

/// The four numbers; the buffer changes only where the first is 0. 25, 26 and 27 are tested clause by clause.
pub fn import(text: &[u8], buffer: &mut [u8]) -> [u64; 4] {
    let (imported, place) = clauses_of(text);
    let mut all = Vec::new();
    for (clause, number) in imported.iter().zip(1..) {
        all.extend(&clause.lines);
        if !clause.limits.is_empty() {
            return [26, number, 0, 0];
        }
        if all.len() > buffer.len() {
            return [27, number, 0, 0];
        }
    }
    if let Some(place) = place {
        return [25, place as u64, 0, 0];
    }
    buffer[..all.len()].copy_from_slice(&all);
    [0, imported.len() as u64, all.len() as u64, 0]
}

// ---------------------------------------------------------------------------------------------------------------
// Writing.

/// The clause's lines, each with its byte 10.
fn lines_of(clause: &Clause) -> Vec<Vec<u8>> {
    let mut fresh = fresh_names(clause).into_iter();
    let mut lines = Vec::new();
    for (place, atom) in clause.atoms.iter().enumerate() {
        let mut line = if place == 0 { b"H,".to_vec() } else { b"B,".to_vec() };
        line.extend(&atom.name);
        for argument in &atom.arguments {
            let mut tokens = Vec::new();
            add_tokens(argument, &mut fresh, &mut tokens);
            line.push(b',');
            line.extend(tokens.join(&b' '));
        }
        line.push(b'\n');
        lines.push(line);
    }
    lines
}

/// Adds the tokens of a term in prefix order; the fresh variables take their names in the order in which they stand.
fn add_tokens(tree: &Tree, fresh: &mut impl Iterator<Item = Vec<u8>>, tokens: &mut Vec<Vec<u8>>) {
    match tree {
        Tree::Variable(name) => tokens.push(name.clone()),
        Tree::Fresh => tokens.extend(fresh.next()),
        Tree::Symbol(name, arguments) => {
            tokens.push([name.as_slice(), b"/", arguments.len().to_string().as_bytes()].concat());
            for argument in arguments {
                add_tokens(argument, fresh, tokens);
            }
        }
    }
}

/// Names for the clause's fresh variables: `V` and the lowest number that makes a name not written or made in the clause.
fn fresh_names(clause: &Clause) -> Vec<Vec<u8>> {
    let leaves = leaves_of(clause);
    let mut taken: Vec<Vec<u8>> = leaves.iter().flatten().cloned().collect();
    let mut made = Vec::new();
    for _ in leaves.iter().filter(|leaf| leaf.is_none()) {
        let mut number = 1;
        while taken.contains(&format!("V{number}").into_bytes()) {
            number += 1;
        }
        made.push(format!("V{number}").into_bytes());
        taken.extend(made.last().cloned());
    }
    made
}

/// The clause's variables as they stand, a fresh one without a name.
fn leaves_of(clause: &Clause) -> Vec<Option<Vec<u8>>> {
    fn gather(tree: &Tree, leaves: &mut Vec<Option<Vec<u8>>>) {
        match tree {
            Tree::Variable(name) => leaves.push(Some(name.clone())),
            Tree::Fresh => leaves.push(None),
            Tree::Symbol(_, arguments) => arguments.iter().for_each(|argument| gather(argument, leaves)),
        }
    }
    let mut leaves = Vec::new();
    clause.atoms.iter().flat_map(|atom| &atom.arguments).for_each(|argument| gather(argument, &mut leaves));
    leaves
}

// ---------------------------------------------------------------------------------------------------------------
// Limits.

/// The limits of document 01 that the clause breaks, each once.
fn limits_broken(clause: &Clause, lines: &[Vec<u8>]) -> Vec<Limit> {
    let mut broken = Vec::new();
    if lines.iter().any(|line| line.len() - 1 > LINE_LIMIT) {
        broken.push(Limit::Line);
    }
    if clause.atoms.len() - 1 > SUBGOAL_LIMIT {
        broken.push(Limit::Subgoals);
    }
    if variables_in(clause) > VARIABLE_LIMIT {
        broken.push(Limit::Variables);
    }
    clause.atoms.iter().for_each(|atom| broken.extend(limits_of_atom(atom)));
    broken.sort();
    broken.dedup();
    broken
}

/// How many different variables the clause has; each fresh one is another.
fn variables_in(clause: &Clause) -> usize {
    let leaves = leaves_of(clause);
    let fresh = leaves.iter().filter(|leaf| leaf.is_none()).count();
    let mut names: Vec<Vec<u8>> = leaves.into_iter().flatten().collect();
    names.sort();
    names.dedup();
    names.len() + fresh
}

fn limits_of_atom(atom: &Atom) -> Vec<Limit> {
    let mut broken = Vec::new();
    if atom.name.len() > NAME_LIMIT {
        broken.push(Limit::PredicateName);
    }
    if atom.arguments.len() > PREDICATE_ARITY_LIMIT {
        broken.push(Limit::PredicateArity);
    }
    atom.arguments.iter().for_each(|argument| limits_of_term(argument, &mut broken));
    broken
}

fn limits_of_term(tree: &Tree, broken: &mut Vec<Limit>) {
    match tree {
        Tree::Variable(name) if name.len() > NAME_LIMIT => broken.push(Limit::VariableName),
        Tree::Variable(_) | Tree::Fresh => {}
        Tree::Symbol(name, arguments) => {
            if name.len() > NAME_LIMIT {
                broken.push(Limit::SymbolName);
            }
            if arguments.len() > SYMBOL_ARITY_LIMIT {
                broken.push(Limit::SymbolArity);
            }
            arguments.iter().for_each(|argument| limits_of_term(argument, broken));
        }
    }
}
