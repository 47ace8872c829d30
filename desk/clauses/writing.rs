//! A clause as lines of a pack: an `H` line for its head, a `B` line for each subgoal.

use super::{Clause, Goal, NodeKind};
use std::collections::BTreeSet;

/// The lines, each without its byte 10.
pub fn lines_of(clause: &Clause) -> Vec<Vec<u8>> {
    let mut fresh = FreshVariables::of(clause);
    let letters = std::iter::once(b'H').chain(std::iter::repeat(b'B'));
    letters.zip(&clause.goals).map(|(letter, goal)| line_of(letter, goal, &mut fresh)).collect()
}

fn line_of(letter: u8, goal: &Goal, fresh: &mut FreshVariables) -> Vec<u8> {
    let mut line = vec![letter, b','];
    line.extend(goal.name.bytes);
    for node in &goal.nodes {
        line.push(if node.is_argument { b',' } else { b' ' });
        match node.kind {
            NodeKind::Variable => line.extend(node.word.bytes),
            NodeKind::Anonymous => line.extend(fresh.next().into_bytes()),
            NodeKind::Symbol { arity } => {
                line.extend(node.word.bytes);
                line.extend(format!("/{arity}").into_bytes());
            }
        }
    }
    line
}

/// The variables that stand for `_` in a clause: `V` and a number, the lowest that is not written or made there.
struct FreshVariables<'t> {
    written: BTreeSet<&'t [u8]>,
    last: usize,
}

impl<'t> FreshVariables<'t> {
    fn of(clause: &Clause<'t>) -> FreshVariables<'t> {
        FreshVariables { written: named_variables(clause), last: 0 }
    }

    fn next(&mut self) -> String {
        loop {
            self.last += 1;
            let variable = format!("V{}", self.last);
            if !self.written.contains(variable.as_bytes()) {
                return variable;
            }
        }
    }
}

fn named_variables<'t>(clause: &Clause<'t>) -> BTreeSet<&'t [u8]> {
    clause.nodes().filter(|node| node.kind == NodeKind::Variable).map(|node| node.word.bytes).collect()
}

#[cfg(test)]
mod tests {
    use super::*;
    use crate::clauses::reading::ClauseReader;

    fn written(text: &str) -> String {
        let clause = ClauseReader::of(text.as_bytes()).next_clause().unwrap().unwrap();
        String::from_utf8(lines_of(&clause).join(&b'\n')).unwrap()
    }

    #[test]
    fn terms_are_written_front_to_back() {
        assert_eq!(written("p(a,f(X,_)) :- q(X), r."), "H,p,a/0,f/2 X V1\nB,q,X\nB,r");
        assert_eq!(written("p(f(g(a),b),c)."), "H,p,f/2 g/1 a/0 b/0,c/0");
        assert_eq!(written("a."), "H,a");
    }

    #[test]
    fn fresh_variables_pass_over_those_that_are_written_anywhere_in_the_clause() {
        assert_eq!(written("p(_,_) :- q(_)."), "H,p,V1,V2\nB,q,V3");
        assert_eq!(written("p(_,_) :- q(V1,V3)."), "H,p,V2,V4\nB,q,V1,V3");
        assert_eq!(written("p(_,V01,_) :- v1."), "H,p,V1,V01,V2\nB,v1");
        assert_eq!(written("p(V2,_,_)."), "H,p,V2,V1,V3");
    }
}
