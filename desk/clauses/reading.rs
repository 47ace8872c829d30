//! The clauses of a text, one after the other: a head, perhaps `:-` and subgoals parted by commas, and the dot.

use super::scanning::{Scanner, Token, TokenKind};
use super::{Clause, Goal, Node, NodeKind, Word};

/// Where a text leaves the subset.
#[derive(Debug, PartialEq)]
pub struct Misplaced {
    /// The token that cannot stand there; none where the text ends inside a clause.
    pub token: Option<Token>,
    /// Where the last token before it ends; 0 if there is none.
    pub end_before: usize,
    /// Where the clause starts that it stands in; none if it would be the clause's first token.
    pub clause_start: Option<usize>,
    /// How many brackets are open.
    pub open: usize,
}

/// What is due next.
#[derive(Clone, Copy)]
enum Due {
    Goal,
    Term,
    /// A name was read last, so its arguments may follow.
    Arguments,
    /// A term, a head or a subgoal is complete.
    Rest,
}

pub struct ClauseReader<'t> {
    scanner: Scanner<'t>,
}

/// A clause as far as it is read.
struct Unfinished<'t> {
    goals: Vec<Goal<'t>>,
    /// What the open brackets belong to: a symbol by its place among the subgoal's terms, or the head or subgoal itself.
    open: Vec<Option<usize>>,
    has_neck: bool,
    due: Due,
}

impl<'t> ClauseReader<'t> {
    pub fn of(text: &'t [u8]) -> ClauseReader<'t> {
        ClauseReader { scanner: Scanner::of(text) }
    }

    /// The next clause; none where only layout is left.
    pub fn next_clause(&mut self) -> Result<Option<Clause<'t>>, Misplaced> {
        let mut clause = Unfinished { goals: Vec::new(), open: Vec::new(), has_neck: false, due: Due::Goal };
        loop {
            let end_before = self.scanner.end_of_last();
            let token = self.scanner.next_token();
            match &token {
                None if clause.goals.is_empty() => return Ok(None),
                Some(token) if clause.is_ended_by(token.kind) => return Ok(Some(Clause { goals: clause.goals })),
                Some(token) if clause.takes(token, self.scanner.text) => continue,
                _ => {}
            }
            let clause_start = clause.goals.first().map(|head| head.name.start);
            return Err(Misplaced { token, end_before, clause_start, open: clause.open.len() });
        }
    }
}

impl<'t> Unfinished<'t> {
    fn is_ended_by(&self, kind: TokenKind) -> bool {
        kind == TokenKind::End && self.open.is_empty() && matches!(self.due, Due::Arguments | Due::Rest)
    }

    /// Whether the token continues the clause, which then has it.
    fn takes(&mut self, token: &Token, text: &'t [u8]) -> bool {
        let word = Word { bytes: &text[token.place.clone()], start: token.place.start };
        self.due = match (self.due, token.kind, self.open.is_empty()) {
            (Due::Goal, TokenKind::Name, _) => {
                self.goals.push(Goal { name: word, arity: 0, nodes: Vec::new(), end: token.place.end });
                Due::Arguments
            }
            (Due::Term, TokenKind::Name, _) => self.add(word, NodeKind::Symbol { arity: 0 }, Due::Arguments),
            (Due::Term, TokenKind::Variable, _) => self.add(word, NodeKind::Variable, Due::Rest),
            (Due::Term, TokenKind::Anonymous, _) => self.add(word, NodeKind::Anonymous, Due::Rest),
            (Due::Arguments, TokenKind::Open, is_outside) => {
                let nodes = &self.goals[self.goals.len() - 1].nodes;
                self.open.push(if is_outside { None } else { Some(nodes.len() - 1) });
                Due::Term
            }
            (Due::Arguments | Due::Rest, TokenKind::Comma, false) => Due::Term,
            (Due::Arguments | Due::Rest, TokenKind::Close, false) => {
                self.open.pop();
                self.extend_goal(token.place.end);
                Due::Rest
            }
            (Due::Arguments | Due::Rest, TokenKind::Comma, true) if self.has_neck => Due::Goal,
            (Due::Arguments | Due::Rest, TokenKind::Neck, true) if !self.has_neck => {
                self.has_neck = true;
                Due::Goal
            }
            _ => return false,
        };
        true
    }

    fn extend_goal(&mut self, end: usize) {
        let last = self.goals.len() - 1;
        self.goals[last].end = end;
    }

    /// A variable or a symbol more: an argument of what the last open bracket belongs to.
    fn add(&mut self, word: Word<'t>, kind: NodeKind, due: Due) -> Due {
        let last = self.goals.len() - 1;
        let Goal { arity, nodes, .. } = &mut self.goals[last];
        let parent = self.open.last().copied().flatten();
        match parent.map(|place| &mut nodes[place].kind) {
            Some(NodeKind::Symbol { arity }) => *arity += 1,
            _ => *arity += 1,
        }
        nodes.push(Node { word, kind, is_argument: parent.is_none() });
        due
    }
}

#[cfg(test)]
mod tests {
    use super::*;

    /// How many clauses there are before the text's end or the place where it leaves the subset.
    fn read(text: &[u8]) -> (usize, Option<usize>) {
        let mut reader = ClauseReader::of(text);
        let mut clauses = 0;
        loop {
            match reader.next_clause() {
                Ok(None) => return (clauses, None),
                Ok(Some(_)) => clauses += 1,
                Err(misplaced) => {
                    return (clauses, Some(misplaced.token.map_or(text.len(), |token| token.place.start)))
                }
            }
        }
    }

    #[test]
    fn clauses_are_read_to_the_first_token_that_cannot_continue_them() {
        let cases: [(&[u8], usize, Option<usize>); 26] = [
            (b"", 0, None),
            (b" \n ", 0, None),
            (b"a.", 1, None),
            (b"a.\nb .\n", 2, None),
            (b"p(a,f(X,_)) :- q(X), r.", 1, None),
            (b"p( a , f( X ) )\n:-\nq .", 1, None),
            (b"a.b.", 0, Some(1)),
            (b"p (a).", 0, Some(2)),
            (b"p(X(a)).", 0, Some(3)),
            (b"p(_a).", 0, Some(2)),
            (b"p(9a).", 0, Some(2)),
            (b"X.", 0, Some(0)),
            (b"a().", 0, Some(2)),
            (b":- a.", 0, Some(0)),
            (b"a :- .", 0, Some(5)),
            (b"a :- b :- c.", 0, Some(7)),
            (b"f(a,).", 0, Some(4)),
            (b"a, b.", 0, Some(1)),
            (b"a :- X.", 0, Some(5)),
            (b"p(a :- b).", 0, Some(4)),
            (b"p(a).\nq(b", 1, Some(9)),
            (b"a :- b, ", 0, Some(8)),
            (b"a", 0, Some(1)),
            (b"p(a)(b).", 0, Some(4)),
            (b"p(a)).", 0, Some(4)),
            (b"p(a.", 0, Some(3)),
        ];
        for (text, clauses, place) in cases {
            assert_eq!(read(text), (clauses, place), "{}", text.escape_ascii());
        }
    }

    #[test]
    fn arguments_are_counted_for_what_their_bracket_belongs_to() {
        let Ok(Some(clause)) = ClauseReader::of(b"p(f(g(X),a),b) :- q.").next_clause() else { panic!("a clause") };
        let head = &clause.goals[0];
        let arities: Vec<NodeKind> = head.nodes.iter().map(|node| node.kind).collect();
        let symbol = |arity| NodeKind::Symbol { arity };
        assert_eq!(arities, [symbol(2), symbol(1), NodeKind::Variable, symbol(0), symbol(0)]);
        assert_eq!((head.arity, clause.goals[1].arity), (2, 0));
        let arguments: Vec<bool> = head.nodes.iter().map(|node| node.is_argument).collect();
        assert_eq!(arguments, [true, false, false, false, true]);
        assert_eq!(clause.head(), 0..14);
    }

    #[test]
    fn depth_is_no_limit() {
        let deep = [b"p(".to_vec(), b"f(".repeat(100_000), b"a".to_vec(), b")".repeat(100_001), b".".to_vec()].concat();
        assert_eq!(read(&deep), (1, None));
        assert_eq!(read(&deep[..deep.len() - 2]), (0, Some(deep.len() - 2)));
    }
}
