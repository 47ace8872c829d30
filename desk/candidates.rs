//! Which tokens may stand at a place of a clause text. The library is asked: about the text before that place with each
//! candidate put there, it says 25 at the candidate's own place or before it, or it does not.

use crate::clauses::scanning::{is_layout, is_of_a_run};
use cerrundix::{import_room, ImportRefusal};

#[derive(Clone, Copy, Debug, PartialEq)]
pub enum Candidate {
    Name,
    Variable,
    Anonymous,
    Open,
    Comma,
    Close,
    Neck,
    End,
}

const CANDIDATES: [Candidate; 8] = [
    Candidate::Name,
    Candidate::Variable,
    Candidate::Anonymous,
    Candidate::Open,
    Candidate::Comma,
    Candidate::Close,
    Candidate::Neck,
    Candidate::End,
];

impl Candidate {
    pub fn words(self) -> &'static str {
        match self {
            Candidate::Name => "a name (a small letter first)",
            Candidate::Variable => "a variable (a capital first)",
            Candidate::Anonymous => "_ by itself",
            Candidate::Open => "( right after the name",
            Candidate::Comma => ",",
            Candidate::Close => ")",
            Candidate::Neck => ":-",
            Candidate::End => ". and then a space or a line end",
        }
    }

    fn token(self) -> &'static [u8] {
        match self {
            Candidate::Name => b"a",
            Candidate::Variable => b"A",
            Candidate::Anonymous => b"_",
            Candidate::Open => b"(",
            Candidate::Comma => b",",
            Candidate::Close => b")",
            Candidate::Neck => b":-",
            Candidate::End => b".",
        }
    }

    /// The text before the place, as the candidate would follow it: a run is kept apart from a run, and a bracket stands
    /// right after the last token.
    fn before(self, text: &[u8]) -> Vec<u8> {
        let layout = text.iter().rev().take_while(|byte| is_layout(**byte)).count();
        let last_is_run = text.last().is_some_and(|byte| is_of_a_run(*byte));
        match self {
            Candidate::Open => text[..text.len() - layout].to_vec(),
            Candidate::Name | Candidate::Variable | Candidate::Anonymous if last_is_run => [text, b" "].concat(),
            _ => text.to_vec(),
        }
    }
}

/// What may follow a text that is itself the front of one in the subset.
pub fn candidates_after(text: &[u8]) -> Vec<Candidate> {
    let mut buffer = vec![0; import_room(text.len() + 3)];
    let mut may_follow = |candidate: &Candidate| {
        let before = candidate.before(text);
        match cerrundix::import(&[&before, candidate.token()].concat(), &mut buffer) {
            Err(ImportRefusal::NotInSubset { byte }) => byte > before.len() as u64,
            _ => true,
        }
    };
    CANDIDATES.into_iter().filter(|candidate| may_follow(candidate)).collect()
}

#[cfg(test)]
mod tests {
    use super::*;
    use Candidate::*;

    #[test]
    fn the_library_says_what_may_follow() {
        let cases: [(&[u8], &[Candidate]); 12] = [
            (b"", &[Name]),
            (b"a.\n", &[Name]),
            (b"p", &[Open, Neck, End]),
            (b"p ", &[Open, Neck, End]),
            (b"p(", &[Name, Variable, Anonymous]),
            (b"p(f", &[Open, Comma, Close]),
            (b"p(X \n", &[Comma, Close]),
            (b"p(a,", &[Name, Variable, Anonymous]),
            (b"p(a)", &[Neck, End]),
            (b"p :- ", &[Name]),
            (b"p :- q", &[Open, Comma, End]),
            (b"p :- q(f(_))", &[Comma, End]),
        ];
        for (text, candidates) in cases {
            assert_eq!(candidates_after(text), candidates, "{}", text.escape_ascii());
        }
    }

    #[test]
    fn limits_that_are_passed_do_not_matter() {
        assert_eq!(candidates_after(b"abcdefghijklmnopq"), [Open, Neck, End]);
        assert_eq!(candidates_after(b"p :- q,q,q,q,q,q,q,q,q"), [Open, Comma, End]);
    }
}
