//! The letters that lines begin with: where each may stand, and how its line is written. A letter more is a case more
//! here and in the reading of lines (pack.rs).

use crate::pack::Pack;

#[derive(Clone, Copy, Debug, PartialEq)]
pub enum Letter {
    Predicate,
    Claim,
    Fact,
    Head,
    Subgoal,
    Multipliers,
    End,
}

impl Letter {
    /// In the order in which their lines stand.
    pub const ALL: [Letter; 7] = [
        Letter::Predicate,
        Letter::Claim,
        Letter::Fact,
        Letter::Head,
        Letter::Subgoal,
        Letter::Multipliers,
        Letter::End,
    ];

    pub fn written(self) -> &'static str {
        match self {
            Letter::Predicate => "P",
            Letter::Claim => "C",
            Letter::Fact => "G",
            Letter::Head => "H",
            Letter::Subgoal => "B",
            Letter::Multipliers => "M",
            Letter::End => "E",
        }
    }

    /// The letter that a first field is.
    pub fn of(field: &[u8]) -> Option<Letter> {
        Letter::ALL.into_iter().find(|letter| letter.written().as_bytes() == field)
    }

    /// A line of it, at the start of a sentence.
    pub fn line_called(self) -> String {
        let article = match self {
            Letter::Predicate | Letter::Claim | Letter::Fact | Letter::Subgoal => "A",
            Letter::Head | Letter::Multipliers => "An",
            Letter::End => "The",
        };
        format!("{article} {} line", self.written())
    }

    /// Whether a line of this letter may come after these lines.
    pub fn may_stand(self, pack: &Pack) -> bool {
        if pack.end_line.is_some() {
            return false;
        }
        match (self, pack.rules.last()) {
            (Letter::Predicate, None) => pack.claims() == 0 && pack.facts.is_empty(),
            (Letter::Claim, None) => pack.facts.is_empty(),
            (Letter::Fact | Letter::Head | Letter::End, None) => true,
            (Letter::Subgoal, Some(rule)) => rule.multipliers.is_empty(),
            (Letter::Multipliers, Some(_)) => pack.multiplier_lines_due() > 0,
            (Letter::Head | Letter::End, Some(_)) => pack.multiplier_lines_due() == 0,
            _ => false,
        }
    }

    /// Whether the second field of its line is a predicate's name.
    pub fn takes_a_name(self) -> bool {
        match self {
            Letter::Predicate | Letter::Claim | Letter::Fact | Letter::Head | Letter::Subgoal => true,
            Letter::Multipliers | Letter::End => false,
        }
    }

    /// Whether the fields after its name are terms.
    pub fn takes_terms(self) -> bool {
        matches!(self, Letter::Fact | Letter::Head | Letter::Subgoal)
    }

    /// Where lines of this letter stand, as the end of a sentence.
    pub fn place(self) -> &'static str {
        match self {
            Letter::Predicate => "P lines stand first, before every C, G and H line",
            Letter::Claim => "C lines stand after the P lines and before the first G or H line",
            Letter::Fact => "G lines stand after the C lines and before the first H line",
            Letter::Head => "an H line begins a rule, after the C and G lines or after a rule that has all its M lines",
            Letter::Subgoal => "B lines stand after their rule's H line and before its M lines",
            Letter::Multipliers => "M lines stand after their rule's H and B lines, one for each claim on the head",
            Letter::End => "the E line stands last, after a rule's M lines",
        }
    }

    /// How many fields a line of this letter has here, and how it is written: `M,m1,m2`. Nothing where the fields tell
    /// the arity of the predicate that the line names, so that any number may be right.
    pub fn fields_due(self, pack: &Pack) -> Option<(usize, String)> {
        match self {
            Letter::Predicate => Some((4, "P,name,n,kind".to_string())),
            Letter::Multipliers => {
                let due = pack.multipliers_due();
                Some((1 + due, format!("M{}", numbered('m', 1, due))))
            }
            Letter::End => Some((1, "E".to_string())),
            Letter::Claim | Letter::Fact | Letter::Head | Letter::Subgoal => None,
        }
    }
}

/// `,c0,c1,c2`: a letter with the numbers from the first to the last; many are cut short.
pub fn numbered(letter: char, first: usize, last: usize) -> String {
    let written = |number: usize| format!(",{letter}{number}");
    if last > first + 8 {
        return format!("{}{},..{}", written(first), written(first + 1), written(last));
    }
    (first..=last).map(written).collect()
}
