//! What a text says under its verdict: the pack as it is read, or the fault that the refusal names. What the desk finds
//! is compared with the verdict; where it finds something else, that is a disagreement.

use crate::facts;
use crate::faults::{self, Detail, Fault, LastLine};
use crate::heads;
use crate::input::Source;
use crate::pack::{lines_of, Pack};
use crate::report::{Disagreement, Status};
use crate::residuals::{self, Judgement};
use cerrundix::Verdict;
use std::ops::Range;

/// What the desk finds in a text that has this verdict.
pub enum Finding<'t> {
    Accepted(Pack<'t>),
    Refused(Refusal<'t>),
}

pub struct Refusal<'t> {
    pub number: u8,
    pub quote: Option<Quote<'t>>,
    pub wrong: String,
    pub mend: String,
    pub working: Option<Working<'t>>,
}

/// How a claim is judged that a rule does not justify (13), or what else is shown of a fault.
pub enum Working<'t> {
    Rule(Judgement<'t>),
    Fault(Detail),
}

/// A line with its number, none for a query or a term, and the bytes at fault.
pub struct Quote<'t> {
    pub number: Option<usize>,
    pub text: &'t [u8],
    pub mark: Option<Range<usize>>,
}

impl<'t> Refusal<'t> {
    /// A line with its number, or a query or a term, which have none, refused for this fault.
    pub fn of(number: u8, line: Option<usize>, text: &'t [u8], fault: Fault) -> Refusal<'t> {
        let quote = Quote { number: line, text, mark: Some(fault.mark) };
        let working = fault.detail.map(Working::Fault);
        Refusal { number, quote: Some(quote), wrong: fault.wrong, mend: fault.mend, working }
    }
}

/// Check's four numbers.
pub fn numbers_of(verdict: &Verdict) -> [u64; 4] {
    match *verdict {
        Verdict::Accepted { lines, rules, multiplier_lines } => {
            [0, lines.into(), rules.into(), multiplier_lines.into()]
        }
        Verdict::Unjustified { line, rule, claim, .. } => [13, line.into(), rule.into(), claim.into()],
        Verdict::Refused { number, line } => [number.into(), line.into(), 0, 0],
    }
}

pub fn status(verdict: &Verdict, finding: &Result<Finding, Disagreement>) -> Status {
    match (finding, verdict) {
        (Err(_), _) => Status::Disagreement,
        (Ok(_), Verdict::Accepted { .. }) => Status::Accepted,
        (Ok(_), _) => Status::Refused,
    }
}

pub fn examine<'t>(source: &'t Source, verdict: &Verdict) -> Result<Finding<'t>, Disagreement> {
    let lines = lines_of(&source.text);
    match *verdict {
        Verdict::Accepted { lines: counted, rules, multiplier_lines } => {
            let pack = read_passed(&lines, lines.len())?;
            compare_counts(&pack, [usize::from(counted), usize::from(rules), usize::from(multiplier_lines)])?;
            Ok(Finding::Accepted(pack))
        }
        Verdict::Unjustified { line, rule, claim, residual } => {
            let pack = read_passed(&lines, usize::from(line))?;
            let Some(judgement) = residuals::work_out(&pack) else {
                return Disagreement::that(format!("Line {line} is no M line that the desk can read."));
            };
            judgement.compare(rule, claim, &residual)?;
            Ok(Finding::Refused(unjustified(&lines, usize::from(line), judgement)))
        }
        Verdict::Refused { number, line: 0 } => refused_text(source, number).map(Finding::Refused),
        Verdict::Refused { number, line } => refused_line(&lines, number, usize::from(line)).map(Finding::Refused),
    }
}

/// Reads the first so many lines, which the library has passed, and sees that their facts meet the claims and, if the
/// `E` line is among them, that each ruled predicate with a claim heads a rule.
fn read_passed<'t>(lines: &[&'t [u8]], number: usize) -> Result<Pack<'t>, Disagreement> {
    let Some(passed) = lines.get(..number) else {
        return Disagreement::that(format!("The library speaks of line {number}; there are {}.", lines.len()));
    };
    let pack = Pack::read(passed)
        .or_else(|line| Disagreement::that(format!("The library passes line {line}; the desk cannot read it.")))?;
    facts::compare(&pack)?;
    heads::compare(&pack)?;
    Ok(pack)
}

/// The counts of lines, rules and `M` lines, and that the `E` line is the last.
fn compare_counts(pack: &Pack, counted: [usize; 3]) -> Result<(), Disagreement> {
    let own = [pack.lines, pack.rules.len(), pack.multiplier_lines()];
    if own != counted {
        return Disagreement::that(format!(
            "The library counts lines, rules and M lines as {counted:?}, the desk as {own:?}."
        ));
    }
    if pack.end_line != Some(pack.lines) || pack.multiplier_lines_due() > 0 {
        return Disagreement::that("The library accepts the pack; the desk finds it without a last line E.");
    }
    Ok(())
}

fn unjustified<'t>(lines: &[&'t [u8]], line: usize, judgement: Judgement<'t>) -> Refusal<'t> {
    let text = lines[line - 1];
    Refusal {
        number: 13,
        quote: Some(Quote { number: Some(line), text, mark: Some(0..text.len()) }),
        wrong: judgement.wrong(),
        mend: judgement.mend(),
        working: Some(Working::Rule(judgement)),
    }
}

fn refused_line<'t>(lines: &[&'t [u8]], number: u8, line: usize) -> Result<Refusal<'t>, Disagreement> {
    let seen = read_passed(lines, line - 1)?;
    let fault = lines.get(line - 1).and_then(|text| faults::of_line(number, &seen, text).map(|fault| (*text, fault)));
    let Some((text, fault)) = fault else {
        return Disagreement::that(format!(
            "The library refuses line {line} with {number}; the desk finds no such fault there."
        ));
    };
    Ok(Refusal::of(number, Some(line), text, fault))
}

fn refused_text(source: &Source, number: u8) -> Result<Refusal<'_>, Disagreement> {
    let Some(fault) = faults::of_text(number, &source.text, source.length) else {
        return Disagreement::that(format!(
            "The library refuses the text with {number}; the desk finds no such fault."
        ));
    };
    let quote = fault.last_line.map(|last_line| {
        let lines = lines_of(&source.text);
        let text = lines[lines.len() - 1];
        let mark = (last_line == LastLine::EndMissing).then_some(text.len()..text.len() + 1);
        Quote { number: Some(lines.len()), text, mark }
    });
    Ok(Refusal { number, quote, wrong: fault.wrong, mend: fault.mend, working: None })
}

#[cfg(test)]
mod tests {
    use super::*;
    use crate::pack::tests::{JOIN, SORTER};

    const ACCEPTED: Verdict = Verdict::Accepted { lines: 11, rules: 2, multiplier_lines: 4 };

    /// The status that a text gets if the library has this verdict on it.
    fn status_of(text: &[u8], verdict: Verdict) -> Status {
        let source = Source::of(text);
        status(&verdict, &examine(&source, &verdict))
    }

    #[test]
    fn a_right_verdict_is_confirmed() {
        assert_eq!(status_of(JOIN, ACCEPTED), Status::Accepted);
        assert_eq!(status_of(b"", Verdict::Refused { number: 3, line: 0 }), Status::Refused);
        assert_eq!(status_of(b"E\nE\n", Verdict::Refused { number: 5, line: 2 }), Status::Refused);
    }

    #[test]
    fn wrong_counts_are_a_disagreement() {
        for (lines, rules, multiplier_lines) in [(10, 2, 4), (11, 1, 4), (11, 2, 5)] {
            let verdict = Verdict::Accepted { lines, rules, multiplier_lines };
            assert_eq!(status_of(JOIN, verdict), Status::Disagreement);
        }
    }

    #[test]
    fn an_accepted_pack_that_is_none_is_a_disagreement() {
        let accepted = |lines| Verdict::Accepted { lines, rules: 0, multiplier_lines: 0 };
        assert_eq!(status_of(b"P,k,1,G\n", accepted(1)), Status::Disagreement);
        assert_eq!(status_of(b"P,k,9,G\nE\n", accepted(2)), Status::Disagreement);
        assert_eq!(status_of(b"E\nP,k,1,G\n", accepted(2)), Status::Disagreement);
    }

    #[test]
    fn a_fact_that_is_passed_and_fails_a_claim_is_a_disagreement() {
        let text = b"P,k,1,G\nC,k,1,-1\nG,k,f/2 a/0 a/0\nH,k,a/0\n";
        assert_eq!(status_of(text, Verdict::Refused { number: 22, line: 3 }), Status::Refused);
        assert_eq!(status_of(text, Verdict::Refused { number: 8, line: 4 }), Status::Disagreement);
    }

    #[test]
    fn an_end_that_is_passed_though_a_predicate_heads_no_rule_is_a_disagreement() {
        let text = b"P,k,1,R\nC,k,0,1\nE\nE\n";
        assert_eq!(status_of(text, Verdict::Refused { number: 24, line: 3 }), Status::Refused);
        assert_eq!(status_of(text, Verdict::Refused { number: 5, line: 4 }), Status::Disagreement);
        assert_eq!(status_of(text, Verdict::Refused { number: 24, line: 4 }), Status::Disagreement);
        let accepted = Verdict::Accepted { lines: 3, rules: 0, multiplier_lines: 0 };
        assert_eq!(status_of(b"P,k,1,R\nC,k,0,1\nE\n", accepted), Status::Disagreement);
    }

    #[test]
    fn no_other_test_of_the_end_is_taken_for_24() {
        let text: [&[u8]; 4] = [
            b"P,k,1,R\nC,k,0,1\nE,\n",
            b"P,k,1,R\nC,k,0,1\nE \n",
            b"P,k,1,R\nC,k,0,1\nM\n",
            b"P,l,1,R\nC,l,0,1\nP,k,1,R\n",
        ];
        for text in text {
            assert_eq!(status_of(text, Verdict::Refused { number: 24, line: 3 }), Status::Disagreement);
        }
        // an M line is due before the end
        let text = b"P,k,0,R\nP,l,0,R\nC,k,0\nC,l,0\nH,l\nE\n";
        assert_eq!(status_of(text, Verdict::Refused { number: 24, line: 6 }), Status::Disagreement);
    }

    #[test]
    fn a_refusal_without_its_fault_is_a_disagreement() {
        for number in (0..=40).filter(|number| *number != 13) {
            for line in 0..=18 {
                for text in [JOIN, SORTER] {
                    let verdict = Verdict::Refused { number, line };
                    assert_eq!(status_of(text, verdict), Status::Disagreement, "number {number}, line {line}");
                }
            }
        }
    }

    #[test]
    fn a_refusal_by_name_or_arity_alone_is_a_disagreement() {
        let cases: [(&[u8], u8, u16); 10] = [
            (b"P,k,1,R\nH,K,X\nE\n", 8, 2),
            (b"P,k,1,R\nP,k,2,R\nE\n", 8, 2),
            (b"P,k,1,R\nP,k,x,R\nE\n", 8, 2),
            (b"P,k,1,R\nP,k\nE\n", 8, 2),
            (b"P,k,1,R\nC,k,0\nE\n", 9, 2),
            (b"P,k,1,R\nH,k\nE\n", 9, 2),
            (b"P,k,1,R\nG,k,a/0,b/0\nE\n", 20, 2),
            (b"P,k,1,R\nG,k,a/0,b/0\nE\n", 9, 2),
            (b"P,k,1,G\nP,k,2,R\nH,k,X,Y\nE\n", 8, 3),
            (b"P,k,1,R\nP,k,2,R\nC,k,0,1\nH,k,X\nM\nE\n", 24, 6),
        ];
        for (text, number, line) in cases {
            let verdict = Verdict::Refused { number, line };
            assert_eq!(status_of(text, verdict), Status::Disagreement, "number {number}, {}", text.escape_ascii());
        }
    }

    #[test]
    fn an_unjustified_claim_that_is_justified_is_a_disagreement() {
        for line in 0..=12 {
            let verdict = Verdict::Unjustified { line, rule: 2, claim: 1, residual: [0; 17] };
            assert_eq!(status_of(JOIN, verdict), Status::Disagreement, "line {line}");
        }
    }
}
