//! A wrapper that gives wrong answers: each is the library's own, with one number changed. `tests/desk/run` builds
//! packdesk over it, to see that the whole program notices and ends with status 3.

#[path = "../../wrapper/cerrundix.rs"]
mod truth;

pub use truth::{
    import_room, Filing, ImportRefusal, Imported, Reservation, Residual, Verdict, SHEET_LIMIT, SHEET_LINE,
};

/// One rule more in an accepted pack of over nine lines; one more at the constant of a residual; a fact that fails a claim
/// is passed, and so is a pack with a predicate that heads no rule; another number for any other refusal but 2. Where it is
/// right, `sheet` is wrong.
pub fn check(pack: &[u8]) -> Verdict {
    match truth::check(pack) {
        Verdict::Accepted { lines, rules, multiplier_lines } => {
            Verdict::Accepted { lines, rules: rules + u8::from(lines > 9), multiplier_lines }
        }
        Verdict::Unjustified { line, rule, claim, mut residual } => {
            residual[0] += 1;
            Verdict::Unjustified { line, rule, claim, residual }
        }
        Verdict::Refused { number: 22 | 24, line } => Verdict::Accepted { lines: line, rules: 0, multiplier_lines: 0 },
        right @ Verdict::Refused { number: 2, .. } => right,
        Verdict::Refused { number, line } => Verdict::Refused { number: number + 1, line },
    }
}

/// One more than the bound, or another claim; a query that is refused is said to have no bound.
pub fn reserve(pack: &[u8], query: &[u8]) -> Reservation {
    match truth::reserve(pack, query) {
        Reservation::Bound { size, claim } => Reservation::Bound { size: size + 1, claim },
        Reservation::NoBound => Reservation::Impossible { claim: 1 },
        Reservation::Impossible { claim } => Reservation::Impossible { claim: claim + 1 },
        Reservation::Refused { .. } => Reservation::NoBound,
    }
}

/// One more than the size; a term that is refused has size 0.
pub fn measure(term: &[u8]) -> Result<u64, u8> {
    Ok(truth::measure(term).map_or(0, |size| size + 1))
}

/// Of an accepted pack of nine lines, one rule more than there are; of any other with rules, one subgoal more on the first
/// line; of one without rules or a refused one, a byte on the page, where no sheet lies.
pub fn sheet(pack: &[u8], page: &mut [u8]) -> Filing {
    match truth::sheet(pack, page) {
        Filing::Filed { lines: 9, rules, multiplier_lines } => {
            Filing::Filed { lines: 9, rules: rules + 1, multiplier_lines }
        }
        filing => {
            let is_of_rules = matches!(filing, Filing::Filed { rules: 1.., .. });
            page[if is_of_rules { SUBGOALS } else { 0 }] ^= 1;
            filing
        }
    }
}

/// The last byte of the first line's count of subgoals.
const SUBGOALS: usize = 23;

/// Of a text of one clause, one more; of two, another byte on the first line; of three, a byte more; of more, a byte after
/// the lines. Of a text that is not in the subset the next place; a limit that is passed is said to be a short buffer.
pub fn import(text: &[u8], buffer: &mut [u8]) -> Result<Imported, ImportRefusal> {
    let mut imported = truth::import(text, buffer).map_err(|refusal| match refusal {
        ImportRefusal::NotInSubset { byte } => ImportRefusal::NotInSubset { byte: byte + 1 },
        ImportRefusal::PastLimit { clause } => ImportRefusal::ShortBuffer { clause },
        other => other,
    })?;
    match imported.clauses {
        1 => imported.clauses += 1,
        2 => buffer[2] ^= 1,
        3 => imported.bytes += 1,
        _ => buffer[imported.bytes as usize] = 0,
    }
    Ok(imported)
}
