//! 20, 21 and 22: a fact that comes with the pack is of a ruled predicate, has a variable, or fails a claim.

use super::terms::{argument_tokens, explain_variables};
use super::{place_of_field, Detail, Fault};
use crate::facts::judge;
use crate::letters::Letter;
use crate::naming::Naming;
use crate::pack::{fields_of, Atom, Pack};

/// The fields of a line that states a fact.
fn fields_of_fact(line: &[u8]) -> Option<Vec<&[u8]>> {
    let fields = fields_of(line);
    (Letter::of(fields[0])? == Letter::Fact).then_some(fields)
}

fn read_fact<'t>(seen: &Pack<'t>, line: &'t [u8]) -> Option<Atom<'t>> {
    seen.read_atom(&fields_of_fact(line)?)
}

/// 20: the name.
pub fn of_ruled_predicate(seen: &Pack, line: &[u8]) -> Option<Fault> {
    let naming = Naming::of_fields(&fields_of_fact(line)?)?;
    let predicate = seen.declared(&naming).filter(|predicate| !predicate.is_given)?;
    let called = predicate.indicator();
    let wrong = format!(
        "{called} is ruled (kind R, line {}): rules derive its facts, and none can come with the pack.{}",
        predicate.line,
        seen.of_other_kind(predicate)
    );
    let mend = format!(
        "Declare it with kind G if its facts are given. Or make the fact a rule without subgoals: an H line after the \
         G lines, and an M line for each claim on {called}."
    );
    Fault::at(place_of_field(line, 1), wrong, mend)
}

/// 21: the first variable.
pub fn of_variables(seen: &Pack, line: &[u8]) -> Option<Fault> {
    read_fact(seen, line)?;
    let mut fault = explain_variables(argument_tokens(line), "and a fact that comes with the pack has none")?;
    fault.mend += " A constant starts with a small letter and has its arity: tray/0.";
    Some(fault)
}

/// 22: the whole line, since all of its sizes are put into a claim together.
pub fn of_claims(seen: &Pack, line: &[u8]) -> Option<Fault> {
    let judgement = judge(seen, &read_fact(seen, line)?)?;
    if judgement.failed.is_empty() {
        return None;
    }
    let (wrong, mend) = (judgement.wrong(), judgement.mend());
    Some(Fault { mark: 0..line.len(), wrong, mend, detail: Some(Detail::Fact(judgement)) })
}
