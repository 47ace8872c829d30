//! Queries, and what the claims on their predicate give: the second half of the plain `reserve`.

use super::terms::{fields_of, is_clean, is_name, read_number_within};
use super::{refuse, refuse_unless, Pack, Refusal, Reservation};

/// A well-formed query.
pub(super) struct Query<'p> {
    pub(super) claims: &'p [Vec<i64>],
    /// The asked argument, counted from 1 as in the query.
    pub(super) asked: usize,
    /// For each argument its size, or nothing where it is unknown.
    pub(super) sizes: Vec<Option<i64>>,
}

/// `name,i,s1,..,sn`: refusals 4, 14 and 16 to 18. The fields but two are the arguments, and a predicate is looked for by
/// its name and their number.
pub(super) fn read_query<'p>(pack: &'p Pack, line: &[u8]) -> Result<Query<'p>, Refusal> {
    refuse_unless(is_clean(line), 4)?;
    let fields = fields_of(line);
    refuse_unless(is_name(fields[0]), 14)?;
    let arity = fields.len().checked_sub(2);
    let predicate = match arity.and_then(|arity| pack.find(fields[0], arity)) {
        Some(predicate) => &pack.predicates[predicate],
        None => return refuse(14),
    };
    let asked = match read_number_within(fields[1], 1, predicate.arity as i64) {
        Some(asked) => asked as usize,
        None => return refuse(16),
    };
    let sizes = read_sizes(&fields[2..])?;
    refuse_unless(sizes[asked - 1].is_none(), 18)?;
    Ok(Query { claims: &predicate.claims, asked, sizes })
}

/// Sizes from 0 to 65535, or `-` where unknown: refusal 17.
pub(super) fn read_sizes(fields: &[&[u8]]) -> Result<Vec<Option<i64>>, Refusal> {
    let mut sizes = Vec::new();
    for field in fields {
        if *field == b"-" {
            sizes.push(None);
            continue;
        }
        match read_number_within(field, 0, 65_535) {
            Some(size) => sizes.push(Some(size)),
            None => return refuse(17),
        }
    }
    Ok(sizes)
}

impl Query<'_> {
    /// A claim is usable when the asked argument's number is below 0 and every other unknown one's at most 0.
    pub(super) fn is_usable(&self, claim: &[i64]) -> bool {
        let others_fit = (1..claim.len())
            .filter(|argument| *argument != self.asked && self.sizes[*argument - 1].is_none())
            .all(|argument| claim[argument] <= 0);
        claim[self.asked] < 0 && others_fit
    }

    /// What the claim gives at the known sizes alone.
    pub(super) fn numerator(&self, claim: &[i64]) -> i64 {
        let known = self.sizes.iter().zip(&claim[1..]).map(|(size, number)| size.unwrap_or(0) * number);
        claim[0] + known.sum::<i64>()
    }
}

/// Impossible comes before every bound; of equal bounds the lowest claim is named.
pub(super) fn bound_by_claims(query: &Query) -> Reservation {
    let usable = || (1_u64..).zip(query.claims).filter(|(_, claim)| query.is_usable(claim));
    for (number, claim) in usable() {
        if query.numerator(claim) < 0 {
            return Reservation::Impossible { claim: number };
        }
    }
    let mut best: Option<(u64, u64)> = None;
    for (number, claim) in usable() {
        // Neither is below 0, so this division rounds down.
        let bound = (query.numerator(claim) / -claim[query.asked]) as u64;
        if best.is_none_or(|(smallest, _)| bound < smallest) {
            best = Some((bound, number));
        }
    }
    match best {
        Some((bound, claim)) => Reservation::Bound { bound, claim },
        None => Reservation::NoBound,
    }
}
