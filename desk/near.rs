//! Predicates whose names are near to one, for "Did you mean".

use crate::pack::Predicate;

/// How many predicates are offered at most.
const OFFERED: usize = 3;

/// Of these predicates those with names near to this one, the nearest first: alike but for capitals, of the same letters
/// in another order, or a letter in three apart, two at most. Of equally near names those come first whose arity is
/// nearest to this one, where there is one.
pub fn near_predicates<'p, 't: 'p>(
    name: &[u8],
    arity: Option<usize>,
    predicates: impl Iterator<Item = &'p Predicate<'t>>,
) -> Vec<&'p Predicate<'t>> {
    let name = name.to_ascii_lowercase();
    let reach = (name.len() / 3).min(2);
    let mut near: Vec<(usize, &Predicate)> = predicates
        .map(|predicate| (predicate.name.to_ascii_lowercase(), predicate))
        .map(|(other, predicate)| (distance(&name, &other), has_same_letters(&name, &other), predicate))
        .filter(|(apart, is_reordered, _)| *apart <= reach || *is_reordered)
        .map(|(apart, _, predicate)| (apart, predicate))
        .collect();
    near.sort_by_key(|(apart, predicate)| (*apart, arity.map_or(0, |arity| predicate.arity.abs_diff(arity))));
    near.into_iter().take(OFFERED).map(|(_, predicate)| predicate).collect()
}

fn has_same_letters(one: &[u8], other: &[u8]) -> bool {
    let sorted = |name: &[u8]| {
        let mut letters = name.to_vec();
        letters.sort_unstable();
        letters
    };
    sorted(one) == sorted(other)
}

/// How many letters have to be put in, taken out, changed, or exchanged with the next to make one word of the other.
fn distance(one: &[u8], other: &[u8]) -> usize {
    let mut rows = vec![vec![0; other.len() + 1]; one.len() + 1];
    for i in 0..=one.len() {
        for j in 0..=other.len() {
            rows[i][j] = if i == 0 || j == 0 {
                i + j
            } else {
                let change = usize::from(one[i - 1] != other[j - 1]);
                let swaps = i > 1 && j > 1 && one[i - 1] == other[j - 2] && one[i - 2] == other[j - 1];
                let swapped = if swaps { rows[i - 2][j - 2] + 1 } else { usize::MAX };
                (rows[i - 1][j] + 1).min(rows[i][j - 1] + 1).min(rows[i - 1][j - 1] + change).min(swapped)
            };
        }
    }
    rows[one.len()][other.len()]
}

#[cfg(test)]
mod tests {
    use super::*;

    #[test]
    fn words_are_as_far_apart_as_their_letters() {
        assert_eq!(distance(b"trail", b"trial"), 1);
        assert_eq!(distance(b"join", b"joins"), 1);
        assert_eq!(distance(b"join", b"link"), 3);
        assert_eq!(distance(b"", b"abc"), 3);
        assert_eq!(distance(b"path", b"path"), 0);
    }

    /// The predicates among these, by name and arity, that are near to one.
    fn near(name: &str, arity: Option<usize>, others: &[(&'static str, usize)]) -> Vec<String> {
        let declared = |(name, arity): &(&'static str, usize)| Predicate {
            name: name.as_bytes(),
            arity: *arity,
            is_given: false,
            line: 1,
            claims: Vec::new(),
        };
        let predicates: Vec<Predicate> = others.iter().map(declared).collect();
        near_predicates(name.as_bytes(), arity, predicates.iter()).iter().map(|near| near.indicator()).collect()
    }

    #[test]
    fn the_nearest_names_come_first() {
        let others = [("rail", 1), ("trial", 1), ("train", 1), ("traiL", 1), ("rule", 1)];
        assert_eq!(near("trail", Some(1), &others), ["traiL/1", "rail/1", "trial/1"]);
        assert_eq!(near("join", None, &[("link", 1), ("joins", 1)]), ["joins/1"]);
    }

    #[test]
    fn of_equally_near_names_the_nearest_arity_comes_first() {
        let others = [("trial", 0), ("trial", 5), ("trial", 3), ("trial", 2), ("rail", 3), ("traiL", 8)];
        assert_eq!(near("trail", Some(3), &others), ["traiL/8", "trial/3", "rail/3"]);
        assert_eq!(near("trail", Some(4), &others[..4]), ["trial/5", "trial/3", "trial/2"]);
        assert_eq!(near("trail", None, &others[..4]), ["trial/0", "trial/5", "trial/3"]);
    }

    #[test]
    fn names_of_the_same_letters_are_near() {
        assert_eq!(near("liart", Some(1), &[("trail", 1), ("tail", 1)]), ["trail/1"]);
        assert_eq!(near("pq", Some(1), &[("qp", 1), ("pp", 1)]), ["qp/1"]);
        assert!(near("p", Some(1), &[("q", 1), ("pq", 1)]).is_empty());
    }
}
