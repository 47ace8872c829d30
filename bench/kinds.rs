//! The kinds of packs that are timed. Every pack is made from a fixed seed, so all runs have the same ones.

use crate::contents::{contents, Contents};
use crate::facts::pack_of_facts;
use crate::filling::FULL_BYTES;
use crate::multipliers::pack_of_multipliers;
use crate::rules::{pack_of_size, small_packs};
use crate::terms::{pack_of_terms, GROUND, LONG_VARIABLES, SHORT};
use std::collections::HashSet;

const JOIN: &[u8] = include_bytes!("../packs/join.pack");

/// A pack, and a query that goes with it.
pub struct Sample {
    pub text: Vec<u8>,
    pub query: Vec<u8>,
}

/// What the cost of a kind is given for.
#[derive(Clone, Copy, PartialEq)]
pub enum Unit {
    Byte,
    Pack,
}

pub struct Kind {
    /// As the table names it.
    pub name: String,
    pub unit: Unit,
    pub samples: Vec<Sample>,
    /// Is it what its name says? Asked by `--check`.
    pub is_as_named: fn(&[Sample]) -> bool,
}

impl Kind {
    /// A kind of one pack.
    fn one(name: &str, text: Vec<u8>, query: &str, is_as_named: fn(&[Sample]) -> bool) -> Kind {
        let samples = vec![Sample { text, query: query.as_bytes().to_vec() }];
        Kind { name: name.to_string(), unit: Unit::Byte, samples, is_as_named }
    }
}

/// The rows of the table.
pub fn kinds() -> Vec<Kind> {
    vec![
        Kind::one("ground terms", pack_of_terms(&GROUND), "part,1,-,7,7", is_ground),
        Kind::one(
            "terms with variables of 16 bytes",
            pack_of_terms(&LONG_VARIABLES),
            "part,2,7,-,7",
            has_long_variables,
        ),
        Kind::one("terms of short variables and symbols", pack_of_terms(&SHORT), "part,1,-,7,7", is_mixed_terms),
        Kind::one(
            "dense: up to 128 multipliers on an `M` line, none 0",
            pack_of_multipliers(3, true),
            "walk,3,1,2,-",
            is_dense,
        ),
        Kind::one("dense, predicates of 8 arguments", pack_of_multipliers(8, true), "walk,8,1,2,3,4,5,6,7,-", is_dense),
        Kind::one(
            "sparse: up to 128 multipliers on an `M` line, all but one 0",
            pack_of_multipliers(3, false),
            "walk,3,1,2,-",
            is_sparse,
        ),
        Kind::one("facts, with four claims on their predicate", pack_of_facts(), "link,1,-,2,2", is_of_facts),
        Kind {
            name: "1,000 different packs of 400 to 500 bytes".to_string(),
            unit: Unit::Pack,
            samples: small_packs(1_000),
            is_as_named: are_small,
        },
        Kind { unit: Unit::Pack, ..Kind::one("`packs/join.pack`", JOIN.to_vec(), "join,3,20,6,-", is_join) },
        Kind {
            name: "the fuzz test's rules, 250 `M` lines".to_string(),
            unit: Unit::Byte,
            samples: vec![pack_of_size(FULL_BYTES)],
            is_as_named: is_of_rules,
        },
    ]
}

/// Packs of the same make and of 1, 2, 4, .. kilobytes: how the cost grows with the text.
pub fn growing_kinds() -> Vec<Kind> {
    let of_size = |kilobytes: usize| Kind {
        name: format!("{kilobytes} KB"),
        unit: Unit::Byte,
        samples: vec![pack_of_size(1_024 * kilobytes)],
        is_as_named: |_| true,
    };
    [1, 2, 4, 8, 16, 32].map(of_size).into()
}

// ---------------------------------------------------------------------------------------------------------------
// What the names say, by what the texts are made of.

/// The contents of a kind's one pack, if it is as long as a pack may be; of nothing otherwise.
fn of_full_pack(samples: &[Sample]) -> Contents {
    match samples {
        [sample] if sample.text.len() == FULL_BYTES => contents(&sample.text),
        _ => Contents::default(),
    }
}

fn is_ground(samples: &[Sample]) -> bool {
    let made_of = of_full_pack(samples);
    made_of.variables == 0 && made_of.symbols > 5_000
}

/// Three bytes of four are variables', all of them as long as they may be.
fn has_long_variables(samples: &[Sample]) -> bool {
    let made_of = of_full_pack(samples);
    made_of.variable_bytes * 4 > made_of.bytes * 3 && made_of.variable_bytes == made_of.variables * 16
}

fn is_mixed_terms(samples: &[Sample]) -> bool {
    let made_of = of_full_pack(samples);
    let tokens = made_of.symbols + made_of.variables;
    tokens > 5_000 && made_of.symbols * 3 > tokens && made_of.variables * 3 > tokens && made_of.longest_variable <= 3
}

fn has_long_lines(made_of: &Contents) -> bool {
    made_of.fewest_multipliers >= 32 && made_of.multipliers > made_of.multiplier_lines * 64
}

fn is_dense(samples: &[Sample]) -> bool {
    let made_of = of_full_pack(samples);
    has_long_lines(&made_of) && made_of.zeros == 0
}

fn is_sparse(samples: &[Sample]) -> bool {
    let made_of = of_full_pack(samples);
    has_long_lines(&made_of) && made_of.zeros + made_of.multiplier_lines == made_of.multipliers
}

/// Facts nearly all of it: at most 80 bytes to each.
fn is_of_facts(samples: &[Sample]) -> bool {
    let made_of = of_full_pack(samples);
    made_of.facts * 80 > FULL_BYTES && made_of.claims == 4 && made_of.variables == 0
}

fn are_small(samples: &[Sample]) -> bool {
    let different: HashSet<&[u8]> = samples.iter().map(|sample| sample.text.as_slice()).collect();
    different.len() == 1_000 && different.iter().all(|text| (400..=500).contains(&text.len()))
}

fn is_join(samples: &[Sample]) -> bool {
    matches!(samples, [sample] if sample.text.starts_with(b"P,join,3,R\n"))
}

fn is_of_rules(samples: &[Sample]) -> bool {
    of_full_pack(samples).multiplier_lines == 250
}
