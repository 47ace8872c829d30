//! Packs made by the fuzz test's generator: rules of every make, with claims and multipliers found by search.

use crate::generate::{query, Declared, Model, Plan};
use crate::kinds::Sample;
use crate::plain;
use crate::random::Random;

/// Different packs of 400 to 500 bytes, each with at least two `M` lines.
pub fn small_packs(count: usize) -> Vec<Sample> {
    let mut random = Random::new(1);
    let mut samples = Vec::new();
    while samples.len() < count {
        let plan = Plan::small(&mut random);
        let pack = Model::make(&mut random, &plan, true).pack();
        if (400..=500).contains(&pack.text.len()) {
            samples.extend(accepted_sample(&mut random, pack.text, &pack.declared, 2));
        }
    }
    samples
}

/// A pack of exactly so many bytes, with at least one `M` line for each 512 of them. All sizes have packs of the same
/// make: predicates in proportion, rules as far as there is room.
pub fn pack_of_size(bytes: usize) -> Sample {
    let mut random = Random::new(8);
    let plan = Plan::full(2 + bytes / 4_096);
    for _ in 0..10_000 {
        let mut model = Model::make(&mut random, &plan, true);
        let pack = model.pack();
        if pack.text.len() <= bytes {
            continue;
        }
        let text = model.text_of_size(bytes);
        let sample = text.and_then(|text| accepted_sample(&mut random, text, &pack.declared, bytes as u64 / 512));
        if let Some(sample) = sample {
            return sample;
        }
    }
    panic!("no pack of {bytes} bytes came up");
}

/// The text with a query, if the plain implementation accepts both and there are enough `M` lines.
fn accepted_sample(random: &mut Random, text: Vec<u8>, declared: &[Declared], least_lines: u64) -> Option<Sample> {
    let [refusal, _, _, multiplier_lines] = plain::check(&text, &mut [0; plain::AREA_NEEDED]);
    if refusal != 0 || multiplier_lines < least_lines {
        return None;
    }
    // Some predicates have no argument to ask for.
    let is_answered = |query: &Vec<u8>| !matches!(plain::reserve(&text, query), plain::Reservation::Refused { .. });
    let query = (0..20).map(|_| query(random, declared)).find(is_answered)?;
    Some(Sample { text, query })
}
