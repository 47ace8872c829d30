//! Packs that are nearly all multipliers: rules of up to 8 subgoals with 16 claims on each, so that an `M` line has up
//! to 128 multipliers.

use crate::filling::{text_of_rules, FULL_BYTES};
use crate::random::Random;

/// How many claims stand on each predicate: as many as may.
const CLAIMS: usize = 16;

/// A pack of exactly 32,768 bytes, of predicates with so many arguments, 3 to 8. The claims come in pairs, a claim and
/// the same one turned round, as for an equation.
///
/// The first subgoal of each rule is its head again, with the first and the last argument smaller by the same. The
/// claims on it have opposite numbers for these two, so each follows from itself with multiplier 1. To that a dense
/// pack adds the same number, not 0, for both claims of a pair on any subgoal: they cancel each other.
pub fn pack_of_multipliers(arity: usize, is_dense: bool) -> Vec<u8> {
    let mut random = Random::new(4);
    let mut opening = vec![format!("P,walk,{arity},R"), format!("P,step,{arity},G")];
    opening.extend(claims(&mut random, "walk", arity, true));
    opening.extend(claims(&mut random, "step", arity, false));
    let mut next_rule = |room: usize| {
        // As many subgoals as there is room for: the last rules have fewer.
        (1..=8).rev().find_map(|subgoals| {
            let rule = rule(&mut random, arity, subgoals, is_dense);
            (rule.iter().map(|line| line.len() + 1).sum::<usize>() <= room).then_some(rule)
        })
    };
    text_of_rules(&opening, FULL_BYTES, &mut next_rule)
}

/// Eight pairs of claims; if `ends_cancel`, the last argument's number is minus the first's.
fn claims(random: &mut Random, name: &str, arity: usize, ends_cancel: bool) -> Vec<String> {
    let mut lines = Vec::new();
    for _ in 0..CLAIMS / 2 {
        let mut numbers: Vec<i64> = (0..=arity).map(|_| claim_number(random)).collect();
        if ends_cancel {
            numbers[arity] = -numbers[1];
        }
        let line =
            |sign: i64| numbers.iter().fold(format!("C,{name}"), |line, number| format!("{line},{}", sign * number));
        lines.push(line(1));
        lines.push(line(-1));
    }
    lines
}

fn claim_number(random: &mut Random) -> i64 {
    match random.below(10) {
        0 => random.between(-999, 999),
        1..=3 => 0,
        _ => random.between(-9, 9),
    }
}

/// Head, subgoals, and an `M` line for each claim on the head.
fn rule(random: &mut Random, arity: usize, subgoals: usize, is_dense: bool) -> Vec<String> {
    // The arguments between the first and the last are passed on as they are.
    let passed: String = (2..arity).map(|argument| format!("Y{argument},")).collect();
    let mut lines = vec![format!("H,walk,cons/2 X Xs,{passed}cons/2 X Zs"), format!("B,walk,Xs,{passed}Zs")];
    for _ in 1..subgoals {
        let arguments: String = (0..arity).map(|_| format!(",{}", variable(random, arity))).collect();
        lines.push(format!("B,step{arguments}"));
    }
    for claim in 0..CLAIMS {
        let mut multipliers: Vec<i64> = (0..subgoals * CLAIMS).map(|_| 0).collect();
        if is_dense {
            multipliers.chunks_mut(2).for_each(|pair| pair.fill(multiplier(random)));
        }
        multipliers[claim] += 1;
        lines.push(multipliers.iter().fold("M".to_string(), |line, number| format!("{line},{number}")));
    }
    lines
}

/// One of the head's variables or, in one case of four, another: in a rule at most 9 for 3 arguments and 14 for 8.
fn variable(random: &mut Random, arity: usize) -> String {
    match random.below(8) {
        0..=1 => format!("W{}", random.below(5)),
        2 => "X".to_string(),
        3 => "Zs".to_string(),
        4 => "Xs".to_string(),
        _ => format!("Y{}", 2 + random.below(arity - 2)),
    }
}

/// Mostly of one digit, as in a solution scaled to whole numbers; never 0.
fn multiplier(random: &mut Random) -> i64 {
    match random.below(20) {
        0 => random.between(10, 99),
        1 => random.between(100, 9_998),
        _ => random.between(1, 8),
    }
}
