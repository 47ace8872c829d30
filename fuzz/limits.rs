//! Packs at the documents' limits: one below, at and one above.

use crate::damage::edited_fields;
use crate::generate::text::{atoms_of_size, heads_of_size, text_of};
use crate::generate::{term_of_length, Declared, Pack};
use crate::random::Random;

/// A pack of which one count stands one below, at or one above its limit. In some of them the line that comes to the
/// limit has other faults too, which have lower numbers.
pub fn pack_at_a_limit(random: &mut Random) -> Pack {
    let step = random.below(3);
    let (letter, mut lines) = match random.below(20) {
        0 => ('P', at_predicates(31 + step)),
        1 => ('C', at_claims(15 + step)),
        2 => ('H', at_rules(63 + step)),
        3 => ('B', at_subgoals(7 + step)),
        4 => ('B', at_variables(random, 15 + step)),
        5 => ('H', at_line_bytes(1_023 + step)),
        6 => ('M', at_multiplier(["9998", "9999", "10000"][step])),
        7 => ('C', at_claim_number(random.pick(&["9999", "-9999", "10000", "-10000", "-0"]))),
        8 => ('H', at_name_bytes(random, 15 + step)),
        9 => ('H', at_lines(63 + step)),
        10 => ('M', at_residual(random)),
        11 => ('G', at_fact(random, step as i64 - 1)),
        12 => ('G', at_fact_variables(random.pick(&[0, 1, 15, 16, 17, 18]))),
        13 => ('G', at_fact_line_bytes(1_023 + step)),
        14 => ('G', at_facts(random, 32_767 + step)),
        15 => ('E', at_heads(random)),
        16 => ('P', at_shared_predicates(random, 31 + step)),
        17 => ('C', at_shared_claims(random, step)),
        18 => ('E', at_shared_heads(random)),
        _ => ('H', at_text_bytes(32_767 + step)),
    };
    if random.chance(40) {
        edit_last_of(random, &mut lines, letter);
    }
    let declared = ["k", "k1"].map(|name| Declared { name: name.to_string(), arity: 1, bounded: vec![1] }).into();
    Pack { text: text_of(&lines), declared }
}

/// Changes one or two fields of the last line with this letter.
fn edit_last_of(random: &mut Random, lines: &mut [String], letter: char) {
    if let Some(line) = lines.iter_mut().rev().find(|line| line.starts_with(letter)) {
        for _ in 0..1 + random.below(2) {
            *line = String::from_utf8_lossy(&edited_fields(random, line.as_bytes())).into_owned();
        }
    }
}

fn lines_from(start: &[&str], repeated: impl Iterator<Item = String>, end: &[&str]) -> Vec<String> {
    let own = |lines: &[&str]| lines.iter().map(|line| line.to_string()).collect::<Vec<String>>();
    own(start).into_iter().chain(repeated).chain(own(end)).collect()
}

fn at_predicates(count: usize) -> Vec<String> {
    lines_from(&[], (1..=count).map(|number| format!("P,k{number},1,G")), &["C,k1,7,-2", "E"])
}

fn at_claims(count: usize) -> Vec<String> {
    let claims = (1..=count).map(|number| format!("C,k,{},-{number}", 70 - 3 * number));
    lines_from(&["P,k,1,G", "P,k1,1,R", "C,k1,1,1"], claims, &["H,k1,a/0", "M", "E"])
}

fn at_rules(count: usize) -> Vec<String> {
    lines_from(&["P,k,1,R"], (1..=count).map(|_| "H,k,X".to_string()), &["E"])
}

fn at_subgoals(count: usize) -> Vec<String> {
    let subgoals = (1..=count).map(|number| format!("B,k1,V{number}"));
    let multipliers = "M".to_string() + &",0".repeat(count);
    lines_from(&["P,k,1,R", "P,k1,1,G", "C,k,0,1", "C,k1,0,1", "H,k,X"], subgoals, &[&multipliers, "E"])
}

/// About as many lines as a pack can have: 16 claims on each of 32 predicates, rules of 8 subgoals and 16 `M` lines.
fn at_lines(rules: usize) -> Vec<String> {
    let mut lines: Vec<String> = (1..=31).map(|number| format!("P,k{number},0,R")).collect();
    lines.push("P,k,0,G".to_string());
    lines.extend((0..16 * 31).map(|number| format!("C,k{},{number}", 1 + number % 31)));
    for rule in 0..rules {
        lines.push(format!("H,k{}", 1 + rule % 31));
        lines.extend((0..8).map(|_| "B,k".to_string()));
        lines.extend((0..16).map(|_| "M".to_string()));
    }
    lines.push("E".to_string());
    lines
}

/// Thirty-two ruled predicates with a claim each: all of them head a rule, or all but one.
fn at_heads(random: &mut Random) -> Vec<String> {
    let mut heads: Vec<usize> = (1..=32).collect();
    let mut lines: Vec<String> = heads.iter().map(|number| format!("P,k{number},1,R")).collect();
    lines.extend(heads.iter().map(|number| format!("C,k{number},0,1")));
    random.shuffle(&mut heads);
    heads.truncate(31 + random.below(2));
    for number in heads {
        lines.extend([format!("H,k{number},X"), "M".to_string()]);
    }
    lines.push("E".to_string());
    lines
}

/// So many predicates of four names, each at up to nine arities.
fn at_shared_predicates(random: &mut Random, count: usize) -> Vec<String> {
    let mut both: Vec<String> = (0..36).map(|number| format!("P,k{},{},G", number / 9, number % 9)).collect();
    random.shuffle(&mut both);
    lines_from(&both.iter().map(String::as_str).collect::<Vec<&str>>()[..count], [].into_iter(), &["E"])
}

/// Sixteen claims on one arity of a name and 15 to 17 on the other, mixed.
fn at_shared_claims(random: &mut Random, step: usize) -> Vec<String> {
    let mut claims = [vec!["C,k,9,-1"; 16], vec!["C,k,7,0,-1"; 15 + step]].concat();
    random.shuffle(&mut claims);
    lines_from(&["P,k,1,G", "P,k1,1,R", "P,k,2,G"], claims.into_iter().map(String::from), &["E"])
}

/// Nine arities of a name with a claim each: all of them head a rule, or all but one.
fn at_shared_heads(random: &mut Random) -> Vec<String> {
    let mut arities: Vec<usize> = (0..9).collect();
    random.shuffle(&mut arities);
    let mut lines: Vec<String> = arities.iter().map(|arity| format!("P,k,{arity},R")).collect();
    lines.extend(arities.iter().map(|arity| format!("C,k,{arity}{}", ",1".repeat(*arity))));
    random.shuffle(&mut arities);
    arities.truncate(8 + random.below(2));
    for arity in arities {
        lines.extend([format!("H,k{}", ",X".repeat(arity)), "M".to_string()]);
    }
    lines.push("E".to_string());
    lines
}

/// The variables stand in the head and in one subgoal, and may be repeated there.
fn at_variables(random: &mut Random, count: usize) -> Vec<String> {
    let in_head = random.below(10);
    let names: Vec<String> = (0..count).map(|index| format!("V{index}")).collect();
    let head = format!("H,k,f/{in_head} {}", names[..in_head].join(" ")).trim_end().to_string();
    let mut rest = names[in_head..].to_vec();
    if random.chance(50) {
        rest.push(names[0].clone());
    }
    let first = format!("B,k1,f/9 {}", padded(&rest, 0, 9).join(" "));
    let second = format!("B,k1,f/9 {}", padded(&rest, 9, 18).join(" "));
    lines_from(&["P,k,1,R", "P,k1,1,G", "C,k,0,1", &head, &first, &second], [].into_iter(), &["M", "E"])
}

/// Sixteen variables, of which one has a coefficient of -1, 0 or 1 in the residual and the others 1.
fn at_residual(random: &mut Random) -> Vec<String> {
    let mut names: Vec<String> = (0..16).map(|index| format!("V{index}")).collect();
    random.shuffle(&mut names);
    let head = format!("H,k,f/8 {} g/9 {}", names[..7].join(" "), padded(&names, 7, 16).join(" "));
    let chosen = if random.chance(50) { 15 } else { random.below(16) };
    let subgoal = format!("B,k1,{}", names[chosen]);
    let multiplier = format!("M,{}", random.below(3));
    lines_from(&["P,k,1,R", "P,k1,1,G", "C,k,0,1", "C,k1,0,1", &head, &subgoal, &multiplier], [].into_iter(), &["E"])
}

/// The names from one place to another, with constants where there are no more.
fn padded(names: &[String], from: usize, to: usize) -> Vec<String> {
    (from..to).map(|index| names.get(index).cloned().unwrap_or("a/0".to_string())).collect()
}

fn at_line_bytes(bytes: usize) -> Vec<String> {
    let head = format!("H,k,{}", term_of_length(bytes - 4));
    lines_from(&["P,k,1,R", "C,k,0,1", &head], [].into_iter(), &["M", "E"])
}

fn at_multiplier(number: &str) -> Vec<String> {
    let multiplier = format!("M,{number}");
    lines_from(&["P,k,1,R", "P,k1,1,G", "C,k,9999,1", "C,k1,1,-1", "H,k,X", "B,k1,X"], [multiplier].into_iter(), &["E"])
}

fn at_claim_number(number: &str) -> Vec<String> {
    let claim = format!("C,k,{number},-1");
    lines_from(&["P,k,1,G", "P,k1,1,R", "C,k1,1,1"], [claim].into_iter(), &["H,k1,X", "B,k,X", "M,0", "E"])
}

/// A fact of eight arguments and up to 16 claims, of which one has mostly the largest numbers: what it says is at least
/// 0 has this value at the fact's sizes. Numbers come in pairs that cancel each other, but for one size more in one.
fn at_fact(random: &mut Random, value: i64) -> Vec<String> {
    let (mut arguments, mut sum) = (Vec::new(), 0);
    let unequal = random.below(4);
    for pair in 0..4 {
        let (number, size) = (random.pick(&[9_999, -9_999, 9_998, -9_998, 1, 0]), random.below(30));
        let other_size = size + usize::from(pair == unequal);
        sum += number * (size as i64 - other_size as i64);
        arguments.extend([(number, size), (-number, other_size)]);
    }
    random.shuffle(&mut arguments);
    let constant = (value - sum).clamp(-9_999, 9_999);
    let numbers: String = arguments.iter().map(|(number, _)| format!(",{number}")).collect();
    let terms: String = arguments.iter().map(|(_, size)| format!(",{}a/0", "f/1 ".repeat(*size))).collect();
    let others = if random.chance(50) { 15 } else { random.below(16) };
    let place = if random.chance(50) { others } else { random.below(others + 1) };
    let mut claims = vec!["C,k8,0,1,1,1,1,1,1,1,1".to_string(); others];
    claims.insert(place, format!("C,k8,{constant}{numbers}"));
    lines_from(&["P,k,1,G", "P,k1,1,R", "P,k8,8,G"], claims.into_iter(), &[&format!("G,k8{terms}"), "E"])
}

/// So many variables in a fact, which may have none.
fn at_fact_variables(count: usize) -> Vec<String> {
    let names: Vec<String> = (0..count).map(|index| format!("V{index}")).collect();
    let [first, second] = [(0, 9), (9, 18)].map(|(from, to)| padded(&names, from, to).join(" "));
    lines_from(&["P,k,2,G", "C,k,18,-1,-1"], [format!("G,k,f/9 {first},f/9 {second}")].into_iter(), &["E"])
}

fn at_fact_line_bytes(bytes: usize) -> Vec<String> {
    let fact = format!("G,k,{}", term_of_length(bytes - 4));
    lines_from(&["P,k,1,G", "C,k,254,-1"], [fact].into_iter(), &["E"])
}

/// A text of so many bytes, nearly all facts: some with long lines, thousands with short ones. The longest lines mostly
/// just meet the claim.
fn at_facts(random: &mut Random, bytes: usize) -> Vec<String> {
    let longest = random.pick(&[16, 16, 40, 1_000]);
    let largest_size = (longest - "G,k,a/0\n".len()) / "f/1 ".len();
    let claim = format!("C,k,{},-1", largest_size as i64 + random.pick(&[0, 0, 0, 1, -1]));
    let start = ["P,k,1,G", "P,k1,1,R", &claim];
    lines_from(&start, atoms_of_size("G", "k", bytes - bytes_of(&start), longest).into_iter(), &["E"])
}

/// How many bytes these lines take with an `E` line.
fn bytes_of(lines: &[&str]) -> usize {
    lines.iter().chain(&["E"]).map(|line| line.len() + 1).sum()
}

/// A name of so many bytes as predicate, as symbol or as variable.
fn at_name_bytes(random: &mut Random, bytes: usize) -> Vec<String> {
    let (name, variable) = ("k".repeat(bytes), "K".repeat(bytes));
    let start = ["P,k,1,R", "P,k1,1,R"];
    match random.below(3) {
        0 => lines_from(&start, [format!("P,{name},1,R"), format!("H,{name},X")].into_iter(), &["E"]),
        1 => lines_from(&start, [format!("H,k,{name}/1 X")].into_iter(), &["E"]),
        _ => lines_from(&start, [format!("H,k,{variable}")].into_iter(), &["E"]),
    }
}

fn at_text_bytes(bytes: usize) -> Vec<String> {
    let start = ["P,k,1,R", "P,k1,1,G", "C,k1,7,-2"];
    lines_from(&start, heads_of_size("k", bytes - bytes_of(&start)).into_iter(), &["E"])
}
