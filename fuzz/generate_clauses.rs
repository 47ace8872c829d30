//! Clause texts made at random: all layouts, names, arities, subgoals, variables and lines near document 01's limits.

use crate::random::Random;

/// A term; a variable named `_` is a lone one.
#[derive(Clone)]
enum Term {
    Variable(String),
    Symbol(String, Vec<Term>),
}

/// What the terms of one clause are made from.
struct Palette {
    /// How deep terms go, and how many arguments their symbols have at most.
    depth: usize,
    arity: usize,
    /// Out of a hundred leaves so many are variables, and of these so many lone ones.
    variables: usize,
    lone: usize,
    /// The variables' names.
    names: Vec<String>,
}

const NAMES: [&str; 17] =
    ["p", "q", "r", "f", "a", "b", "nil", "cons", "path", "is", "mod", "s", "b_C9", "a1", "foo_Bar9", "x", "v1"];
const VARIABLES: [&str; 17] =
    ["X", "Y", "Xs", "V1", "V1", "V2", "V3", "V4", "V10", "V01", "V", "V_1", "V1a", "A_", "Abc_9", "V16", "W1"];

/// A text of clauses: mostly one to three, some blank, some with many, few over 32,768 bytes.
pub fn clause_text(random: &mut Random) -> Vec<u8> {
    let clauses = match random.below(1_000) {
        0..=19 => 0,
        20..=499 => 1,
        500..=899 => 2 + random.below(2),
        900..=989 => 4 + random.below(6),
        990..=998 => 10 + random.below(50),
        _ => 1_000 + random.below(500),
    };
    let style = random.below(4);
    let mut text = layout(random, style);
    for number in 0..clauses {
        let atoms = if clauses < 10 { clause(random) } else { small_clause(random) };
        write_clause(random, style, &atoms, &mut text);
        // the last dot may end the text
        let between = layout(random, style);
        let is_bare = between.is_empty() && (number + 1 < clauses || random.chance(50));
        text.extend(if is_bare { random.pick(&["\n", " "]).to_string() } else { between }.chars());
    }
    text.into_bytes()
}

/// Spaces and line ends, by the text's style: hardly any, single ones, or many.
fn layout(random: &mut Random, style: usize) -> String {
    let most = match style {
        0 => usize::from(random.chance(3)),
        1 => usize::from(random.chance(40)),
        2 => random.below(3),
        _ => random.below(2) * random.below(5),
    };
    (0..most).map(|_| if random.chance(70) { ' ' } else { '\n' }).collect()
}

// ---------------------------------------------------------------------------------------------------------------
// Clauses.

/// Each atom is a symbol here, the head first.
fn clause(random: &mut Random) -> Vec<Term> {
    match random.below(100) {
        0..=64 => small_clause(random),
        65..=69 => clause_of_subgoals(random),
        70..=79 => clause_of_variables(random),
        80..=86 if random.chance(4) => clause_of_lines(random),
        80..=86 => clause_of_line(random),
        87..=90 => clause_of_arity(random),
        91..=95 => clause_of_name(random),
        _ => deep_clause(random),
    }
}

fn palette(random: &mut Random) -> Palette {
    let names = (0..1 + random.below(6)).map(|_| random.pick(&VARIABLES).to_string()).collect();
    let (depth, arity) = (random.below(4), 1 + random.below(3));
    Palette { depth, arity, variables: random.below(101), lone: random.pick(&[0, 20, 50]), names }
}

fn small_clause(random: &mut Random) -> Vec<Term> {
    let palette = palette(random);
    let subgoals = random.below(2) * random.below(4);
    (0..=subgoals).map(|_| atom(random, &palette)).collect()
}

fn name(random: &mut Random) -> String {
    random.pick(&NAMES).to_string()
}

fn atom(random: &mut Random, palette: &Palette) -> Term {
    let arguments = (0..random.below(4)).map(|_| term(random, palette, palette.depth)).collect();
    Term::Symbol(name(random), arguments)
}

fn term(random: &mut Random, palette: &Palette, depth: usize) -> Term {
    if depth > 0 && random.chance(60) {
        let arity = random.below(palette.arity + 1);
        let arguments = (0..arity).map(|_| term(random, palette, depth - 1)).collect();
        return Term::Symbol(name(random), arguments);
    }
    if !random.chance(palette.variables) {
        return Term::Symbol(name(random), Vec::new());
    }
    let place = random.below(palette.names.len());
    Term::Variable(if random.chance(palette.lone) { "_".to_string() } else { palette.names[place].clone() })
}

/// Seven to nine subgoals.
fn clause_of_subgoals(random: &mut Random) -> Vec<Term> {
    let palette = Palette { depth: 1, ..palette(random) };
    (0..8 + random.below(3)).map(|_| atom(random, &palette)).collect()
}

/// Fourteen to seventeen variables, lone ones among them, some of the others repeated; they stand mixed, in one to four
/// atoms. Some have long names that differ in a byte only.
fn clause_of_variables(random: &mut Random) -> Vec<Term> {
    let count = 14 + random.below(4);
    let lone = random.below(2) * random.below(count + 1);
    let numbers = if random.chance(50) { 1 } else { 2 + random.below(9) };
    let (start, end) =
        random.pick(&[("V", ""), ("V", ""), ("V", "_bcdefghijklm"), ("Abcdefgh", ""), ("Abcdefghijklmn", "")]);
    let mut leaves: Vec<String> = (0..count - lone).map(|index| format!("{start}{}{end}", numbers + index)).collect();
    for place in 0..leaves.len() {
        if random.chance(20) {
            leaves[place] = format!("X{place}");
        }
    }
    for _ in 0..random.below(3).min(leaves.len()) {
        leaves.push(leaves[random.below(leaves.len())].clone());
    }
    leaves.extend((0..lone).map(|_| "_".to_string()));
    random.shuffle(&mut leaves);
    let width = random.pick(&[5, 7, 9]);
    let parts = leaves.chunks(width).map(|part| part.iter().cloned().map(Term::Variable).collect());
    let terms: Vec<Term> = parts.map(|part| Term::Symbol(name(random), part)).collect();
    let share = 1 + random.below(terms.len());
    terms.chunks(share).map(|part| Term::Symbol("p".to_string(), part.to_vec())).collect()
}

/// A predicate of seven to nine arguments, or a symbol of eight to ten.
fn clause_of_arity(random: &mut Random) -> Vec<Term> {
    let palette = Palette { depth: 1, variables: 10, ..palette(random) };
    let is_symbol = random.chance(50);
    let arity = 7 + usize::from(is_symbol) + random.below(3);
    let wide = Term::Symbol(name(random), (0..arity).map(|_| term(random, &palette, 1)).collect());
    let mut atoms: Vec<Term> = (0..1 + random.below(3)).map(|_| atom(random, &palette)).collect();
    let place = random.below(atoms.len());
    atoms[place] = if is_symbol { inside(random, wide) } else { wide };
    atoms
}

/// An atom that has the term inside, at some depth.
fn inside(random: &mut Random, mut term: Term) -> Term {
    for _ in 0..1 + random.below(3) {
        let mut arguments = vec![term];
        for _ in 0..random.below(3) {
            let place = random.below(arguments.len() + 1);
            arguments.insert(place, Term::Symbol(name(random), Vec::new()));
        }
        term = Term::Symbol(name(random), arguments);
    }
    term
}

/// A name of 15 to 17 bytes for a predicate, a symbol or a variable.
fn clause_of_name(random: &mut Random) -> Vec<Term> {
    let rest = "n_Z0".repeat(4);
    let long = format!("{}{}", random.pick(&["b", "z"]), &rest[..14 + random.below(3)]);
    let named = match random.below(4) {
        0 => Term::Symbol(long, vec![Term::Variable("X".to_string()); random.below(3)]),
        1 => inside(random, Term::Symbol(long, Vec::new())),
        2 => inside(random, Term::Symbol(long, vec![Term::Variable("_".to_string())])),
        _ => inside(random, Term::Variable(format!("{}{}", long[..1].to_uppercase(), &long[1..]))),
    };
    let mut atoms = small_clause(random);
    let place = random.below(atoms.len());
    atoms[place] = named;
    atoms
}

// ---------------------------------------------------------------------------------------------------------------
// Long lines.

/// How many bytes the term takes on a line; a fresh variable is taken to have two.
fn written_length(term: &Term) -> usize {
    match term {
        Term::Variable(name) => name.len().max(2),
        Term::Symbol(name, arguments) => {
            name.len() + 2 + arguments.iter().map(|argument| 1 + written_length(argument)).sum::<usize>()
        }
    }
}

/// One atom's line has 1,022 to 1,026 bytes.
fn clause_of_line(random: &mut Random) -> Vec<Term> {
    let wide = Palette { depth: 3, arity: 4, ..palette(random) };
    let mut atoms = small_clause(random);
    let place = random.below(atoms.len());
    let bytes = 1_022 + random.below(5);
    atoms[place] = atom_of_line(random, &wide, bytes);
    atoms
}

/// Nine lines of 1,024 bytes, the most that there can be in a clause; of some, one line has a byte less or more.
fn clause_of_lines(random: &mut Random) -> Vec<Term> {
    let ground = Palette { depth: 3, arity: 4, variables: 0, ..palette(random) };
    let other = random.below(9);
    let other_bytes = 1_023 + random.below(3);
    let bytes_of = |place: usize| if place == other { other_bytes } else { 1_024 };
    (0..9).map(|place| atom_of_line(random, &ground, bytes_of(place))).collect()
}

/// An atom whose line has so many bytes: an argument is put into symbols of one argument up to that length. An atom takes
/// as many bytes on its line as it would as a term: a letter and a comma, and no `/` and arity.
fn atom_of_line(random: &mut Random, palette: &Palette, bytes: usize) -> Term {
    let mut grown = term(random, palette, palette.depth);
    let other = if random.chance(70) { Some(term(random, palette, palette.depth)) } else { None };
    let longest_name = random.pick(&[1, 4, 16]);
    let mut line =
        "H,p,".len() + written_length(&grown) + other.iter().map(|term| 1 + written_length(term)).sum::<usize>();
    while line + 4 <= bytes {
        // a symbol with one argument takes its name, `/1` and a space; what is left has room for another, or is filled
        let left = bytes - line - 3;
        let is_last = left < 5 || (left <= 16 && random.chance(50));
        let name = if is_last { left } else { 1 + random.below(longest_name.min(left - 4)) };
        grown = Term::Symbol("k".repeat(name), vec![grown]);
        line += name + 3;
    }
    let mut arguments = vec![grown];
    arguments.extend(other);
    if random.chance(50) {
        arguments.reverse();
    }
    Term::Symbol("p".to_string(), arguments)
}

/// Terms of many levels: on the left, in the middle or on the right.
fn deep_clause(random: &mut Random) -> Vec<Term> {
    let levels = if random.chance(5) { 200 + random.below(1_000) } else { 5 + random.below(60) };
    let mut term = Term::Variable(random.pick(&["_", "V1", "X"]).to_string());
    for _ in 0..levels {
        let leaf = Term::Symbol("a".to_string(), Vec::new());
        term = match random.below(4) {
            0 => Term::Symbol("f".to_string(), vec![term, leaf]),
            1 => Term::Symbol("g".to_string(), vec![leaf, term]),
            _ => Term::Symbol("s".to_string(), vec![term]),
        };
    }
    vec![Term::Symbol("p".to_string(), vec![term, Term::Variable("_".to_string())])]
}

// ---------------------------------------------------------------------------------------------------------------
// Text.

fn write_clause(random: &mut Random, style: usize, atoms: &[Term], text: &mut String) {
    for (place, atom) in atoms.iter().enumerate() {
        if place > 0 {
            text.push_str(if place == 1 { ":-" } else { "," });
            text.push_str(&layout(random, style));
        }
        write_term(random, style, atom, text);
        text.push_str(&layout(random, style));
    }
    text.push('.');
}

fn write_term(random: &mut Random, style: usize, term: &Term, text: &mut String) {
    let (name, arguments) = match term {
        Term::Variable(name) => (name, &Vec::new()),
        Term::Symbol(name, arguments) => (name, arguments),
    };
    text.push_str(name);
    for (place, argument) in arguments.iter().enumerate() {
        text.push_str(if place == 0 { "(" } else { "," });
        text.push_str(&layout(random, style));
        write_term(random, style, argument, text);
        text.push_str(&layout(random, style));
    }
    if !arguments.is_empty() {
        text.push(')');
    }
}
