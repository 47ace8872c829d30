//! The import of clause texts: what it costs for each byte as the texts grow, and texts on which its stack is measured.

use crate::{clock, library};
use std::hint::black_box;

/// The texts have about so many bytes: as many whole clauses, or parts of one clause, as have room.
const LENGTHS: [usize; 3] = [32_768, 65_536, 131_072];
/// Each time is the best of so many.
pub const ROUNDS: usize = 50;

const MAKERS: &str = concat!(
    include_str!("../packs/clauses/join.pl"),
    include_str!("../packs/clauses/accumulator.pl"),
    include_str!("../packs/clauses/tree.pl"),
    include_str!("../packs/clauses/path.pl"),
    include_str!("../packs/clauses/sorter.pl"),
    include_str!("../packs/clauses/changer.pl"),
);

/// Texts of one make, of any length.
pub struct ClauseTexts {
    /// As the table names them.
    name: &'static str,
    /// The first number that the import answers.
    number: u64,
    make: fn(usize) -> String,
}

/// Texts that are imported, and texts of one clause each, which is past a limit or does not end.
pub const CLAUSE_TEXTS: [ClauseTexts; 10] = [
    ClauseTexts { name: "the clauses of `packs/clauses/`", number: 0, make: |bytes| repeated("", MAKERS, "", bytes) },
    ClauseTexts { name: "16 variables in each clause, `_` and `V1` to `V15` in turn", number: 0, make: of_variables },
    ClauseTexts { name: "nine lines of 1,024 bytes in each clause", number: 0, make: of_long_lines },
    ClauseTexts { name: "facts without arguments", number: 0, make: |bytes| repeated("", "a.\n", "", bytes) },
    ClauseTexts { name: "layout alone", number: 0, make: |bytes| repeated("", " ", "", bytes) },
    ClauseTexts { name: "a clause of open brackets (25)", number: 25, make: |bytes| repeated("p(", "f(", "a", bytes) },
    ClauseTexts { name: "a clause of nested brackets (26)", number: 26, make: of_nested_brackets },
    ClauseTexts { name: "a clause of subgoals (26)", number: 26, make: |bytes| repeated("p:-", "q(X),", "r.", bytes) },
    ClauseTexts { name: "a clause of `_` (26)", number: 26, make: |bytes| repeated("p(", "_,", "_).", bytes) },
    ClauseTexts { name: "a clause of one name (26)", number: 26, make: |bytes| repeated("", "a", ".", bytes) },
];

/// The front, the part as often as there is room for it, and the back.
fn repeated(front: &str, part: &str, back: &str, bytes: usize) -> String {
    front.to_string() + &part.repeat((bytes - front.len() - back.len()) / part.len()) + back
}

fn of_variables(bytes: usize) -> String {
    let clause = "p(f(_,V1,_,V3,_,V5,_,V7,_),f(V9,_,V11,_,V13,_,V15)).\n";
    repeated("", clause, "", bytes)
}

fn nested(name: &str, levels: usize) -> String {
    format!("{name}({}a{})", "f(".repeat(levels), ")".repeat(levels))
}

fn of_long_lines(bytes: usize) -> String {
    let goal = nested("pp", 254);
    let clause = format!("{goal} :- {}.\n", vec![goal.as_str(); 8].join(", "));
    repeated("", &clause, "", bytes)
}

fn of_nested_brackets(bytes: usize) -> String {
    // each level has three bytes, `f(` and `)`
    nested("p", bytes / 3 - 2) + "."
}

impl ClauseTexts {
    /// The shortest of them.
    pub fn shortest(&self) -> String {
        (self.make)(LENGTHS[0])
    }

    /// Is each as long as it should be, and answered by this number? In words, what is not so.
    pub fn judge(&self) -> Result<String, String> {
        for bytes in LENGTHS {
            let text = (self.make)(bytes);
            let number = library::import(text.as_bytes(), &mut lines_for(&text))[0];
            if number != self.number || text.len() > bytes || text.len() < bytes - bytes / 3 {
                return Err(format!("{}: a text of {} bytes is answered {number}", self.name, text.len()));
            }
        }
        Ok(format!("{}: the import answers {}", self.name, self.number))
    }

    /// For a byte of the text made for this length.
    fn nanoseconds(&self, bytes: usize) -> f64 {
        let text = (self.make)(bytes);
        let mut lines = lines_for(&text);
        let mut best = u64::MAX;
        for _ in 0..ROUNDS {
            let start = clock::nanoseconds();
            black_box(library::import(black_box(text.as_bytes()), black_box(&mut lines)));
            best = best.min(clock::nanoseconds() - start);
        }
        best as f64 / text.len() as f64
    }
}

/// A buffer that is long enough for the lines of the text.
pub fn lines_for(text: &str) -> Vec<u8> {
    vec![0; 2 * text.len()]
}

/// A table in Markdown: the time for a byte, by the length of the text.
pub fn show_times() {
    println!("| clause texts | 32 KB | 64 KB | 128 KB |");
    println!("|---|---|---|---|");
    for texts in &CLAUSE_TEXTS {
        let costs = LENGTHS.map(|bytes| format!("{:.2} ns a byte", texts.nanoseconds(bytes)));
        println!("| {} | {} |", texts.name, costs.join(" | "));
    }
}
