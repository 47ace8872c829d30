//! 7: a name that is missing or malformed. A query's name is judged by the same words (14).

use super::{place_of_field, Fault};
use crate::letters::Letter;
use crate::pack::fields_of;
use crate::tokens::{name_fault, NameFault};
use crate::words::{count, quoted, shown, shown_byte};

/// 7: the second field.
pub fn of_line(line: &[u8]) -> Option<Fault> {
    let fields = fields_of(line);
    if !Letter::of(fields[0])?.takes_a_name() {
        return None;
    }
    let Some(name) = fields.get(1) else {
        let wrong = "The second field, a predicate's name, is missing.";
        return Fault::at(place_of_field(line, 1), wrong, "Write a comma and the name after the letter.");
    };
    malformed(name, place_of_field(line, 1).start)
}

/// A word that is no name, where it stands in its line.
pub fn malformed(word: &[u8], start: usize) -> Option<Fault> {
    let form = "A name is a small letter and up to 15 letters, digits or underscores";
    let mut mark = start..start + word.len().max(1);
    let (wrong, mend) = match name_fault(word)? {
        NameFault::Empty => ("The name is empty".to_string(), form.to_string()),
        NameFault::Capital => (
            format!("{} starts with a capital, as variables do, and is no name", quoted(word)),
            format!("Start it with a small letter: {}", shown(&with_small_letter(word))),
        ),
        NameFault::FirstByte => (format!("{} does not start with a letter", quoted(word)), form.to_string()),
        NameFault::Byte(place) => {
            mark = start + place..start + place + 1;
            let wrong = format!("{} is no name: '{}' may not stand in one", quoted(word), shown_byte(word[place]));
            (wrong, why_not_in_a_name(word, place).unwrap_or(form).to_string())
        }
        NameFault::Long => (format!("The name has {}", count(word.len(), "character")), format!("{form}, 16 in all")),
    };
    Fault::at(mark, format!("{wrong}."), format!("{mend}."))
}

fn with_small_letter(word: &[u8]) -> Vec<u8> {
    let mut small = word.to_vec();
    small[0] = small[0].to_ascii_lowercase();
    small
}

/// What to mend where a certain byte shows what was meant.
fn why_not_in_a_name(word: &[u8], place: usize) -> Option<&'static str> {
    match word[place] {
        b'/' => Some("Write the name without its arity"),
        b'(' => Some("Write the name alone, and the arguments as fields of their own, parted by commas"),
        b' ' => Some("Leave out the space: fields are parted by commas alone"),
        b'-' => Some("Write an underscore in its place"),
        _ => None,
    }
}
