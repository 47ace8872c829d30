//! Names, variables, symbols and numbers as a pack writes them. Where one is malformed, what is wrong with it.

use crate::limits::NAME_BYTES;

/// Whether a byte may stand in a name after its first letter.
fn is_of_a_name(byte: u8) -> bool {
    byte.is_ascii_alphanumeric() || byte == b'_'
}

fn has_the_form(word: &[u8], is_first: fn(&u8) -> bool) -> bool {
    word.first().is_some_and(is_first) && word.len() <= NAME_BYTES && word.iter().all(|byte| is_of_a_name(*byte))
}

pub fn is_name(word: &[u8]) -> bool {
    has_the_form(word, u8::is_ascii_lowercase)
}

pub fn is_variable(word: &[u8]) -> bool {
    has_the_form(word, u8::is_ascii_uppercase)
}

/// A symbol's name and arity.
pub fn symbol(word: &[u8]) -> Option<(&[u8], usize)> {
    match word {
        [name @ .., b'/', digit @ b'0'..=b'9'] if is_name(name) => Some((name, usize::from(digit - b'0'))),
        _ => None,
    }
}

/// What is wrong with a word that is no name.
#[derive(Debug, PartialEq)]
pub enum NameFault {
    Empty,
    /// It starts with a capital, as variables do.
    Capital,
    /// It starts with a byte that is no letter.
    FirstByte,
    /// This byte of it, counted from 0, may not stand in a name.
    Byte(usize),
    /// It is over 16 bytes.
    Long,
}

pub fn name_fault(word: &[u8]) -> Option<NameFault> {
    let first = match word.first() {
        None => return Some(NameFault::Empty),
        Some(first) => first,
    };
    if let Some(place) = word.iter().skip(1).position(|byte| !is_of_a_name(*byte)) {
        if first.is_ascii_alphabetic() {
            return Some(NameFault::Byte(place + 1));
        }
    }
    match first {
        _ if !first.is_ascii_alphabetic() => Some(NameFault::FirstByte),
        _ if word.len() > NAME_BYTES => Some(NameFault::Long),
        _ if first.is_ascii_uppercase() => Some(NameFault::Capital),
        _ => None,
    }
}

/// What is wrong with a number.
#[derive(Debug, PartialEq)]
pub enum NumberFault {
    Empty,
    PlusSign,
    LeadingZeros,
    MinusZero,
    NotDecimal,
    TooLow,
    TooHigh,
}

/// A decimal number from `lowest` to `highest`, without leading zeros, `-0` or a plus sign.
pub fn number(field: &[u8], lowest: i64, highest: i64) -> Result<i64, NumberFault> {
    let (is_negative, digits) = match field {
        [] => return Err(NumberFault::Empty),
        [b'+', rest @ ..] if is_digits(rest) => return Err(NumberFault::PlusSign),
        [b'-', rest @ ..] => (true, rest),
        _ => (false, field),
    };
    if !is_digits(digits) {
        return Err(NumberFault::NotDecimal);
    }
    if is_negative && digits.iter().all(|digit| *digit == b'0') {
        return Err(NumberFault::MinusZero);
    }
    if digits.len() > 1 && digits[0] == b'0' {
        return Err(NumberFault::LeadingZeros);
    }
    let value =
        digits.iter().fold(0_i64, |value, digit| value.saturating_mul(10).saturating_add(i64::from(digit - b'0')));
    match if is_negative { -value } else { value } {
        value if value < lowest => Err(NumberFault::TooLow),
        value if value > highest => Err(NumberFault::TooHigh),
        value => Ok(value),
    }
}

fn is_digits(field: &[u8]) -> bool {
    !field.is_empty() && field.iter().all(u8::is_ascii_digit)
}

#[cfg(test)]
mod tests {
    use super::*;

    #[test]
    fn names_and_variables_have_at_most_sixteen_bytes() {
        assert!(is_name(b"a") && is_name(b"abcdefghijklmnop") && is_name(b"p1_Z"));
        assert!(
            !is_name(b"abcdefghijklmnopq") && !is_name(b"") && !is_name(b"Xs") && !is_name(b"_a") && !is_name(b"a-b")
        );
        assert!(is_variable(b"Xs") && !is_variable(b"xs"));
        assert_eq!(symbol(b"cons/2"), Some((&b"cons"[..], 2)));
        assert!(symbol(b"cons").is_none() && symbol(b"cons/10").is_none() && symbol(b"Cons/2").is_none());
    }

    #[test]
    fn a_name_has_a_fault_exactly_if_it_is_none() {
        let words: [&[u8]; 10] =
            [b"", b"a", b"A", b"_a", b"9", b"a b", b"ab\x80", b"abcdefghijklmnop", b"abcdefghijklmnopq", b" a"];
        for word in words {
            assert_eq!(name_fault(word).is_none(), is_name(word), "{word:?}");
        }
        assert_eq!(name_fault(b"a b"), Some(NameFault::Byte(1)));
        assert_eq!(name_fault(b"Trail"), Some(NameFault::Capital));
        assert_eq!(name_fault(b"Abcdefghijklmnopq"), Some(NameFault::Long));
    }

    #[test]
    fn numbers_are_read_or_their_fault_is_told() {
        assert_eq!(number(b"-9999", -9999, 9999), Ok(-9999));
        assert_eq!(number(b"0", 0, 8), Ok(0));
        assert_eq!(number(b"-0", -9, 9), Err(NumberFault::MinusZero));
        assert_eq!(number(b"01", 0, 9), Err(NumberFault::LeadingZeros));
        assert_eq!(number(b"+1", 0, 9), Err(NumberFault::PlusSign));
        assert_eq!(number(b"", 0, 9), Err(NumberFault::Empty));
        assert_eq!(number(b"-", -9, 9), Err(NumberFault::NotDecimal));
        assert_eq!(number(b"1 ", 0, 9), Err(NumberFault::NotDecimal));
        assert_eq!(number(b"10", 0, 9), Err(NumberFault::TooHigh));
        assert_eq!(number(b"-1", 0, 9), Err(NumberFault::TooLow));
        assert_eq!(number(b"99999999999999999999999", 0, 9), Err(NumberFault::TooHigh));
        assert_eq!(number(b"-99999999999999999999999", 0, 9), Err(NumberFault::TooLow));
    }
}
