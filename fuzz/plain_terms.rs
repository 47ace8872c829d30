//! Forms, and names, numbers and terms as document 01 writes them: what the plain implementation reads lines with.

use super::{LINE_BYTES, NAME_BYTES, VARIABLES};

// ---------------------------------------------------------------------------------------------------------------
// Forms.

/// A form over a rule's variables.
#[derive(Clone, Copy)]
pub(super) struct Form {
    pub(super) constant: i64,
    pub(super) coefficients: [i64; VARIABLES],
}

impl Form {
    pub(super) fn zero() -> Form {
        Form { constant: 0, coefficients: [0; VARIABLES] }
    }

    pub(super) fn constant(constant: i64) -> Form {
        Form { constant, ..Form::zero() }
    }

    pub(super) fn plus(mut self, other: Form) -> Form {
        self.constant = in_range(self.constant.checked_add(other.constant));
        for (mine, its) in self.coefficients.iter_mut().zip(other.coefficients) {
            *mine = in_range(mine.checked_add(its));
        }
        self
    }

    pub(super) fn times(mut self, factor: i64) -> Form {
        self.constant = in_range(self.constant.checked_mul(factor));
        for mine in &mut self.coefficients {
            *mine = in_range(mine.checked_mul(factor));
        }
        self
    }

    pub(super) fn is_at_least_zero(&self) -> bool {
        self.constant >= 0 && self.coefficients.iter().all(|coefficient| *coefficient >= 0)
    }
}

/// By document 01 64 bits are always enough; this stops the test where they are not.
pub(super) fn in_range(number: Option<i64>) -> i64 {
    number.expect("a form left the signed 64-bit range")
}

/// The claim c0, c1, .., cn with the sizes put into it: c0 + c1 times the first size, and so on.
pub(super) fn claim_at(claim: &[i64], sizes: &[Form]) -> Form {
    let mut sum = Form::constant(claim[0]);
    for (number, size) in claim[1..].iter().zip(sizes) {
        sum = sum.plus(size.times(*number));
    }
    sum
}

// ---------------------------------------------------------------------------------------------------------------
// Names, numbers and terms.

/// Line, query and term alike: at most 1,024 bytes, each from 32 to 126.
pub(super) fn is_clean(line: &[u8]) -> bool {
    line.len() <= LINE_BYTES && line.iter().all(|byte| (32..=126).contains(byte))
}

pub(super) fn fields_of(line: &[u8]) -> Vec<&[u8]> {
    line.split(|byte| *byte == b',').collect()
}

/// A first letter that the caller has looked at, then up to 15 letters, digits or underscores.
pub(super) fn has_name_form(word: &[u8]) -> bool {
    word.len() <= NAME_BYTES && word[1..].iter().all(|byte| byte.is_ascii_alphanumeric() || *byte == b'_')
}

pub(super) fn is_name(word: &[u8]) -> bool {
    !word.is_empty() && word[0].is_ascii_lowercase() && has_name_form(word)
}

pub(super) fn is_variable(word: &[u8]) -> bool {
    !word.is_empty() && word[0].is_ascii_uppercase() && has_name_form(word)
}

/// A decimal number without leading zeros, `-0` or a plus sign. Numbers of over nine digits are out of every range that
/// document 01 knows and are refused here with the malformed ones, since both get the same refusal.
pub(super) fn read_number(field: &[u8]) -> Option<i64> {
    let (negative, digits) = match field {
        [b'-', rest @ ..] => (true, rest),
        _ => (false, field),
    };
    if digits.is_empty() || digits.len() > 9 || !digits.iter().all(u8::is_ascii_digit) {
        return None;
    }
    let has_leading_zero = digits[0] == b'0' && digits.len() > 1;
    if has_leading_zero || (negative && digits == b"0") {
        return None;
    }
    let value = digits.iter().fold(0, |value, digit| value * 10 + i64::from(digit - b'0'));
    Some(if negative { -value } else { value })
}

pub(super) fn read_number_within(field: &[u8], lowest: i64, highest: i64) -> Option<i64> {
    read_number(field).filter(|number| (lowest..=highest).contains(number))
}

/// What counts of a term for its size: the sum of the arities, and the variables, one entry for each occurrence.
pub(super) struct Term<'a> {
    pub(super) arities: i64,
    pub(super) variables: Vec<&'a [u8]>,
}

/// The whole field must be one term: nothing may be left over.
pub(super) fn read_term(field: &[u8]) -> Option<Term<'_>> {
    let mut tokens = field.split(|byte| *byte == b' ');
    let mut term = Term { arities: 0, variables: Vec::new() };
    read_subterm(&mut tokens, &mut term)?;
    match tokens.next() {
        None => Some(term),
        Some(_) => None,
    }
}

/// Reads one variable, or one symbol and as many terms as its arity says.
pub(super) fn read_subterm<'a>(tokens: &mut impl Iterator<Item = &'a [u8]>, term: &mut Term<'a>) -> Option<()> {
    let token = tokens.next()?;
    if is_variable(token) {
        term.variables.push(token);
        return Some(());
    }
    let arity = read_symbol(token)?;
    term.arities += arity;
    for _ in 0..arity {
        read_subterm(tokens, term)?;
    }
    Some(())
}

/// The arity of a symbol: a name, `/`, one digit.
pub(super) fn read_symbol(token: &[u8]) -> Option<i64> {
    match token {
        [name @ .., b'/', digit] if is_name(name) && digit.is_ascii_digit() => Some(i64::from(digit - b'0')),
        _ => None,
    }
}
