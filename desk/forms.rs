//! Forms: a constant and a whole number for each variable of a rule. The desk works them out to explain a residual; they
//! are compared with the library's.

use crate::terms::Term;
use crate::words::shown;

/// The coefficients stand in the order of the rule's variables. 64 bits are enough under document 01's limits.
#[derive(Clone, Debug, PartialEq)]
pub struct Form {
    pub constant: i64,
    pub coefficients: Vec<i64>,
}

impl Form {
    /// The zero form over so many variables.
    pub fn zero(variables: usize) -> Form {
        Form { constant: 0, coefficients: vec![0; variables] }
    }

    pub fn plus(mut self, other: &Form) -> Form {
        self.constant += other.constant;
        for (mine, its) in self.coefficients.iter_mut().zip(&other.coefficients) {
            *mine += its;
        }
        self
    }

    pub fn times(mut self, factor: i64) -> Form {
        self.constant *= factor;
        for mine in &mut self.coefficients {
            *mine *= factor;
        }
        self
    }

    /// The size of a term, by its two steps: the sum of the arities, then each variable as often as it occurs.
    pub fn of_term(term: &Term, variables: &[&[u8]]) -> Form {
        let constant = term.sum_of_arities() as i64;
        Form { constant, coefficients: variables.iter().map(|variable| term.occurrences(variable) as i64).collect() }
    }

    /// A claim's numbers with these sizes put in for its arguments.
    pub fn of_claim(numbers: &[i64], sizes: &[Form], variables: usize) -> Form {
        let constant = Form { constant: numbers[0], ..Form::zero(variables) };
        numbers[1..].iter().zip(sizes).fold(constant, |sum, (number, size)| sum.plus(&size.clone().times(*number)))
    }

    /// The form as a sum: `2 + X - 3*Xs`.
    pub fn written(&self, variables: &[&[u8]]) -> String {
        let mut sum = Sum::empty();
        sum.add(self.constant, "");
        for (coefficient, variable) in self.coefficients.iter().zip(variables) {
            sum.add(*coefficient, &shown(variable));
        }
        sum.written()
    }
}

/// A sum as it is written: what counts 0 is left out, a factor 1 is not written, and what is below 0 is subtracted.
pub struct Sum {
    text: String,
}

impl Sum {
    pub fn empty() -> Sum {
        Sum { text: String::new() }
    }

    /// Adds a number of something, or a number alone if it is of nothing.
    pub fn add(&mut self, number: i64, of: &str) {
        if number == 0 {
            return;
        }
        let size = number.unsigned_abs();
        let product = match (size, of) {
            (_, "") => size.to_string(),
            (1, _) => of.to_string(),
            _ => format!("{size}*{of}"),
        };
        self.text += match (self.text.is_empty(), number < 0) {
            (true, true) => "-",
            (true, false) => "",
            (false, true) => " - ",
            (false, false) => " + ",
        };
        self.text += &product;
    }

    pub fn written(self) -> String {
        if self.text.is_empty() {
            "0".to_string()
        } else {
            self.text
        }
    }
}

#[cfg(test)]
mod tests {
    use super::*;
    use crate::terms::read_term;

    #[test]
    fn a_form_is_written_as_a_sum() {
        let variables: [&[u8]; 3] = [b"X", b"Xs", b"Zs"];
        let written = |constant, coefficients: [i64; 3]| {
            Form { constant, coefficients: coefficients.to_vec() }.written(&variables)
        };
        assert_eq!(written(2, [1, -3, 0]), "2 + X - 3*Xs");
        assert_eq!(written(0, [0, -1, 1]), "-Xs + Zs");
        assert_eq!(written(0, [0, 0, 0]), "0");
        assert_eq!(written(-1, [0, 0, 2]), "-1 + 2*Zs");
    }

    #[test]
    fn the_size_of_a_term_is_document_01s() {
        let variables: [&[u8]; 2] = [b"V1", b"V2"];
        let size = Form::of_term(&read_term(b"f/3 V1 g/1 V2 V2").unwrap(), &variables);
        assert_eq!(size, Form { constant: 4, coefficients: vec![1, 2] });
    }

    #[test]
    fn a_claim_takes_the_sizes_put_in() {
        let sizes = [Form { constant: 2, coefficients: vec![1] }, Form { constant: 0, coefficients: vec![3] }];
        let form = Form::of_claim(&[5, 1, -2], &sizes, 1);
        assert_eq!(form, Form { constant: 7, coefficients: vec![-5] });
    }
}
