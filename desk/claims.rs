//! A claim as people read it: an inequality with nothing below 0 on either side.

use crate::forms::Sum;

/// `s1 + s2 >= s3` for 0 + s1 + s2 - s3 >= 0. The constant stands last, on the side where it is above 0.
pub fn inequality(numbers: &[i64]) -> String {
    let (mut left, mut right) = (Sum::empty(), Sum::empty());
    let arguments = numbers.iter().enumerate().skip(1).map(|(argument, number)| (*number, argument_name(argument)));
    for (number, name) in arguments.chain([(numbers[0], String::new())]) {
        if number > 0 {
            left.add(number, &name);
        } else {
            right.add(-number, &name);
        }
    }
    format!("{} >= {}", left.written(), right.written())
}

/// Both sides of the inequality with these sizes put in, none of them below 0.
pub fn sides(numbers: &[i64], sizes: &[i64]) -> (i64, i64) {
    let arguments = numbers[1..].iter().zip(sizes).map(|(number, size)| number * size);
    arguments.chain([numbers[0]]).fold((0, 0), |(left, right), part| match part {
        1.. => (left + part, right),
        _ => (left, right - part),
    })
}

/// The size of an argument, counted from 1.
pub fn argument_name(argument: usize) -> String {
    format!("s{argument}")
}

/// What a claim says of itself where it says nothing of the sizes: sizes are never below 0.
pub fn remark(numbers: &[i64]) -> Option<&'static str> {
    if numbers.iter().all(|number| *number >= 0) {
        Some("holds of any sizes")
    } else if numbers[0] < 0 && numbers.iter().all(|number| *number <= 0) {
        Some("holds of no sizes: no fact meets it")
    } else {
        None
    }
}

#[cfg(test)]
mod tests {
    use super::*;

    #[test]
    fn negative_terms_stand_on_the_other_side() {
        assert_eq!(inequality(&[0, 1, 1, -1]), "s1 + s2 >= s3");
        assert_eq!(inequality(&[0, -1, -1, 1]), "s3 >= s1 + s2");
        assert_eq!(inequality(&[7, -2]), "7 >= 2*s1");
        assert_eq!(inequality(&[-1, 1]), "s1 >= 1");
        assert_eq!(inequality(&[3, 1, -1]), "s1 + 3 >= s2");
        assert_eq!(inequality(&[-3, 1, -1]), "s1 >= s2 + 3");
    }

    #[test]
    fn the_sides_of_a_claim_take_the_sizes_put_in() {
        assert_eq!(sides(&[-1, 1, -1], &[1, 1]), (1, 2));
        assert_eq!(sides(&[3, 2, 0, -1], &[4, 9, 5]), (11, 5));
        assert_eq!(sides(&[-1], &[]), (0, 1));
    }

    #[test]
    fn claims_without_sizes_read_sensibly() {
        assert_eq!(inequality(&[0, 0]), "0 >= 0");
        assert_eq!(inequality(&[-1]), "0 >= 1");
        assert_eq!(inequality(&[5]), "5 >= 0");
        assert_eq!(inequality(&[0, -1]), "0 >= s1");
        assert_eq!(remark(&[0, 0]), Some("holds of any sizes"));
        assert_eq!(remark(&[-1, 0]), Some("holds of no sizes: no fact meets it"));
        assert_eq!(remark(&[0, -1]), None);
        assert_eq!(remark(&[-1, 1]), None);
    }
}
