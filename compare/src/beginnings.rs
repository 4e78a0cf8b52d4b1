//! Beginnings of numbers: what a search has to tell apart.

use std::collections::BTreeMap;

/// Digits of a number.
const DIGITS: u32 = 8;

/// How many beginnings of 0 to 7 digits are common to two or more of the
/// numbers, equal numbers counting each.
pub fn common(numbers: &[u32]) -> usize {
    (0..DIGITS)
        .map(|length| {
            let rest = 10_u32.pow(DIGITS - length);
            let mut counts = BTreeMap::new();
            for number in numbers {
                *counts.entry(number / rest).or_insert(0) += 1;
            }
            counts.values().filter(|&&count| count > 1).count()
        })
        .sum()
}

#[cfg(test)]
mod tests {
    use super::*;

    #[test]
    fn beginnings_of_two_or_more_numbers_count_once() {
        assert_eq!(common(&[]), 0);
        assert_eq!(common(&[12_345_678]), 0);
        // None, 1 and 12.
        assert_eq!(common(&[12_345_678, 12_900_003]), 3);
        assert_eq!(common(&[12_345_678; 2]), 8);
        assert_eq!(common(&[12_345_678; 3]), 8);
        assert_eq!(common(&[0, 99_999_999]), 1);
        assert_eq!(
            common(&[12_000_000, 12_000_001, 34_000_000, 34_000_001]),
            15
        );
    }
}
