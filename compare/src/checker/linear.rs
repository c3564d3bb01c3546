//! Expressions and rows in words: a constant, which takes two words, and then the coefficients.

use std::ops::RangeInclusive;

/// What the high word of a constant counts; the low word counts ones.
pub const UNIT: i64 = 1_000_000;

pub const LOW_WORDS: RangeInclusive<i32> = 0..=999_999;

pub const CONSTANT_LIMIT: i64 = 4_000_000_000;
pub const COEFFICIENTS: RangeInclusive<i32> = -1_000..=1_000;

/// How many words a constant takes: the high word and then the low word.
pub const CONSTANT_WORDS: usize = 2;

/// How many words an expression or a row over so many columns takes.
pub const fn linear_words(columns: usize) -> usize {
    CONSTANT_WORDS + columns
}

/// The constant of these two words, which may be beyond their limits.
pub fn constant(high: i32, low: i32) -> i64 {
    i64::from(high) * UNIT + i64::from(low)
}

pub fn is_constant_within_limits(high: i32, low: i32) -> bool {
    LOW_WORDS.contains(&low) && constant(high, low).abs() <= CONSTANT_LIMIT
}

/// Whether the words are a constant and coefficients within their limits.
pub fn is_linear(words: &[i32]) -> bool {
    let [high, low, coefficients @ ..] = words else {
        return false;
    };
    is_constant_within_limits(*high, *low)
        && coefficients
            .iter()
            .all(|coefficient| COEFFICIENTS.contains(coefficient))
}

/// A constant and coefficients.
#[derive(Clone, Copy, Debug)]
pub struct Linear<'a> {
    pub constant: i64,
    pub coefficients: &'a [i32],
}

impl<'a> Linear<'a> {
    /// Those of words that are long enough.
    pub fn of(words: &'a [i32]) -> Linear<'a> {
        let (of_constant, coefficients) = words.split_at(CONSTANT_WORDS);
        Linear {
            constant: constant(of_constant[0], of_constant[1]),
            coefficients,
        }
    }

    /// The constant and then the coefficients.
    pub fn numbers(self) -> impl Iterator<Item = i64> + 'a {
        let coefficients = self.coefficients.iter().map(|&word| word.into());
        std::iter::once(self.constant).chain(coefficients)
    }

    /// Whether the coefficients are all 0, as they are where there are no columns.
    pub fn is_constant(self) -> bool {
        self.coefficients
            .iter()
            .all(|&coefficient| coefficient == 0)
    }
}
