//! Words that aren't what they should be: a sentence for each, with its place, what it is and what
//! it should be.

use super::names::{count, with_commas};
use crate::checker::linear::{
    constant, is_constant_within_limits, CONSTANT_LIMIT, CONSTANT_WORDS, LOW_WORDS,
};
use std::ops::{Range, RangeInclusive};

/// Words of a file that are tested one by one, and what was found wrong so far.
pub struct Faults<'a> {
    file: &'static str,
    words: &'a [i32],
    found: Vec<String>,
}

impl<'a> Faults<'a> {
    pub fn new(file: &'static str, words: &'a [i32]) -> Faults<'a> {
        Faults {
            file,
            words,
            found: Vec::new(),
        }
    }

    pub fn found(self) -> Vec<String> {
        self.found
    }

    /// A fault that isn't of a single word.
    pub fn add(&mut self, fault: String) {
        self.found.push(fault);
    }

    /// The word at a place that all files have once earlier tests passed.
    pub fn word(&self, place: usize) -> i64 {
        self.words.get(place).map_or(0, |&word| word.into())
    }

    pub fn length(&self) -> usize {
        self.words.len()
    }

    /// Finds fault with the word unless it lies in the range.
    pub fn expect(&mut self, place: usize, range: RangeInclusive<i64>, what: &str) -> bool {
        let right = range.contains(&self.word(place));
        self.unless(right, place, what, &range_text(range))
    }

    /// Finds fault with the word unless it is right, which is passed on.
    pub fn unless(&mut self, right: bool, place: usize, what: &str, should: &str) -> bool {
        if !right {
            let (file, value) = (self.file, self.word(place));
            self.add(format!(
                "Word {place} of {file}, {what}, is {value}; it must be {should}."
            ));
        }
        right
    }

    /// A constant and coefficients, the columns named.
    pub fn expression(&mut self, place: usize, names: &[String], of: &str) {
        self.constant(place, of);
        for (place, name) in (place + CONSTANT_WORDS..).zip(names) {
            let coefficient = format!("the coefficient of {name} in {of}");
            self.expect(place, -1_000..=1_000, &coefficient);
        }
    }

    /// The high word and the low word of a constant.
    pub fn constant(&mut self, place: usize, of: &str) {
        let [high, low] = [0, 1].map(|at| self.words.get(place + at).copied().unwrap_or(0));
        if self.expect(place + 1, LOW_RANGE, &low_word(of)) {
            let beyond = beyond_limit(self.file, place, [high, low], of);
            self.found.extend(beyond);
        }
    }

    /// Finds fault with several words as a whole, and says what they are.
    pub fn words(&mut self, places: Range<usize>, what: &str, are: &str) {
        let words: Vec<String> = self.words[places.clone()]
            .iter()
            .map(i32::to_string)
            .collect();
        let (file, words) = (self.file, words.join(" "));
        let (first, last) = (places.start, places.end - 1);
        self.add(format!(
            "Words {first} to {last} of {file}, {what}, are {words}: {are}."
        ));
    }

    /// Finds fault with the length of the file unless it is the total: that as a sum, and what its
    /// parts are.
    pub fn total(&mut self, total: i64, sum: &str, parts: &str) {
        let (file, length) = (self.file, self.length());
        if i64::try_from(length) != Ok(total) {
            let words = count(length, "word");
            self.add(format!(
                "{file} has {words}; it must have {sum} = {total}: {parts}."
            ));
        }
    }
}

/// What the low word of a constant may be.
pub const LOW_RANGE: RangeInclusive<i64> = *LOW_WORDS.start() as i64..=*LOW_WORDS.end() as i64;

pub fn low_word(of: &str) -> String {
    format!("the low word of the constant of {of}")
}

/// What is wrong with a constant whose low word is in its range, or nothing.
pub fn beyond_limit(file: &str, place: usize, [high, low]: [i32; 2], of: &str) -> Option<String> {
    let (value, last) = (constant(high, low), place + 1);
    let limit = range_text(-CONSTANT_LIMIT..=CONSTANT_LIMIT);
    (!is_constant_within_limits(high, low)).then(|| {
        format!(
            "Words {place} and {last} of {file}, the constant of {of}, are {high} and {low}, which \
             is {value}; it must be {limit}."
        )
    })
}

/// `1 to 1,024`, `±1,000`, or one number.
pub fn range_text(range: RangeInclusive<i64>) -> String {
    let (low, high) = range.into_inner();
    let text = |number: i64| {
        let sign = if number < 0 { "-" } else { "" };
        format!("{sign}{}", with_commas(number.unsigned_abs()))
    };
    if low == high {
        text(low)
    } else if low == -high {
        format!("within ±{}", text(high))
    } else {
        format!("{} to {}", text(low), text(high))
    }
}
