//! How often refusals were given, by their numbers.

use std::collections::BTreeMap;
use std::fmt;

/// How often each refusal number was given.
#[derive(Clone, Debug, Default)]
pub struct Refused(BTreeMap<usize, u64>);

impl Refused {
    /// Counts so many refusals with a number.
    pub fn add(&mut self, number: u64, times: u64) {
        *self.0.entry(number as usize).or_default() += times;
    }

    /// How often a number was given.
    pub fn times(&self, number: usize) -> u64 {
        self.0.get(&number).copied().unwrap_or_default()
    }

    /// Whether each of these numbers was given so often.
    pub fn all(&self, numbers: impl IntoIterator<Item = usize>, least: u64) -> bool {
        numbers
            .into_iter()
            .all(|number| self.times(number) >= least)
    }
}

impl fmt::Display for Refused {
    fn fmt(&self, out: &mut fmt::Formatter) -> fmt::Result {
        let given = self.0.iter().filter(|(_, times)| **times > 0);
        let given: Vec<String> = given.map(|(n, times)| format!("{n}: {times}")).collect();
        write!(out, "{}", given.join(" "))
    }
}
