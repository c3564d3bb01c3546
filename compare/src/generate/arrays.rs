//! Programs with arrays (document 02, CR 12), their traces, and damage aimed at each refusal number.
//!
//! A program with arrays is made as a plain one that has a skip for each access, and what is read or written
//! there. Its runs are those of the plain one, with elements beside them.

mod aimed;
mod expanded;
mod journeys;
mod programs;

pub use aimed::{aimed, where_refused, Case};
pub use expanded::{expanded, Expanded};
pub use journeys::{made, made_small, made_to, Ending, Made};
pub use programs::program;

use super::program_words::ProgramWords;
use super::{Input, Pair};
use crate::build::{Expression, Program, Sharing};
use crate::random::Random;
use std::collections::BTreeMap;

/// A program with arrays.
#[derive(Clone, Debug)]
pub struct ArrayProgram {
    /// With a skip for each access.
    pub plain: Program,
    pub sizes: Vec<usize>,
    /// By vertex.
    pub accesses: BTreeMap<usize, Access>,
    /// How many moves each procedure has; there is one choice less, and the choices come first.
    moves: Vec<usize>,
    /// What global 0 starts from where it is there and nothing sets it: ±1,000,000,000.
    far: Option<i64>,
}

/// What a read or a write does.
#[derive(Clone, Debug, PartialEq, Eq)]
pub struct Access {
    pub array: usize,
    pub index: Expression,
    pub kind: AccessKind,
}

#[derive(Clone, Debug, PartialEq, Eq)]
pub enum AccessKind {
    Read { column: usize },
    Write { value: Expression },
}

impl Access {
    fn kind_word(&self) -> i32 {
        match self.kind {
            AccessKind::Read { .. } => 8,
            AccessKind::Write { .. } => 9,
        }
    }

    /// What stands in its row behind the line and the successor.
    fn fields(&self) -> Vec<i32> {
        let (array, index) = (self.array as i32, self.index.words());
        match &self.kind {
            AccessKind::Read { column } => {
                [*column as i32, array].into_iter().chain(index).collect()
            }
            AccessKind::Write { value } => [array]
                .into_iter()
                .chain(index)
                .chain(value.words())
                .collect(),
        }
    }
}

impl ArrayProgram {
    pub fn elements(&self) -> usize {
        self.sizes.iter().sum()
    }

    /// The number of arrays and their sizes.
    pub fn header(&self) -> Vec<i32> {
        let sizes = self.sizes.iter().map(|&size| size as i32);
        [self.sizes.len() as i32].into_iter().chain(sizes).collect()
    }

    /// The words without the number of arrays and their sizes.
    fn headless(&self, sharing: Sharing) -> Vec<i32> {
        let mut words = self.plain.words(sharing);
        for (&vertex, access) in &self.accesses {
            let skip = ProgramWords(&words).statement_row(vertex);
            words = ProgramWords(&words).with_row(vertex, &[skip, access.fields()].concat());
            words[ProgramWords::kind(vertex)] = access.kind_word();
        }
        words
    }

    pub fn words(&self, sharing: Sharing) -> Vec<i32> {
        with_header(&self.headless(sharing), &self.header())
    }
}

/// Program words with these behind Q.
pub fn with_header(words: &[i32], header: &[i32]) -> Vec<i32> {
    let (sizes, rest) = words.split_at(4);
    [sizes, header, rest].concat()
}

/// Traces of programs with arrays, good and damaged in all ways.
pub fn inputs(seed: u64) -> impl Iterator<Item = Input> {
    let mut random = Random::new(seed);
    std::iter::repeat_with(move || {
        let random = &mut random;
        let made = made(random);
        let pair = made.pair(random);
        let cases = aimed(random, &made).into_iter().map(|case| case.input);
        let mut inputs: Vec<Input> = cases.collect();
        inputs.extend((0..6).map(|_| {
            let pair = damaged(random, &pair);
            Input::new(random, pair)
        }));
        inputs.push(Input::new(random, pair));
        inputs
    })
    .flatten()
}

/// One to three words changed, taken out or put in, of either input.
pub fn damaged(random: &mut Random, pair: &Pair) -> Pair {
    let mut pair = pair.clone();
    for _ in 0..1 + random.below(3) {
        let words = match random.chance(50) {
            true => &mut pair.program,
            false => &mut pair.witness,
        };
        if words.is_empty() {
            continue;
        }
        // Headers are short, and most tests look at them.
        let count = match random.chance(30) {
            true => words.len().min(10),
            false => words.len(),
        };
        let (at, word) = (random.below(count), any_word(random));
        match random.below(10) {
            0 => {
                words.remove(at);
            }
            1 => words.insert(at, word),
            2 => words.truncate(at),
            3 => words[at] = words[at].wrapping_add(1),
            4 => words[at] = words[at].wrapping_sub(1),
            _ => words[at] = word,
        }
    }
    pair
}

fn any_word(random: &mut Random) -> i32 {
    match random.below(6) {
        0 => random.word() as i32,
        1 => *random.pick(&[i32::MIN, i32::MAX, 1_000_000_001, 1_000, 64, 65]),
        _ => random.between(-2, 12),
    }
}
