//! How often an answer had to do with far constants, and with words that are no constant.

use crate::checker::linear::{constant, is_constant_within_limits};
use crate::checker::row::Form;
use crate::checker::witness::SPLIT;
use crate::checker::{witness_layout, Answer};
use crate::generate::constants::FAR;
use crate::generate::program_words::ProgramWords;
use std::fmt;

/// By where the constants stand.
#[derive(Clone, Debug, Default)]
pub struct Constants {
    pub expressions: Standing,
    /// Rows of entries.
    pub rows: Standing,
    pub split_rows: Standing,
}

/// How often an input had a far constant there, and was accepted or refused.
#[derive(Clone, Debug, Default)]
pub struct Standing {
    pub accepted: u64,
    pub refused: u64,
    /// 3, 5 or 6 by a statement, an entry or a witness with words there that are no constant.
    pub beyond: u64,
}

/// A high word and a low word.
type Words = [i32; 2];

impl Constants {
    pub fn add(&mut self, program: &[i32], witness: &[i32], answer: Answer) {
        let (number, place) = match answer {
            Answer::Refused { number, place, .. } => (number, place as usize),
            _ => (0, 0),
        };
        if number == 1 || number == 2 {
            return;
        }
        let given = ProgramWords(program);
        let in_expressions: Vec<Words> = match number {
            3 => given.constants(ProgramWords::vertex(place)),
            _ => (1..=given.statements())
                .flat_map(|vertex| given.constants(vertex))
                .collect(),
        };
        self.expressions.add(number, 3, &in_expressions);
        if number == 3 || number == 4 || witness.first() != Some(&Form::Dense.mark()) {
            return;
        }
        let is_entry = number == 5 || number == 15;
        let in_rows: Vec<Words> = match is_entry {
            true => given.entry_constants(witness, place - 2),
            false => (1..=given.entries())
                .flat_map(|entry| given.entry_constants(witness, entry))
                .collect(),
        };
        self.rows.add(number, 5, &in_rows);
        if !is_entry {
            let in_splits = split_constants(program, witness, place);
            self.split_rows.add(number, 6, &in_splits);
        }
    }

    pub fn all(&self) -> [&Standing; 3] {
        [&self.expressions, &self.rows, &self.split_rows]
    }
}

impl Standing {
    /// Counts the constants of an input that was refused with this number, or accepted with 0.
    fn add(&mut self, number: u64, own: u64, words: &[Words]) {
        let far = words
            .iter()
            .any(|&[high, low]| constant(high, low).abs() >= FAR);
        let beyond = words
            .iter()
            .any(|&[high, low]| !is_constant_within_limits(high, low));
        match number {
            0 => self.accepted += u64::from(far),
            _ => self.refused += u64::from(far),
        }
        self.beyond += u64::from(number == own && beyond);
    }
}

/// Those of all split rows; where witnesses can't be read, that of the split at the place, if it is
/// one.
fn split_constants(program: &[i32], witness: &[i32], place: usize) -> Vec<Words> {
    if !witness.contains(&SPLIT) {
        return Vec::new();
    }
    let of_split = |at: usize| match witness.get(at..) {
        Some(&[SPLIT, high, low, ..]) => Some([high, low]),
        _ => None,
    };
    match witness_layout(program, witness) {
        None => of_split(place).into_iter().collect(),
        Some(layout) => {
            let parts = layout.iter().flat_map(|tree| &tree.parts);
            let splits = parts.filter(|part| part.is_split);
            splits
                .filter_map(|part| of_split(part.words.start))
                .collect()
        }
    }
}

impl fmt::Display for Constants {
    fn fmt(&self, out: &mut fmt::Formatter) -> fmt::Result {
        write!(out, "with far constants:")?;
        let places = ["expressions", "rows of entries", "split rows"];
        for (place, standing) in places.iter().zip(self.all()) {
            let Standing {
                accepted,
                refused,
                beyond,
            } = standing;
            write!(
                out,
                " in {place} {accepted} accepted, {refused} refused, no constant {beyond};"
            )?;
        }
        Ok(())
    }
}
