//! Which word of a witness is missing or beyond its range, and what it may be: refusal 6.

use super::faults::{beyond_limit, low_word, range_text, LOW_RANGE};
use super::names::count;
use super::witnesses::{Refused, Side};
use crate::checker::linear::Linear;
use crate::checker::witness::{sides, SPLIT, SPLITS};
use crate::files::WITNESS;
use std::iter;
use std::ops::RangeInclusive;

/// A witness word behind the first: what it is, and what it may be.
type Meant = (String, RangeInclusive<i64>);

pub fn explain(refused: &Refused) -> Option<String> {
    let mut reading = Reading {
        refused,
        place: refused.witness.start,
        above: Vec::new(),
    };
    reading.witness()
}

/// The words of a witness, read up to the first that is wrong.
struct Reading<'a> {
    refused: &'a Refused<'a>,
    /// Of the next word.
    place: usize,
    /// The sides of splits that the word is under.
    above: Vec<Side>,
}

impl Reading<'_> {
    /// What is wrong with the witness that begins here, or nothing.
    fn witness(&mut self) -> Option<String> {
        let start = self.place;
        let (place, most) = (start, self.refused.targets.len());
        let Some(&first) = self.refused.words.get(start) else {
            let what = match self.above.last() {
                None => "where the witness would begin".into(),
                Some(side) => format!("where the witness {} would begin", side.text()),
            };
            return Some(format!("{WITNESS} ends before word {place}, {what}.\n"));
        };
        self.place += 1;
        if first == SPLIT && self.above.len() < SPLITS {
            return self.split(start);
        }
        match usize::try_from(first).ok().filter(|word| *word <= most) {
            None => Some(self.wrong_first(start, first)),
            Some(0) => {
                let multipliers = (1..=self.premises()).map(|premise| multiplier(premise, ""));
                let claim = "premises that contradict each other";
                self.leaf(start, claim, multipliers.collect())
            }
            Some(number) => {
                let claim = format!("disjunct {number} of {}", self.refused.target());
                self.leaf(start, &claim, self.combinations(number))
            }
        }
    }

    fn premises(&self) -> usize {
        self.refused.entailment.premise_count() + self.above.len()
    }

    /// The row of a split and then the witnesses on its sides.
    fn split(&mut self, start: usize) -> Option<String> {
        let of = format!("the row of the split at word {start}");
        let names = self.refused.origin.columns(self.refused.program);
        let wrong = self.constant(&of);
        let coefficients = names
            .iter()
            .map(|name| (format!("the coefficient of {name} in {of}"), -1_000..=1_000));
        let wrong = wrong.or_else(|| self.first_wrong(coefficients.collect()));
        if wrong.is_some() {
            return wrong;
        }
        let rows = sides(Linear::of(&self.refused.words[start + 1..self.place]));
        for (is_second, row) in [false, true].into_iter().zip(rows) {
            self.above.push(Side {
                place: start,
                is_second,
                row,
            });
            let wrong = self.witness();
            self.above.pop();
            if wrong.is_some() {
                return wrong;
            }
        }
        None
    }

    /// What is wrong with the two words of a constant, or nothing.
    fn constant(&mut self, of: &str) -> Option<String> {
        let place = self.place;
        let any = i64::from(i32::MIN)..=i64::from(i32::MAX);
        let high = (format!("the high word of the constant of {of}"), any);
        let wrong = self.first_wrong(vec![high, (low_word(of), LOW_RANGE)]);
        wrong.or_else(|| {
            let [high, low] = [0, 1].map(|at| self.refused.words[place + at]);
            let beyond = beyond_limit(WITNESS, place, [high, low], of)?;
            Some(format!("{beyond}\n"))
        })
    }

    fn wrong_first(&self, place: usize, first: i32) -> String {
        let of = match self.above.last() {
            None => "the witness".into(),
            Some(side) => format!("the witness {}", side.text()),
        };
        let is = match first {
            SPLIT => format!("{first}, a split below {SPLITS} others, which is one too many"),
            _ => first.to_string(),
        };
        format!(
            "Word {place} of {WITNESS}, the first of {of}, is {is}; it must be {}.\n",
            self.numbers()
        )
    }

    /// What the first word may be.
    fn numbers(&self) -> String {
        let target = self.refused.target();
        let leaf = match self.refused.targets.len() {
            0 => format!("0, for {target} has no disjuncts"),
            1 => format!("0, or 1 for the one disjunct of {target}"),
            most => format!("0, or 1 to {most} for a disjunct of {target}"),
        };
        match self.above.len() < SPLITS {
            true => format!("{leaf}, or {SPLIT} for a split"),
            false => leaf,
        }
    }

    /// For each row of the disjunct a divisor and a multiplier for each premise.
    fn combinations(&self, number: usize) -> Vec<Meant> {
        let premises = self.premises();
        let rows = 1..=self.refused.targets[number - 1].row_count();
        let words = rows.flat_map(|row| {
            let of = format!(" for row {row}");
            let divisor = (format!("the divisor{of}"), 1..=1_000);
            let multipliers = (1..=premises).map(move |premise| multiplier(premise, &of));
            iter::once(divisor).chain(multipliers)
        });
        words.collect()
    }

    /// What is wrong with the words of a leaf behind its first.
    fn leaf(&mut self, start: usize, claim: &str, meant: Vec<Meant>) -> Option<String> {
        let follow = count(meant.len(), "word");
        let wrong = self.first_wrong(meant)?;
        let first = self.refused.words[start];
        let for_claim = format!("{first}, is for {claim}, so that {follow} must follow it.");
        Some(match self.above.last() {
            None => format!("The first word of the witness, {for_claim}\n{wrong}"),
            Some(side) => format!(
                "Word {start} begins a leaf {}.\n{}Its first word, {for_claim}\n{wrong}",
                side.text(),
                self.refused.added(&self.above)
            ),
        })
    }

    /// The first of these words that is beyond its range or isn't there; else they are read.
    fn first_wrong(&mut self, meant: Vec<Meant>) -> Option<String> {
        for (what, range) in meant {
            let place = self.place;
            match self.refused.words.get(place) {
                None => return Some(format!("{WITNESS} ends before word {place}, {what}.\n")),
                Some(&word) if !range.contains(&word.into()) => {
                    let range = range_text(range);
                    return Some(format!(
                        "Word {place} of {WITNESS}, {what}, is {word}; it must be {range}.\n"
                    ));
                }
                Some(_) => self.place += 1,
            }
        }
        None
    }
}

fn multiplier(premise: usize, of: &str) -> Meant {
    (
        format!("the multiplier of premise {premise}{of}"),
        0..=1_000,
    )
}
