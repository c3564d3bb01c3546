//! Witness words, tests 6 to 8.

use super::certificate::{Certificate, Disjunct};
use super::entailment::{entailments, Entailment, Matrix};
use super::linear::{is_linear, linear_words, Linear};
use super::program::Program;
use super::{within, Part, Refusal, WitnessLayout};

/// The first word of a witness that is a split.
pub const SPLIT: i32 = -1;

/// The most splits on the way to a leaf.
pub const SPLITS: usize = 8;

/// Judges a certificate for a program: the number of entailments, or the first test that fails.
pub fn judge(program: &Program, words: &[i32]) -> Result<u64, Refusal> {
    let certificate = Certificate::parse(program, words)?;
    let mut rest = certificate.witness_words;
    let mut count = 0;
    for entailment in entailments(program, &certificate) {
        let place = words.len() - rest.len();
        let targets = certificate.edges(entailment.target);
        let witness = Witness::read(&mut rest, &entailment, targets);
        let witness = witness.ok_or(Refusal::new(6, place))?;
        if !witness.fits(&entailment) {
            return Err(Refusal::new(7, place));
        }
        count += 1;
    }
    match rest {
        [] => Ok(count),
        _ => Err(Refusal::new(8, words.len() - rest.len())),
    }
}

/// How the witnesses of a well-formed certificate stand, one for each entailment.
pub fn layout(program: &Program, words: &[i32]) -> Result<Vec<WitnessLayout>, Refusal> {
    let certificate = Certificate::parse(program, words)?;
    let mut rest = certificate.witness_words;
    let mut layout = Vec::new();
    for entailment in entailments(program, &certificate) {
        let place = words.len() - rest.len();
        let targets = certificate.edges(entailment.target);
        let witness = Witness::read(&mut rest, &entailment, targets);
        let witness = witness.ok_or(Refusal::new(6, place))?;
        layout.push(WitnessLayout {
            source: entailment.source,
            premises: entailment.premise_count(),
            rows: entailment.own_premises().0,
            columns: entailment.columns(),
            parts: witness.parts(place),
        });
    }
    Ok(layout)
}

pub enum Witness<'a> {
    /// A multiplier for each premise.
    Contradiction(&'a [i32]),
    /// For each row of the target disjunct a divisor and a multiplier for each premise.
    Disjunct(Disjunct<'a>, &'a [i32]),
    /// A row over the entailment's columns, and a witness for each of its sides.
    Split(&'a [i32], Box<[Witness<'a>; 2]>),
}

impl<'a> Witness<'a> {
    /// Takes the entailment's witness off the front, all of its words present and in range.
    pub fn read(
        rest: &mut &'a [i32],
        entailment: &Entailment,
        targets: &[Disjunct<'a>],
    ) -> Option<Witness<'a>> {
        Witness::read_below(rest, entailment, targets, 0)
    }

    /// The same of a witness with so many splits above it, each of which is one premise more.
    fn read_below(
        rest: &mut &'a [i32],
        entailment: &Entailment,
        targets: &[Disjunct<'a>],
        depth: usize,
    ) -> Option<Witness<'a>> {
        let premises = entailment.premise_count() + depth;
        let first = *rest.split_off_first()?;
        if first == SPLIT && depth < SPLITS {
            let row = rest.split_off(..linear_words(entailment.columns()))?;
            if !is_linear(row) {
                return None;
            }
            let mut side = || Witness::read_below(rest, entailment, targets, depth + 1);
            let sides = [side()?, side()?];
            return Some(Witness::Split(row, Box::new(sides)));
        }
        match within(first, 0..=targets.len())? {
            0 => {
                let multipliers = rest.split_off(..premises)?;
                are_multipliers(multipliers).then_some(Witness::Contradiction(multipliers))
            }
            number => {
                let target = targets[number - 1];
                let combinations = rest.split_off(..target.row_count() * (1 + premises))?;
                let in_range = combinations
                    .chunks_exact(1 + premises)
                    .all(|words| words[0] >= 1 && are_multipliers(words));
                in_range.then_some(Witness::Disjunct(target, combinations))
            }
        }
    }

    fn fits(&self, entailment: &Entailment) -> bool {
        match self {
            Witness::Disjunct(target, _) if target.row_count() == 0 => true,
            _ => self.fits_under(&mut entailment.premises(), entailment),
        }
    }

    /// Whether its sums fit with these premises. Each side of a split is one more, the last, for the
    /// witness under it.
    fn fits_under(&self, premises: &mut Matrix, entailment: &Entailment) -> bool {
        match self {
            Witness::Contradiction(multipliers) => {
                let sum = weighted_sum(premises, multipliers);
                sum[0] >= 1 && sum[1..].iter().all(|&coefficient| coefficient == 0)
            }
            Witness::Disjunct(target, combinations) => {
                let goals = entailment.goals(target);
                let combinations = combinations.chunks_exact(1 + premises.rows().len());
                let mut pairs = goals.rows().zip(combinations);
                pairs.all(|(goal, words)| {
                    let divisor = i64::from(words[0]);
                    let sum = weighted_sum(premises, &words[1..]);
                    sum[0] >= least_constant(divisor, goal[0])
                        && sum[1..]
                            .iter()
                            .zip(&goal[1..])
                            .all(|(&coefficient, &wanted)| coefficient == divisor * wanted)
                })
            }
            Witness::Split(row, witnesses) => {
                let mut pairs = sides(Linear::of(row)).into_iter().zip(&**witnesses);
                pairs.all(|(side, witness)| {
                    premises.push(&side);
                    let fits = witness.fits_under(premises, entailment);
                    premises.pop();
                    fits
                })
            }
        }
    }

    /// Its leaves and splits, if its first word stands at the place.
    fn parts(&self, place: usize) -> Vec<Part> {
        let mut parts = Vec::new();
        self.add_parts(place, 0, &mut parts);
        parts
    }

    /// Adds the parts of a witness with so many splits above it; where its words end.
    fn add_parts(&self, place: usize, depth: usize, parts: &mut Vec<Part>) -> usize {
        let (length, witnesses) = match self {
            Witness::Contradiction(words) | Witness::Disjunct(_, words) => (words.len(), None),
            Witness::Split(row, witnesses) => (row.len(), Some(witnesses)),
        };
        let end = place + 1 + length;
        parts.push(Part {
            words: place..end,
            depth,
            is_split: witnesses.is_some(),
        });
        let witnesses = witnesses.into_iter().flat_map(|both| both.iter());
        witnesses.fold(end, |place, witness| {
            witness.add_parts(place, depth + 1, parts)
        })
    }
}

/// What is known on the two sides of a split: "row ≤ 0", and "−row + 1 ≤ 0".
pub fn sides(row: Linear) -> [Vec<i64>; 2] {
    let first: Vec<i64> = row.numbers().collect();
    let mut second: Vec<i64> = first.iter().map(|cell| -cell).collect();
    second[0] += 1;
    [first, second]
}

/// The least constant of a sum that has the coefficients of `divisor` times a row. What remains of
/// the sum is a multiple of the divisor, so a sum above `divisor × (constant − 1)` gives the row.
pub fn least_constant(divisor: i64, constant: i64) -> i64 {
    divisor * (constant - 1) + 1
}

/// Whether all words lie in 0..=1,000, the range of multipliers (and, from 1 on, of divisors).
fn are_multipliers(words: &[i32]) -> bool {
    words.iter().all(|word| (0..=1_000).contains(word))
}

pub fn weighted_sum(premises: &Matrix, multipliers: &[i32]) -> Vec<i64> {
    let mut sum = vec![0; premises.width()];
    for (row, &multiplier) in premises.rows().zip(multipliers) {
        if multiplier != 0 {
            for (total, cell) in sum.iter_mut().zip(row) {
                *total += i64::from(multiplier) * cell;
            }
        }
    }
    sum
}
