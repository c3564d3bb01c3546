//! Accepted certificates with disjuncts that nothing needs, and what is used of them.

mod by_words;
mod calls;
mod copies;
mod returns;
mod rings;
mod used;
mod variants;

pub use by_words::left_by_words;
pub use copies::with_copies;
pub use returns::late_returns;
pub use rings::Ring;
pub use used::{all_named, cut_down, in_order, used, Name, Reading, Used};

use super::constants::{far, LARGEST};
use super::{certificates, definite, extremes, invariants, rounding, splits, Pair};
use crate::build::{Certificate, Disjunct, Program, Row, Sharing, Witness};
use crate::random::Random;
use std::collections::BTreeMap;
use used::{counts, steps};
use variants::{grown, unused_rows, Naming, Variant};

/// What was added to a certificate.
#[derive(Clone, Copy, Debug, PartialEq, Eq, PartialOrd, Ord)]
pub enum Kind {
    /// Nothing.
    Plain,
    /// Disjuncts that were there, again; leaves name either.
    Copies,
    /// The same with rows left out.
    Weaker,
    /// Disjuncts that contradict themselves, with rows more, or again, and no leaf of the others names
    /// these.
    Unreachable,
    /// All disjuncts again; those added name each other alone.
    Circles,
    /// Disjuncts of a summary that one call needs and another excludes, and copies.
    Summaries,
    /// Copies, which different leaves of a tree name.
    Trees,
    /// A chain of disjuncts on skips in any order.
    Chains,
    /// All sorts.
    Mixed,
}

impl Kind {
    pub const ALL: [Kind; 9] = [
        Kind::Plain,
        Kind::Copies,
        Kind::Weaker,
        Kind::Unreachable,
        Kind::Circles,
        Kind::Summaries,
        Kind::Trees,
        Kind::Chains,
        Kind::Mixed,
    ];

    fn naming(self) -> Naming {
        Naming {
            first_apart: matches!(self, Kind::Unreachable | Kind::Circles),
            others_apart: self == Kind::Circles,
        }
    }
}

/// A program and an accepted certificate.
#[derive(Clone, Debug)]
pub struct Made {
    pub kind: Kind,
    pub program: Program,
    pub certificate: Certificate,
}

/// The most witness words of what disjuncts are added to, and the most of what is made.
const WORDS: usize = 4_000;
const LONGEST: usize = 30_000;

/// The most disjuncts of an entry and rows of a disjunct.
const DISJUNCTS: usize = 8;
const ROWS: usize = 32;

/// Certificates of this kind, at most so many, which are one with disjuncts added in several ways.
pub fn made(random: &mut Random, kind: Kind, most: usize) -> Vec<Made> {
    if kind == Kind::Chains {
        return vec![Ring::any(random).made()];
    }
    loop {
        let (program, certificate) = base(random, kind);
        let certificates = match kind {
            _ if length(&certificate) > WORDS => Vec::new(),
            Kind::Plain => vec![certificate],
            _ => (0..most)
                .filter_map(|_| more(random, kind, &program, &certificate))
                .collect(),
        };
        if certificates.is_empty() {
            continue;
        }
        let certificates = certificates.into_iter();
        let made = certificates.map(|certificate| Made {
            kind,
            program: program.clone(),
            certificate,
        });
        return made.collect();
    }
}

fn length(certificate: &Certificate) -> usize {
    certificate.witnesses.iter().map(Witness::length).sum()
}

/// What disjuncts are added to.
fn base(random: &mut Random, kind: Kind) -> (Program, Certificate) {
    loop {
        let sort = match kind {
            Kind::Summaries => 0,
            Kind::Trees => *random.pick(&[1, 2, 3]),
            _ => random.below(9),
        };
        let made = match sort {
            0 => Some(calls::calls(random)),
            1 => Some(splits::accepted(random)),
            2 => {
                let made = calls::calls(random);
                splits::wrapped(random, made)
            }
            3 => invariants::accepted(random).and_then(|made| splits::wrapped(random, made)),
            4 => {
                let choice = definite::choice(random);
                Some((choice.program, choice.certificate))
            }
            5 => {
                let rounded = rounding::rounded(random);
                Some((rounded.program, rounded.certificate))
            }
            6 => Some(extremes::pair(random)),
            _ => invariants::accepted(random),
        };
        if let Some(made) = made {
            return made;
        }
    }
}

/// The certificate with more disjuncts, if there can be more of this kind.
fn more(
    random: &mut Random,
    kind: Kind,
    program: &Program,
    certificate: &Certificate,
) -> Option<Certificate> {
    let unused = unused_rows(program, certificate);
    let disjuncts: Vec<&Vec<Disjunct>> = certificate.edges.entries().collect();
    let mut variants: Vec<Vec<Variant>> = Vec::new();
    for (entry, own) in counts(&certificate.edges).into_iter().enumerate() {
        let columns = columns(program, entry);
        let mut all: Vec<Variant> = (0..own).map(|origin| Variant::copy(origin, 0)).collect();
        let added = match kind {
            Kind::Circles => own,
            _ => *random.pick(&[0, 1, 1, 2, 3, 8]),
        };
        for at in 0..added.min(DISJUNCTS - own) {
            let chosen = match kind {
                Kind::Circles => Some(Variant::copy(at, 1)),
                _ => variant(random, kind, (disjuncts[entry], &unused[entry]), columns),
            };
            all.extend(chosen);
        }
        if random.chance(70) {
            random.shuffle(&mut all);
        }
        variants.push(all);
    }
    let grown = grown(random, program, certificate, &variants, kind.naming());
    let is_more = counts(&grown.edges) != counts(&certificate.edges);
    (is_more && length(&grown) <= LONGEST).then_some(grown)
}

/// One more disjunct for an entry with these disjuncts and the rows of each that nothing uses.
fn variant(
    random: &mut Random,
    kind: Kind,
    (disjuncts, unused): (&[Disjunct], &[Vec<usize>]),
    columns: usize,
) -> Option<Variant> {
    let sort = match kind {
        Kind::Weaker => 1,
        Kind::Unreachable => random.below(4),
        Kind::Mixed => *random.pick(&[0, 0, 0, 1, 2, 3]),
        _ => 0,
    };
    if sort == 3 {
        return (columns > 0).then(|| Variant::absurd(row(random, columns), 1));
    }
    let origin = (!unused.is_empty()).then(|| random.below(unused.len()))?;
    let mut copy = Variant::copy(origin, 1);
    match sort {
        1 => {
            copy.dropped = unused[origin].clone();
            copy.dropped.retain(|_| random.chance(60));
            (!copy.dropped.is_empty()).then_some(copy)
        }
        2 if columns > 0 => {
            let free = ROWS - disjuncts[origin].len();
            let rows = (1 + random.below(3)).min(free);
            copy.added = (0..rows).map(|_| row(random, columns)).collect();
            Some(copy)
        }
        _ => Some(copy),
    }
}

/// Any row that isn't constant, and whose other side is within the limits too.
fn row(random: &mut Random, columns: usize) -> Row {
    let distant = far(random);
    let constant = *random.pick(&[0, 0, 1, -1, 7, LARGEST, -LARGEST, distant]);
    let mut row = Row::constant(columns, constant.max(1 - LARGEST));
    for _ in 0..1 + random.below(3) {
        let column = random.below(columns);
        row.coefficients[column] = *random.pick(&[1, -1, 2, 1_000, -1_000]);
    }
    row
}

/// How many columns the rows of an entry have.
fn columns(program: &Program, entry: usize) -> usize {
    match program.vertices().nth(entry) {
        Some((procedure, _)) => 2 * program.columns(procedure),
        None => {
            let vertices = program.statement_count() + program.procedures.len();
            2 * program.globals + program.procedures[entry - vertices].parameters
        }
    }
}

impl Made {
    pub fn counts(&self) -> Vec<usize> {
        counts(&self.certificate.edges)
    }

    /// The dense words, shared or not, and at times with words that nobody reads.
    pub fn pair(&self, random: &mut Random) -> Pair {
        let sharing = certificates::sharing(random);
        let mut pair = Pair {
            program: self.program.words(Sharing::Apart),
            witness: self.certificate.words(sharing),
        };
        if random.chance(30) {
            certificates::scatter(random, &mut pair);
        }
        pair
    }

    /// The dense words in which entries share as many as they can.
    pub fn shared(&self) -> Pair {
        Pair {
            program: self.program.words(Sharing::Apart),
            witness: self.certificate.words(Sharing::Shared),
        }
    }

    /// What is used of it, by this reading.
    pub fn used(&self, reading: Reading) -> Used {
        used(&self.program, &self.certificate, reading)
    }

    /// The certificate with what is used.
    pub fn cut_down(&self, used: &Used) -> Made {
        Made {
            kind: self.kind,
            program: self.program.clone(),
            certificate: cut_down(&self.program, &self.certificate, used),
        }
    }

    /// Whether the leaves of a tree name more than one disjunct.
    pub fn has_several_targets(&self) -> bool {
        self.certificate.witnesses.iter().any(|witness| {
            let mut named = all_named(witness);
            named.sort_unstable();
            named.dedup();
            named.len() > 1
        })
    }

    /// Whether a summary disjunct that is used leads on at one call, and at another it can't be.
    pub fn has_partial_summaries(&self, used: &Used) -> bool {
        let steps = steps(&self.program, &self.counts());
        let mut at_calls: BTreeMap<Name, [bool; 2]> = BTreeMap::new();
        for (step, witness) in steps.iter().zip(&self.certificate.witnesses) {
            if let [(entry, at), summary] = step.sources[..] {
                let leads = !all_named(witness).is_empty();
                let both = at_calls.entry(summary).or_default();
                both[usize::from(leads)] |= used[entry][at] && used[summary.0][summary.1];
            }
        }
        at_calls.values().any(|both| *both == [true; 2])
    }

    /// Whether some of the disjuncts that aren't used keep each other.
    pub fn has_circles(&self, used: &Used) -> bool {
        let steps = steps(&self.program, &self.counts());
        let mut left: Used = used
            .iter()
            .map(|entry| entry.iter().map(|at| !at).collect())
            .collect();
        loop {
            let mut named: Used = left.iter().map(|entry| vec![false; entry.len()]).collect();
            for (step, witness) in steps.iter().zip(&self.certificate.witnesses) {
                let of_left = step.sources.iter().any(|&(entry, at)| left[entry][at]);
                for number in all_named(witness).into_iter().filter(|_| of_left) {
                    let target = step.target.expect("vertex 0 has no disjuncts");
                    named[target][number - 1] = left[target][number - 1];
                }
            }
            if named == left {
                return named.iter().flatten().any(|at| *at);
            }
            left = named;
        }
    }
}
