//! Certificates and their words.

use super::{place, Expression, Sharing};
use crate::checker::linear::linear_words;
use crate::checker::witness::{sides, SPLIT};

/// "sum ≤ 0" over the columns of an entry.
pub type Row = Expression;

pub type Disjunct = Vec<Row>;

/// The disjuncts of all entries: of the vertices, by rising number, and of the summaries.
#[derive(Clone, Debug)]
pub struct Edges {
    pub path: Vec<Vec<Disjunct>>,
    pub summaries: Vec<Vec<Disjunct>>,
}

#[derive(Clone, Debug)]
pub struct Certificate {
    pub edges: Edges,
    pub witnesses: Vec<Witness>,
}

impl Row {
    /// What is known on the two sides of a split at this row.
    pub fn sides(&self) -> [Vec<i64>; 2] {
        sides(self.linear())
    }
}

#[derive(Clone, Debug)]
pub enum Witness {
    /// One multiplier for each premise.
    Contradiction(Vec<i32>),
    /// A target disjunct, counted from 1, and one combination for each of its rows.
    Disjunct {
        number: usize,
        rows: Vec<Combination>,
    },
    /// A row over the entailment's columns, a witness where it is at most 0, and one where it isn't.
    Split {
        row: Row,
        witnesses: Box<[Witness; 2]>,
    },
}

/// A divisor and one multiplier for each premise.
#[derive(Clone, Debug)]
pub struct Combination {
    pub divisor: i32,
    pub multipliers: Vec<i32>,
}

impl Witness {
    /// The split at this row.
    pub fn split(row: Row, witnesses: [Witness; 2]) -> Witness {
        Witness::Split {
            row,
            witnesses: Box::new(witnesses),
        }
    }

    pub fn words(&self) -> Vec<i32> {
        let mut words = Vec::new();
        self.add_words(&mut words);
        words
    }

    fn add_words(&self, words: &mut Vec<i32>) {
        match self {
            Witness::Contradiction(multipliers) => {
                words.push(0);
                words.extend(multipliers);
            }
            Witness::Disjunct { number, rows } => {
                words.push(*number as i32);
                for row in rows {
                    words.push(row.divisor);
                    words.extend(&row.multipliers);
                }
            }
            Witness::Split { row, witnesses } => {
                words.push(SPLIT);
                words.extend(row.words());
                for witness in &**witnesses {
                    witness.add_words(words);
                }
            }
        }
    }

    /// How many words it has.
    pub fn length(&self) -> usize {
        match self {
            Witness::Contradiction(multipliers) => 1 + multipliers.len(),
            Witness::Disjunct { rows, .. } => {
                let lengths = rows.iter().map(|row| 1 + row.multipliers.len());
                1 + lengths.sum::<usize>()
            }
            Witness::Split { row, witnesses } => {
                let lengths = witnesses.iter().map(Witness::length);
                1 + linear_words(row.coefficients.len()) + lengths.sum::<usize>()
            }
        }
    }

    /// The most splits on the way to a leaf.
    pub fn depth(&self) -> usize {
        match self {
            Witness::Split { witnesses, .. } => 1 + witnesses[0].depth().max(witnesses[1].depth()),
            _ => 0,
        }
    }

    /// A leaf with multiplier 0 for so many more premises, the last ones.
    pub fn deeper(&self, more: usize) -> Witness {
        let mut leaf = self.clone();
        match &mut leaf {
            Witness::Contradiction(multipliers) => multipliers.resize(multipliers.len() + more, 0),
            Witness::Disjunct { rows, .. } => {
                for Combination { multipliers, .. } in rows {
                    multipliers.resize(multipliers.len() + more, 0);
                }
            }
            Witness::Split { .. } => {}
        }
        leaf
    }

    /// Its leaves, in the order of their words.
    pub fn leaves_mut(&mut self) -> Vec<&mut Witness> {
        match self {
            Witness::Split { witnesses, .. } => {
                witnesses.iter_mut().flat_map(Witness::leaves_mut).collect()
            }
            leaf => vec![leaf],
        }
    }

    /// The combinations of multipliers of its leaves, a contradiction's as one.
    pub fn multipliers_mut(&mut self) -> Vec<&mut [i32]> {
        match self {
            Witness::Contradiction(multipliers) => vec![multipliers],
            Witness::Disjunct { rows, .. } => rows
                .iter_mut()
                .map(|Combination { multipliers, .. }| &mut multipliers[..])
                .collect(),
            Witness::Split { witnesses, .. } => witnesses
                .iter_mut()
                .flat_map(Witness::multipliers_mut)
                .collect(),
        }
    }
}

impl Edges {
    /// Vertices, then summaries.
    pub fn entries(&self) -> impl Iterator<Item = &Vec<Disjunct>> {
        self.path.iter().chain(&self.summaries)
    }

    /// The certificate words of these edges and the given witness words.
    pub fn words(&self, witness_words: &[i32], sharing: Sharing) -> Vec<i32> {
        let (mut counts, mut places, mut rows) = (Vec::new(), Vec::new(), Vec::new());
        for disjuncts in self.entries() {
            let mut words = Vec::new();
            for disjunct in disjuncts {
                words.push(disjunct.len() as i32);
                words.extend(disjunct.iter().flat_map(Row::words));
            }
            counts.push(disjuncts.len() as i32);
            places.push(match disjuncts[..] {
                [] => 0,
                _ => place(&mut rows, &words, sharing),
            });
        }
        let sizes = vec![1, rows.len() as i32, witness_words.len() as i32];
        [&sizes, &counts, &places, &rows, witness_words].concat()
    }
}

impl Certificate {
    pub fn words(&self, sharing: Sharing) -> Vec<i32> {
        let witness_words: Vec<i32> = self.witnesses.iter().flat_map(Witness::words).collect();
        self.edges.words(&witness_words, sharing)
    }
}
