//! Witnesses for the entailments of a program and its edges.

use super::solve::{combination, contradiction, plain, plain_contradiction};
use super::{Certificate, Combination, Edges, Program, Row, Sharing, Witness};
use crate::checker::certificate as parsed;
use crate::checker::entailment::{entailments, Matrix};
use crate::checker::program as parsed_program;

/// How many splits on a way the search for a certificate tries, and at how many rows each.
const SPLITS: usize = 2;
const SPLIT_ROWS: usize = 16;

/// One entailment as an explicit system of rows.
#[derive(Clone, Debug)]
pub struct System {
    /// The vertex that it starts from, 0 for the start.
    pub source: usize,
    pub goal: Goal,
    premises: Matrix,
    disjuncts: Vec<Matrix>,
}

/// What a system leads to: a vertex, or the summary of a procedure counted from 0.
#[derive(Clone, Copy, Debug, PartialEq, Eq)]
pub enum Goal {
    Path(usize),
    Summary(usize),
}

/// A witness, or what stands in its way.
#[derive(Debug)]
pub enum Attempt {
    Proved(Witness),
    /// No premises contradict each other, and the goal has no disjunct at all.
    Unreachable,
    /// Rows of the disjunct, counted from 0, that no combination gives; the fewest of any.
    Lacking {
        disjunct: usize,
        rows: Vec<usize>,
    },
}

impl System {
    pub fn premise_count(&self) -> usize {
        self.premises.rows().len()
    }

    pub fn disjunct_count(&self) -> usize {
        self.disjuncts.len()
    }

    /// How many columns its rows are over.
    pub fn columns(&self) -> usize {
        self.premises.width() - 1
    }

    /// The constant and the coefficients of a premise, counted from 0.
    pub fn premise(&self, at: usize) -> &[i64] {
        self.premises.rows().nth(at).expect("there are so many")
    }

    /// The constant and the coefficients of the premises' weighted sum.
    pub fn sum(&self, multipliers: &[i32]) -> Vec<i64> {
        let mut sum = vec![0; self.premises.width()];
        for (row, multiplier) in self.premises.rows().zip(multipliers) {
            for (total, cell) in sum.iter_mut().zip(row) {
                *total += i64::from(*multiplier) * cell;
            }
        }
        sum
    }

    /// The constant and the coefficients of each row of a disjunct of the goal, counted from 0, as
    /// they are to be shown.
    pub fn goal_rows(&self, disjunct: usize) -> Vec<&[i64]> {
        self.disjuncts[disjunct].rows().collect()
    }

    /// A witness by a disjunct of the goal, or else by a contradiction. Plain sums go first, for
    /// the search takes time where there is nothing to find.
    pub fn prove(&self) -> Attempt {
        for (disjunct, goals) in self.disjuncts.iter().enumerate() {
            let found: Option<Vec<_>> =
                goals.rows().map(|row| plain(&self.premises, row)).collect();
            if let Some(rows) = found {
                return Attempt::Proved(by_disjunct(disjunct, rows));
            }
        }
        let mut least: Option<(usize, Vec<usize>)> = None;
        for (disjunct, goals) in self.disjuncts.iter().enumerate() {
            let found: Vec<_> = goals
                .rows()
                .map(|row| combination(&self.premises, row))
                .collect();
            let lacking: Vec<usize> = (0..found.len()).filter(|&at| found[at].is_none()).collect();
            if lacking.is_empty() {
                let rows = found.into_iter().flatten().collect();
                return Attempt::Proved(by_disjunct(disjunct, rows));
            }
            if least
                .as_ref()
                .is_none_or(|(_, rows)| lacking.len() < rows.len())
            {
                least = Some((disjunct, lacking));
            }
        }
        if let Some(witness) = self.contradict() {
            return Attempt::Proved(witness);
        }
        match least {
            None => Attempt::Unreachable,
            Some((disjunct, rows)) => Attempt::Lacking { disjunct, rows },
        }
    }

    pub fn contradict(&self) -> Option<Witness> {
        contradiction(&self.premises).map(Witness::Contradiction)
    }

    /// A contradiction of at most two premises.
    pub fn contradict_plainly(&self) -> Option<Witness> {
        plain_contradiction(&self.premises).map(Witness::Contradiction)
    }

    /// A witness by this disjunct of the goal, counted from 0.
    pub fn prove_disjunct(&self, disjunct: usize) -> Option<Witness> {
        let rows = self.disjuncts[disjunct].rows();
        let found: Option<Vec<_>> = rows.map(|row| combination(&self.premises, row)).collect();
        found.map(|rows| by_disjunct(disjunct, rows))
    }

    /// A witness with splits, the fewest on a way and at most these, where no single sum does.
    pub fn prove_by_splits(&self, most: usize) -> Option<Witness> {
        match self.prove() {
            Attempt::Proved(witness) => Some(witness),
            _ => (1..=most).find_map(|depth| self.split(depth)),
        }
    }

    /// A split, with at most so many on each way, at a row of one of the goal's disjuncts: where it
    /// doesn't hold, another disjunct has to.
    fn split(&self, depth: usize) -> Option<Witness> {
        let side = |system: &System| match system.prove() {
            Attempt::Proved(witness) => Some(witness),
            _ if depth > 1 => system.split(depth - 1),
            _ => None,
        };
        self.split_rows().into_iter().find_map(|row| {
            let systems = self.sides(&row);
            let first = side(&systems[0])?;
            Some(Witness::split(row, [first, side(&systems[1])?]))
        })
    }

    /// Rows that a split may be at, the first of each disjunct first; no row twice, nor beside its
    /// other side.
    fn split_rows(&self) -> Vec<Row> {
        let mut rows: Vec<Row> = Vec::new();
        let most = self.disjuncts.iter().map(|goals| goals.rows().len()).max();
        for at in 0..most.unwrap_or(0) {
            for goals in &self.disjuncts {
                let row = goals.rows().nth(at).and_then(Row::within_limits);
                let new = |row: &Row| {
                    let same = |known: &Row| known == row || *known == row.other_side();
                    !row.is_constant() && !rows.iter().any(same)
                };
                rows.extend(row.filter(new));
            }
        }
        rows.truncate(SPLIT_ROWS);
        rows
    }

    /// The systems on the two sides of a split at this row.
    pub fn sides(&self, row: &Row) -> [System; 2] {
        row.sides().map(|side| {
            let mut system = self.clone();
            system.enter(&side);
            system
        })
    }

    /// One more premise, the last: a side of a split.
    pub fn enter(&mut self, side: &[i64]) {
        self.premises.push(side);
    }

    /// Takes the last premise away.
    pub fn leave(&mut self) {
        self.premises.pop();
    }

    /// Pairs of premises that are each other's opposite: equal multipliers for both change no sum.
    pub fn opposites(&self) -> Vec<(usize, usize)> {
        let rows: Vec<&[i64]> = self.premises.rows().collect();
        let mut pairs = Vec::new();
        for (at, row) in rows.iter().enumerate() {
            let opposite = |other: &&[i64]| other.iter().zip(*row).all(|(a, b)| *a == -*b);
            let later = rows[at + 1..].iter().position(opposite);
            pairs.extend(later.map(|offset| (at, at + 1 + offset)));
        }
        pairs
    }
}

/// The witness by a disjunct counted from 0.
fn by_disjunct(disjunct: usize, rows: Vec<Combination>) -> Witness {
    Witness::Disjunct {
        number: disjunct + 1,
        rows,
    }
}

/// The systems of all entailments, in order, or nothing if the words lack their form.
pub fn systems(program: &Program, edges: &Edges) -> Option<Vec<System>> {
    let program_words = program.words(Sharing::Shared);
    let certificate_words = edges.words(&[], Sharing::Shared);
    let program = parsed_program::Program::parse(&program_words).ok()?;
    let certificate = parsed::Certificate::parse(&program, &certificate_words).ok()?;
    let systems = entailments(&program, &certificate).map(|entailment| System {
        source: entailment.source,
        goal: match entailment.target {
            parsed::Target::Path(vertex) => Goal::Path(vertex),
            parsed::Target::Summary(procedure) => Goal::Summary(procedure),
        },
        premises: entailment.premises(),
        disjuncts: certificate
            .edges(entailment.target)
            .iter()
            .map(|disjunct| entailment.goals(disjunct))
            .collect(),
    });
    Some(systems.collect())
}

/// The certificate of these edges, if a witness is found for each entailment.
pub fn certify(program: &Program, edges: Edges) -> Option<Certificate> {
    let witnesses = systems(program, &edges)?
        .iter()
        .map(|system| system.prove_by_splits(SPLITS))
        .collect::<Option<_>>()?;
    Some(Certificate { edges, witnesses })
}
