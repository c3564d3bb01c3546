//! Accepted certificates whose program has a `?` branch, conditions for it, and the wrong ways to put
//! one in.

mod islands;
mod large;
mod wrong;

pub use large::largest;
pub use wrong::Wrong;

use super::constants::{far, LARGEST};
use super::splits::{self, Leaves, Shape};
use super::{certificates, invariants, programs, statement_at, Pair};
use crate::build::{
    systems, Certificate, Combination, Disjunct, Expression, Next, Operator, Program, Sharing,
    Statement, Witness,
};
use crate::checker::certificate::LARGEST as LARGEST_CERTIFICATE;
use crate::checker::entailment::cases;
use crate::checker::row::Form;
use crate::convert::{to_sparse, Writing};
use crate::definite::Condition;
use crate::random::Random;
use std::ops::Range;

const COEFFICIENT: i32 = 1_000;

/// A program with a `?` branch, and an accepted certificate.
#[derive(Clone, Debug)]
pub struct Choice {
    pub program: Program,
    pub certificate: Certificate,
    /// The `?` branch.
    pub vertex: usize,
    /// The branch's entailments, counted from 0.
    pub entailments: Range<usize>,
}

/// A `?` branch of any kind, about half of them with trees.
pub fn choice(random: &mut Random) -> Choice {
    loop {
        let made = match random.below(8) {
            0..=2 => generated(random),
            3..=5 => Some(islands::island(random)),
            _ => {
                let (program, certificate) = splits::chosen(random).into_parts();
                Choice::of(program, certificate, 1)
            }
        };
        let made = made.and_then(|made| match random.chance(50) {
            true => made.with_trees(random),
            false => Some(made),
        });
        if let Some(made) = made {
            return made;
        }
    }
}

/// A random program with a `?` in the place of one of its statements.
fn generated(random: &mut Random) -> Option<Choice> {
    let mut program = programs::program(random);
    let vertex = 1 + random.below(program.statement_count());
    let (procedure, own) = program.vertices().nth(vertex - 1)?;
    let count = program.procedures[procedure].statements.len();
    let columns = program.columns(procedure);
    let next = |index: usize| match index < count {
        true => Next::Statement(index),
        false => Next::Exit,
    };
    let behind = match own {
        Next::Statement(index) => next(index + 1),
        Next::Exit => Next::Exit,
    };
    let mut nexts = [behind, next(random.below(count + 1))];
    if random.chance(50) {
        nexts.reverse();
    }
    *statement_at(&mut program, vertex) = choice_of(nexts, columns);
    let (program, certificate) = invariants::certified(random, program, 0)?;
    Choice::of(program, certificate, vertex)
}

/// A branch on `?`.
fn choice_of(nexts: [Next; 2], columns: usize) -> Statement {
    Statement::branch(nexts, Operator::Any, Expression::constant(columns, 0))
}

impl Choice {
    fn of(program: Program, certificate: Certificate, vertex: usize) -> Option<Choice> {
        let sources = systems(&program, &certificate.edges)?;
        let is_own = |at: &usize| sources[*at].source == vertex;
        let first = (0..sources.len()).find(is_own).unwrap_or(sources.len());
        let count = (first..sources.len()).take_while(is_own).count();
        Some(Choice {
            program,
            certificate,
            vertex,
            entailments: first..first + count,
        })
    }

    /// k at the branch.
    pub fn columns(&self) -> usize {
        let procedure = self.program.vertices().nth(self.vertex - 1);
        self.program.columns(procedure.expect("a statement").0)
    }

    pub fn disjuncts(&self) -> &[Disjunct] {
        &self.certificate.edges.path[self.vertex - 1]
    }

    /// The witnesses of the branch's entailments.
    pub fn witnesses(&self) -> &[Witness] {
        &self.certificate.witnesses[self.entailments.clone()]
    }

    pub fn has_trees(&self) -> bool {
        self.witnesses().iter().any(|witness| witness.depth() > 0)
    }

    /// How many lists of multipliers the branch's entailments have.
    pub fn lists(&self) -> usize {
        let witnesses = self.witnesses().iter().cloned();
        let lists = witnesses.map(|mut witness| witness.multipliers_mut().len());
        lists.sum()
    }

    /// With a tree in the place of at least one of the branch's witnesses, if there is one.
    fn with_trees(mut self, random: &mut Random) -> Option<Choice> {
        let systems = systems(&self.program, &self.certificate.edges)?;
        let range = self.entailments.clone();
        let wanted = range.start + random.below(range.len().max(1));
        for at in range {
            let given = self.certificate.witnesses[at].clone();
            if given.depth() > 0 || at != wanted && random.chance(60) {
                continue;
            }
            let shape = shape(random, given.length());
            let tree = splits::tree(random, &systems[at], Leaves::Given(&given), shape)?;
            self.certificate.witnesses[at] = tree;
        }
        Some(self)
    }

    /// The program with this condition, and the certificate with multipliers 0 for each case's guard
    /// rows, right behind those of the disjunct's. All cases of a side have the witness of the side.
    pub fn decided(&self, condition: &Condition) -> (Program, Certificate) {
        let (mut program, mut certificate) = (self.program.clone(), self.certificate.clone());
        let statement = statement_at(&mut program, self.vertex);
        if let Statement::Branch {
            operator,
            expression,
            ..
        } = statement
        {
            (*operator, *expression) = (condition.operator, condition.expression.clone());
        }
        let sides = [condition.operator, condition.operator.opposite()];
        let mut witnesses = Vec::new();
        for (disjunct, own) in self.disjuncts().iter().zip(self.witnesses().chunks(2)) {
            for (witness, side) in own.iter().zip(sides) {
                let cases = cases(side).iter();
                witnesses.extend(cases.map(|rows| guarded(witness, disjunct.len(), rows.len())));
            }
        }
        let own = self.entailments.clone();
        certificate.witnesses.splice(own, witnesses);
        (program, certificate)
    }

    /// Its words. Rows of the program and entries of the certificate share words or don't.
    pub fn pair(&self, rows: Sharing, entries: Sharing) -> Pair {
        Pair {
            program: self.program.words(rows),
            witness: self.certificate.words(entries),
        }
    }

    /// The same with words that nobody reads, at times.
    pub fn scattered(&self, random: &mut Random) -> Pair {
        let entries = certificates::sharing(random);
        let mut pair = self.pair(Sharing::Apart, entries);
        certificates::scatter(random, &mut pair);
        pair
    }
}

/// A dense certificate in this form, by the second converter.
pub fn in_form(dense: Pair, form: Form) -> Pair {
    if form == Form::Dense {
        return dense;
    }
    let mut words = vec![0; LARGEST_CERTIFICATE];
    let writing = to_sparse(&dense.program, &dense.witness, &mut words);
    let Writing::Written(count) = writing else {
        panic!("{writing}");
    };
    Pair {
        witness: words[..count as usize].to_vec(),
        ..dense
    }
}

/// A shape for a tree whose leaves have about so many words.
fn shape(random: &mut Random, words: usize) -> Shape {
    match (words, random.below(4)) {
        (200.., _) => Shape::Comb(1 + random.below(2)),
        (_, 0) => Shape::Full(1 + random.below(3)),
        (_, 1) => Shape::Ragged(1 + random.below(4)),
        _ => Shape::Comb(1 + random.below(8)),
    }
}

/// The witness with so many multipliers 0 put in at this place of each list.
fn guarded(witness: &Witness, at: usize, count: usize) -> Witness {
    let longer = |multipliers: &[i32]| {
        let (rows, splits) = multipliers.split_at(at);
        [rows, &vec![0; count], splits].concat()
    };
    match witness {
        Witness::Contradiction(multipliers) => Witness::Contradiction(longer(multipliers)),
        Witness::Disjunct { number, rows } => Witness::Disjunct {
            number: *number,
            rows: rows
                .iter()
                .map(|row| Combination {
                    divisor: row.divisor,
                    multipliers: longer(&row.multipliers),
                })
                .collect(),
        },
        Witness::Split { row, witnesses } => {
            let sides = [0, 1].map(|side| guarded(&witnesses[side], at, count));
            Witness::split(row.clone(), sides)
        }
    }
}

/// A condition with this operator: any, at the limits, or about nothing.
pub fn condition(random: &mut Random, operator: Operator, columns: usize) -> Condition {
    let distant = far(random);
    let constant = *random.pick(&[0, LARGEST, -LARGEST, 1, -1, 600, distant]);
    let mut expression = Expression::constant(columns, constant);
    let sort = random.below(5);
    for cell in &mut expression.coefficients {
        *cell = match sort {
            0 => 0,
            1 => *random.pick(&[COEFFICIENT, -COEFFICIENT]),
            2 => *random.pick(&[0, 0, 1, -1]),
            3 => *random.pick(&[0, COEFFICIENT, -COEFFICIENT]),
            _ => random.between(-COEFFICIENT, COEFFICIENT),
        };
    }
    Condition {
        operator,
        expression,
    }
}
