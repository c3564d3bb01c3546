//! Certificates with splits: targets of several disjuncts that no single sum shows, at an entailment
//! of each kind, and trees of every depth and shape in place of any witness.

mod changes;
mod scenes;

pub use changes::{changed, Changed};
pub use scenes::{bounded, chosen, covered, impossible, Kind, Tree};

use super::constants::LARGEST;
use super::{extremes, invariants, rounding, Pair};
use crate::build::{
    self, certify, Certificate, Disjunct, Edges, Expression, Next, Operator, Procedure, Program,
    Row, Sharing, Statement, System, Witness,
};
use crate::checker::witness::SPLITS;
use crate::random::Random;
use std::ops::Range;

const COEFFICIENT: i32 = 1_000;

/// The most words of a certificate that is made here.
const LONGEST: usize = 900_000;

/// A program and an accepted certificate with splits.
pub fn accepted(random: &mut Random) -> (Program, Certificate) {
    loop {
        let made = match random.below(20) {
            0..=8 => Some(covered(random).into_parts()),
            9 => Some(bounded(random).into_parts()),
            10 => Some(impossible(random).into_parts()),
            11 => Some(absolute(random)),
            12..=14 => invariants::accepted(random).and_then(|made| wrapped(random, made)),
            15 => {
                let made = extremes::pair(random);
                wrapped(random, made)
            }
            16 | 17 => {
                let rounded = rounding::rounded(random);
                wrapped(random, (rounded.program, rounded.certificate))
            }
            18 => {
                let made = without_columns(random);
                wrapped(random, made)
            }
            _ => invariants::accepted_by_splits(random),
        };
        if let Some(made) = made {
            return made;
        }
    }
}

pub fn pair((program, certificate): &(Program, Certificate), sharing: Sharing) -> Pair {
    Pair {
        program: program.words(sharing),
        witness: certificate.words(sharing),
    }
}

/// What a tree looks like, and how many splits are on its longest way.
#[derive(Clone, Copy, Debug, PartialEq, Eq)]
pub enum Shape {
    /// One way, and a leaf beside each of its splits.
    Comb(usize),
    /// All ways equally long.
    Full(usize),
    /// Ways of any length.
    Ragged(usize),
}

impl Shape {
    pub fn any(random: &mut Random) -> Shape {
        let depth = *random.pick(&[1, 2, 3, 4, 5, 6, 7, SPLITS, SPLITS]);
        match random.below(4) {
            0 => Shape::Full(depth),
            1 => Shape::Ragged(depth),
            _ => Shape::Comb(depth),
        }
    }

    pub fn depth(self) -> usize {
        match self {
            Shape::Comb(depth) | Shape::Full(depth) | Shape::Ragged(depth) => depth,
        }
    }
}

/// What the leaves of a tree show.
#[derive(Clone, Copy)]
pub enum Leaves<'a> {
    /// The same, and no split is needed.
    Given(&'a Witness),
    Cover(&'a Cover),
}

/// Disjuncts of a goal side by side, counted from 0, and the rows between them: a row is at most 0
/// just where one of the disjuncts before it holds. A part without a disjunct is impossible.
#[derive(Clone, Debug)]
pub struct Cover {
    pub order: Vec<Option<usize>>,
    pub cuts: Vec<Row>,
}

/// A tree for the system, if its shape has enough splits.
pub fn tree(random: &mut Random, system: &System, leaves: Leaves, shape: Shape) -> Option<Witness> {
    let all = match leaves {
        Leaves::Given(_) => 1,
        Leaves::Cover(cover) => cover.order.len(),
    };
    let mut growth = Growth {
        random,
        system: system.clone(),
        leaves,
        shape,
        above: Vec::new(),
    };
    growth.grow(0..all)
}

/// A tree while it grows.
struct Growth<'a> {
    random: &'a mut Random,
    /// With a premise for each of the splits above.
    system: System,
    leaves: Leaves<'a>,
    shape: Shape,
    /// The rows of the splits above.
    above: Vec<Row>,
}

impl Growth<'_> {
    /// A witness that shows one of these parts of the cover.
    fn grow(&mut self, range: Range<usize>) -> Option<Witness> {
        let left = self.shape.depth() - self.above.len();
        let ends = match self.shape {
            Shape::Ragged(_) if self.above.is_empty() => false,
            Shape::Ragged(_) => range.len() == 1 && self.random.chance(40),
            _ => false,
        };
        if left == 0 || ends {
            return (range.len() == 1).then(|| self.leaf(range.start))?;
        }
        let needed = match self.shape {
            Shape::Comb(_) => range.len() > 1,
            _ => range.len() > 1 && (splits_for(range.len()) >= left || self.random.chance(50)),
        };
        let (row, ranges) = match (self.leaves, needed) {
            (Leaves::Cover(cover), true) => {
                let cut = self.cut(&range, left)?;
                let ranges = [range.start..cut + 1, cut + 1..range.end];
                (cover.cuts[cut].clone(), ranges)
            }
            _ => (self.needless_row(), [range.clone(), range]),
        };
        // A comb goes on where there is more to show.
        let spine = match ranges[0].len().cmp(&ranges[1].len()) {
            std::cmp::Ordering::Less => 1,
            std::cmp::Ordering::Greater => 0,
            std::cmp::Ordering::Equal => self.random.below(2),
        };
        let mut witnesses = Vec::new();
        for (at, (side, range)) in row.sides().into_iter().zip(ranges).enumerate() {
            self.system.enter(&side);
            self.above.push(row.clone());
            let witness = match self.shape {
                Shape::Comb(_) if at != spine => self.leaf(range.start),
                _ => self.grow(range),
            };
            self.above.pop();
            self.system.leave();
            witnesses.push(witness?);
        }
        let [first, second] = witnesses.try_into().ok()?;
        Some(Witness::split(row, [first, second]))
    }

    /// Which cut to split at, so that the splits that are left are enough on both sides.
    fn cut(&mut self, range: &Range<usize>, left: usize) -> Option<usize> {
        let cuts: Vec<usize> = match self.shape {
            Shape::Comb(_) => vec![range.start, range.end - 2],
            _ => (range.start..range.end - 1)
                .filter(|cut| {
                    let larger = (cut + 1 - range.start).max(range.end - cut - 1);
                    splits_for(larger) < left
                })
                .collect(),
        };
        (!cuts.is_empty()).then(|| *self.random.pick(&cuts))
    }

    /// Any row: one without coefficients, one at the limits, or one that was split at above.
    fn needless_row(&mut self) -> Row {
        let columns = self.system.columns();
        let constant = *self.random.pick(&[0, 0, 1, -1, 7, LARGEST, -LARGEST]);
        let mut row = Row::constant(columns, constant);
        let again = self.above.last().filter(|_| self.random.chance(20));
        match (again, columns) {
            (Some(row), _) => return again_at(self.random, row),
            (None, 0) => {}
            (None, _) => match self.random.below(4) {
                0 => {}
                1 => {
                    let limits = [COEFFICIENT, -COEFFICIENT];
                    for cell in &mut row.coefficients {
                        *cell = *self.random.pick(&limits);
                    }
                }
                2 => {
                    for cell in &mut row.coefficients {
                        *cell = self.random.between(-COEFFICIENT, COEFFICIENT);
                    }
                }
                _ => {
                    let column = self.random.below(columns);
                    row.coefficients[column] = *self.random.pick(&[1, -1, 2, COEFFICIENT]);
                    row.constant = self.random.number(-9, 9);
                }
            },
        }
        row
    }

    fn leaf(&mut self, at: usize) -> Option<Witness> {
        let absurd = match self.random.chance(50) {
            true => self.system.contradict_plainly(),
            false => None,
        };
        let shown = absurd.or_else(|| match self.leaves {
            Leaves::Given(witness) => Some(witness.deeper(self.above.len())),
            Leaves::Cover(cover) => self.system.prove_disjunct(cover.order[at]?),
        });
        let mut leaf = shown.or_else(|| self.system.contradict())?;
        invariants::vary(self.random, &self.system, &mut leaf);
        self.add_what_changes_nothing(&mut leaf);
        Some(leaf)
    }

    /// Any multipliers for split rows without coefficients that don't lower a sum.
    fn add_what_changes_nothing(&mut self, leaf: &mut Witness) {
        let first = self.system.premise_count() - self.above.len();
        for premise in first..self.system.premise_count() {
            let row = self.system.premise(premise);
            let free = row[0] >= 0 && row[1..].iter().all(|&cell| cell == 0);
            if free && self.random.chance(50) {
                for multipliers in leaf.multipliers_mut() {
                    multipliers[premise] = self.random.between(multipliers[premise], 1_000);
                }
            }
        }
    }
}

/// The row again, or its other side.
fn again_at(random: &mut Random, row: &Row) -> Row {
    let other = row.other_side();
    match other.constant.abs() <= LARGEST && random.chance(50) {
        true => other,
        false => row.clone(),
    }
}

/// How many splits on a way it takes to tell so many apart.
fn splits_for(count: usize) -> usize {
    count.next_power_of_two().trailing_zeros() as usize
}

/// The certificate with trees in place of some of its witnesses.
pub fn wrapped(
    random: &mut Random,
    (program, mut certificate): (Program, Certificate),
) -> Option<(Program, Certificate)> {
    let systems = build::systems(&program, &certificate.edges)?;
    for _ in 0..1 + random.below(3) {
        let at = random.below(systems.len());
        let given = certificate.witnesses[at].clone();
        if given.depth() > 0 {
            continue;
        }
        let shape = Shape::any(random);
        let tree = tree(random, &systems[at], Leaves::Given(&given), shape)?;
        certificate.witnesses[at] = tree;
    }
    let words: usize = certificate.witnesses.iter().map(Witness::length).sum();
    (words < LONGEST).then_some((program, certificate))
}

/// Skips without variables, where the row of a split is its constant alone.
fn without_columns(random: &mut Random) -> (Program, Certificate) {
    let main = Procedure {
        locals: 0,
        parameters: 0,
        statements: vec![Statement::Skip {
            next: *random.pick(&[Next::Statement(0), Next::Exit]),
        }],
    };
    let program = Program::new(0, vec![main]).lined(random);
    let mut anything = || vec![Disjunct::new(); 1 + random.below(8)];
    let edges = Edges {
        path: vec![anything(), anything()],
        summaries: vec![anything()],
    };
    let certificate = certify(&program, edges).expect("each entailment has a witness");
    (program, certificate)
}

/// y = |x|, from which it is forgotten how y was set: y is at least x and at least −x, and then x is
/// at most some number and y at least −x, or x is above it and y at least x.
fn absolute(random: &mut Random) -> (Program, Certificate) {
    const X: usize = 0;
    const Y: usize = 1;
    const COLUMNS: usize = 2;
    let at = |statement| Next::Statement(statement);
    let x = |sign| Expression::sum(COLUMNS, 0, &[(X, sign)]);
    let globals = random.below(3);
    let locals = COLUMNS - globals;
    let main = Procedure {
        locals,
        parameters: random.below(locals + 1),
        statements: vec![
            Statement::branch([at(1), at(2)], Operator::AtLeast, x(1)),
            Statement::assign(at(3), Y, x(1)),
            Statement::assign(at(3), Y, x(-1)),
            Statement::Skip { next: at(4) },
            Statement::Skip { next: at(4) },
        ],
    };
    let program = Program::new(globals, vec![main]).lined(random);
    let row = |constant, terms: &[(usize, i32)]| {
        let terms: Vec<_> = terms.iter().map(|(at, by)| (COLUMNS + at, *by)).collect();
        Row::sum(2 * COLUMNS, constant, &terms)
    };
    let least = |sign| row(0, &[(X, sign), (Y, -1)]);
    let border = random.between(-9, 9);
    let (below, above) = (row(-border, &[(X, 1)]), row(border + 1, &[(X, -1)]));
    let mut disjuncts = vec![vec![below, least(-1)], vec![above, least(1)]];
    if random.chance(50) {
        disjuncts.reverse();
    }
    let edges = Edges {
        path: vec![
            vec![Disjunct::new()],
            vec![vec![row(0, &[(X, -1)])]],
            vec![vec![row(1, &[(X, 1)])]],
            vec![vec![least(1), least(-1)]],
            disjuncts,
            Vec::new(),
        ],
        summaries: vec![Vec::new()],
    };
    let certificate = certify(&program, edges).expect("each entailment has a witness");
    (program, certificate)
}
