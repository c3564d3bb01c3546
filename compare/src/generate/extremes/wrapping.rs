//! Sums and products that would be others if they were cut to 32 bits.

use super::COEFFICIENT;
use crate::build::{
    Certificate, Combination, Disjunct, Edges, Expression, Next, Procedure, Program, Row, Sharing,
    Statement, Witness,
};
use crate::checker::Answer;
use crate::generate::Pair;
use crate::random::Random;

/// Pairs that would be answered otherwise if a sum or a product were cut to 32 bits.
///
/// Main has the global x, calls f with eight equal actuals and returns to a skip; f never ends.
pub fn wrapping(random: &mut Random) -> (Pair, Answer) {
    // 2^32 as a weighted sum: 1,000 × 4,294,967 + 296, and 2^23 × 512.
    let thousandfold = Expression::sum(1, 0, &[(0, COEFFICIENT)]);
    let far = |sign: i32| Expression::constant(1, sign * 1_000_000);
    let multipliers = vec![COEFFICIENT, 1];
    let divided = |divisor| Witness::Disjunct {
        number: 1,
        rows: vec![Combination {
            divisor,
            multipliers: Vec::new(),
        }],
    };
    let plain = divided(1);
    // Summary columns x, f's parameters, x at exit; f's path columns x, its parameters, x, them.
    let summary = |constant, terms: &[(usize, i32)]| Row::sum(10, constant, terms);
    let path = |constant, terms: &[(usize, i32)]| Row::sum(18, constant, terms);
    let thousands = |weights: &[i32]| -> Vec<(usize, i32)> {
        let weights = weights.iter().enumerate();
        weights.map(|(at, weight)| (1 + at, *weight)).collect()
    };
    let coefficients = [
        vec![(0, 967)],
        thousands(&[1_000, 1_000, 1_000, 1_000, 294]),
    ]
    .concat();
    let entry_coefficients = [thousands(&[1_000; 8]), vec![(9, 608), (10, 388)]].concat();
    let wrapped = match random.below(6) {
        // The sum of the coefficients of x before the call is 2^32, the goal's 0.
        0 => Wrapped {
            actual: thousandfold,
            summary: vec![summary(0, &coefficients), summary(0, &[(0, 296), (9, 1)])],
            back: Some(Witness::Disjunct {
                number: 1,
                rows: vec![Combination {
                    divisor: 1,
                    multipliers,
                }],
            }),
            first: None,
            entry: plain,
            fails: Some(2),
        },
        // The sum of the constants is 1 - 2^32.
        1 => Wrapped {
            actual: far(-1),
            summary: vec![summary(-294_967, &[(1, 4)]), summary(999_705, &[(1, 1)])],
            back: Some(Witness::Contradiction(multipliers)),
            first: None,
            entry: plain,
            fails: Some(2),
        },
        // The sum of the constants is 3,000,000,001.
        2 => Wrapped {
            actual: far(1),
            summary: vec![summary(0, &[(1, 3)]), summary(-999_999, &[(1, 1)])],
            back: Some(Witness::Contradiction(multipliers)),
            first: None,
            entry: plain,
            fails: None,
        },
        // 512 times the goal's coefficient is 2^32, the sum's 0.
        3 => Wrapped {
            actual: thousandfold,
            summary: Vec::new(),
            back: None,
            first: Some(path(0, &entry_coefficients)),
            entry: divided(512),
            fails: Some(1),
        },
        // 512 times the goal's constant is 2^32.
        4 => Wrapped {
            actual: far(1),
            summary: Vec::new(),
            back: None,
            first: Some(path(388_608, &[(1, 8)])),
            entry: divided(512),
            fails: Some(1),
        },
        // 1,000 times the goal's constant is -3,000,000,000.
        _ => Wrapped {
            actual: far(-1),
            summary: Vec::new(),
            back: None,
            first: Some(path(0, &[(1, 3)])),
            entry: divided(1_000),
            fails: None,
        },
    };
    wrapped.pair()
}

struct Wrapped {
    actual: Expression,
    /// The rows of f's summary edge, if it has one, and the return's witness.
    summary: Disjunct,
    back: Option<Witness>,
    /// The row of the path edge of f's first vertex, and the call entry's witness.
    first: Option<Row>,
    entry: Witness,
    /// The entailment, counted from 0, that is refused with 7.
    fails: Option<usize>,
}

impl Wrapped {
    fn pair(self) -> (Pair, Answer) {
        let main = Procedure {
            locals: 0,
            parameters: 0,
            statements: vec![
                Statement::Call {
                    back: Next::Statement(1),
                    procedure: 1,
                    actuals: vec![self.actual; 8],
                },
                Statement::Skip {
                    next: Next::Statement(1),
                },
            ],
        };
        let callee = Procedure {
            locals: 8,
            parameters: 8,
            statements: vec![Statement::Skip {
                next: Next::Statement(0),
            }],
        };
        let program = Program::new(1, vec![main, callee]);
        let anything = Witness::Disjunct {
            number: 1,
            rows: Vec::new(),
        };
        let same = Witness::Disjunct {
            number: 1,
            rows: vec![Combination {
                divisor: 1,
                multipliers: vec![1],
            }],
        };
        // The return point's row says x ≤ 0.
        let (returned, summaries) = match self.back {
            Some(_) => (vec![vec![Row::column(2, 1)]], vec![self.summary]),
            None => (Vec::new(), Vec::new()),
        };
        let mut witnesses = vec![anything.clone()];
        witnesses.push(match self.first {
            Some(_) => self.entry,
            None => anything.clone(),
        });
        if let Some(witness) = self.back {
            witnesses.extend([witness, same.clone()]);
        }
        witnesses.push(match self.first {
            Some(_) => same,
            None => anything,
        });
        let edges = Edges {
            path: vec![
                vec![Disjunct::new()],
                returned,
                vec![self.first.into_iter().collect()],
                Vec::new(),
                Vec::new(),
            ],
            summaries: vec![Vec::new(), summaries],
        };
        let before: usize = witnesses[self.fails.unwrap_or(0)..]
            .iter()
            .map(|witness| witness.words().len())
            .sum();
        let count = witnesses.len() as u64;
        let pair = Pair {
            program: program.words(Sharing::Apart),
            witness: Certificate { edges, witnesses }.words(Sharing::Apart),
        };
        let answer = match self.fails {
            Some(_) => Answer::refused(7, (pair.witness.len() - before) as u64),
            None => Answer::Safe(count),
        };
        (pair, answer)
    }
}
