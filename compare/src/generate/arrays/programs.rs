//! Random programs with arrays. All procedures have one form: choices lead from the first statement to each
//! of the moves behind them, most of these lead back to a choice, and the last one is an assertion that fails.

use super::{Access, AccessKind, ArrayProgram};
use crate::build::{Expression, Next, Operator, Procedure, Program, Statement};
use crate::random::Random;
use std::collections::BTreeMap;

pub const FAR: i64 = 1_000_000_000;

/// A program with 0 to 4 arrays.
pub fn program(random: &mut Random) -> ArrayProgram {
    let globals = *random.pick(&[0, 1, 1, 2, 2, 3, 4, 8]);
    let sizes = sizes(random);
    program_of(random, globals, sizes)
}

/// One whose globals and elements are at most 8 together, so that the elements may be globals too.
pub fn small_program(random: &mut Random) -> ArrayProgram {
    let globals = *random.pick(&[0, 1, 1, 2, 2, 3, 4]);
    let mut sizes = Vec::new();
    let mut left = 8 - globals;
    while left > 0 && sizes.len() < 4 && (sizes.is_empty() || random.chance(60)) {
        let size = 1 + random.below(left);
        sizes.push(size);
        left -= size;
    }
    program_of(random, globals, sizes)
}

fn program_of(random: &mut Random, globals: usize, sizes: Vec<usize>) -> ArrayProgram {
    let is_far = globals > 0 && random.chance(70);
    let far = is_far.then(|| *random.pick(&[FAR, -FAR]));
    let signatures = signatures(random);
    let mut accesses = BTreeMap::new();
    let (mut procedures, mut moves) = (Vec::new(), Vec::new());
    let mut first = 1;
    for procedure in 0..signatures.len() {
        let mut writer = Writer {
            random,
            globals,
            far,
            signatures: &signatures,
            sizes: &sizes,
            procedure,
            moves: 0,
        };
        let statements = writer.statements();
        moves.push(writer.moves);
        for (vertex, (_, access)) in (first..).zip(&statements) {
            accesses.extend(access.clone().map(|access| (vertex, access)));
        }
        first += statements.len();
        let (locals, parameters) = signatures[procedure];
        procedures.push(Procedure {
            locals,
            parameters,
            statements: statements.into_iter().map(|(plain, _)| plain).collect(),
        });
    }
    ArrayProgram {
        plain: Program::new(globals, procedures).lined(random),
        sizes,
        accesses,
        moves,
        far,
    }
}

/// Locals and parameters of each procedure.
fn signatures(random: &mut Random) -> Vec<(usize, usize)> {
    let count = 1 + random.below(4);
    let signatures = (0..count).map(|_| {
        let locals = *random.pick(&[0, 1, 1, 2, 2, 3, 4, 8]);
        (locals, random.below(locals + 1))
    });
    signatures.collect()
}

fn sizes(random: &mut Random) -> Vec<usize> {
    let count = *random.pick(&[0, 1, 1, 2, 3, 3, 4, 4]);
    let sizes = (0..count).map(|_| match random.below(8) {
        0 => 1,
        1 => 2,
        2 => 64,
        3 => 1 + random.below(64),
        _ => 3 + random.below(6),
    });
    sizes.collect()
}

type Step = (Statement, Option<Access>);

struct Writer<'r> {
    random: &'r mut Random,
    globals: usize,
    far: Option<i64>,
    signatures: &'r [(usize, usize)],
    sizes: &'r [usize],
    procedure: usize,
    /// How many its procedure has.
    moves: usize,
}

impl Writer<'_> {
    fn columns(&self) -> usize {
        self.globals + self.signatures[self.procedure].0
    }

    /// A column that may be set, if there is one.
    fn column(&mut self) -> Option<usize> {
        let first = usize::from(self.far.is_some());
        let count = self.columns() - first;
        (count > 0).then(|| first + self.random.below(count))
    }

    /// The choices and then the moves.
    fn statements(&mut self) -> Vec<Step> {
        self.moves = 4 + self.random.below(8);
        let choices = self.moves - 1;
        let columns = self.columns();
        let mut statements: Vec<Step> = (0..choices)
            .map(|at| {
                let other = if at + 1 < choices {
                    at + 1
                } else {
                    2 * choices
                };
                let nexts = [choices + at, other].map(Next::Statement);
                let any = Expression::constant(columns, 0);
                (Statement::branch(nexts, Operator::Any, any), None)
            })
            .collect();
        statements.push(self.call());
        statements.push((Statement::Skip { next: Next::Exit }, None));
        for _ in 2..choices {
            let step = self.step();
            statements.push(step);
        }
        let never = Expression::constant(columns, 0);
        let fail = Statement::assert(Next::Statement(0), Operator::NotEqual, never);
        statements.push((fail, None));
        statements
    }

    /// Mostly the first choice.
    fn back(&mut self) -> Next {
        match self.random.below(20) {
            0 => Next::Exit,
            1..=3 => Next::Statement(self.random.below(self.moves - 1)),
            _ => Next::Statement(0),
        }
    }

    fn step(&mut self) -> Step {
        let next = self.back();
        match self.random.below(20) {
            0..=5 => self.read(next),
            6..=11 => self.write(next),
            12..=14 => match self.column() {
                Some(column) => {
                    let expression = self.value();
                    (Statement::assign(next, column, expression), None)
                }
                None => (Statement::Skip { next }, None),
            },
            15 => (Statement::Skip { next }, None),
            16 | 17 => self.call(),
            18 => {
                let (other, operator) = (self.back(), self.operator());
                let expression = self.value();
                (Statement::branch([next, other], operator, expression), None)
            }
            _ => {
                let operator = self.operator();
                let expression = self.value();
                (Statement::assert(next, operator, expression), None)
            }
        }
    }

    fn operator(&mut self) -> Operator {
        Operator::ALL[1 + self.random.below(6)]
    }

    fn call(&mut self) -> Step {
        let procedure = self.random.below(self.signatures.len());
        let actuals = (0..self.signatures[procedure].1).map(|_| self.value());
        let actuals = actuals.collect();
        (Statement::call(self.back(), procedure, actuals), None)
    }

    fn read(&mut self, next: Next) -> Step {
        let access = self
            .array()
            .zip(self.column())
            .map(|(array, column)| Access {
                array,
                index: self.index(self.sizes[array]),
                kind: AccessKind::Read { column },
            });
        (Statement::Skip { next }, access)
    }

    fn write(&mut self, next: Next) -> Step {
        let access = self.array().map(|array| Access {
            array,
            index: self.index(self.sizes[array]),
            kind: AccessKind::Write {
                value: self.value(),
            },
        });
        (Statement::Skip { next }, access)
    }

    fn array(&mut self) -> Option<usize> {
        let count = self.sizes.len();
        (count > 0).then(|| self.random.below(count))
    }

    /// A constant inside the array, or a sum of columns that often is.
    fn index(&mut self, size: usize) -> Expression {
        let columns = self.columns();
        let inside = self.random.below(size) as i64;
        let (Some(x), Some(y)) = (self.column(), self.column()) else {
            return Expression::constant(columns, inside);
        };
        let few = self.random.number(0, 2);
        match (self.random.below(9), self.far) {
            (0 | 1, _) => Expression::constant(columns, inside),
            (2, Some(far)) => {
                // The constant is at most 4,000,000,000 below 0, its limit.
                let factor = *self.random.pick(&[1, -1, 4 * far.signum() as i32]);
                Expression::sum(columns, inside - i64::from(factor) * far, &[(0, factor)])
            }
            (3, _) => Expression::sum(columns, inside, &[(x, -1)]),
            (4, _) => Expression::sum(columns, few, &[(x, 2)]),
            (5, _) => Expression::sum(columns, few, &[(x, 1), (y, -1)]),
            (6, _) => Expression::sum(columns, few, &[(x, 1), (y, 1)]),
            _ => Expression::sum(columns, few, &[(x, 1)]),
        }
    }

    /// Mostly small; with global 0 up to the limit of values and beyond it.
    fn value(&mut self) -> Expression {
        let columns = self.columns();
        let constant = self.random.number(-2, 9);
        let (Some(x), Some(y)) = (self.column(), self.column()) else {
            return Expression::constant(columns, constant);
        };
        match (self.random.below(16), self.far) {
            (0, Some(_)) => Expression::sum(columns, 0, &[(0, 1_000)]),
            (1, Some(far)) => Expression::sum(columns, far.signum(), &[(0, 1_000)]),
            (2, _) => Expression::sum(columns, constant, &[(x, 3)]),
            (3 | 4, _) => Expression::sum(columns, constant, &[(x, 1), (y, -1)]),
            (5, _) => Expression::sum(columns, 0, &[(x, -1)]),
            (6..=9, _) => Expression::sum(columns, self.random.number(-1, 1), &[(x, 1)]),
            _ => Expression::constant(columns, constant),
        }
    }
}
