//! Certificates that a far constant decides: accepted as it is, and refused where it is off.

use super::{far, LARGEST};
use crate::build::Next::{Exit, Statement as At};
use crate::build::{
    systems, Attempt, Certificate, Disjunct, Edges, Expression, Operator, Procedure, Program, Row,
    Statement, Witness,
};
use crate::checker::Answer;
use crate::generate::certificates::sharing;
use crate::generate::{judged, Pair};
use crate::random::Random;

/// Where the constant stands.
#[derive(Clone, Copy, Debug, PartialEq, Eq, PartialOrd, Ord)]
pub enum Place {
    /// Of an assignment.
    Value,
    Branch,
    Assertion,
    Actual,
    PathRow,
    SummaryRow,
    SplitRow,
}

impl Place {
    pub const ALL: [Place; 7] = [
        Place::Value,
        Place::Branch,
        Place::Assertion,
        Place::Actual,
        Place::PathRow,
        Place::SummaryRow,
        Place::SplitRow,
    ];
}

/// A certificate, and the same with the constant off.
pub struct Decided {
    pub place: Place,
    pub accepted: (Pair, Answer),
    pub refused: (Pair, Answer),
}

/// One with its constant at this place.
pub fn decided(random: &mut Random, place: Place) -> Decided {
    let claim = Claim::new(random);
    let [accepted, refused] = [0, claim.off].map(|off| {
        let scene = match place {
            Place::Value => claim.value(off),
            Place::Branch => claim.branch(off),
            Place::Assertion => claim.assertion(off),
            Place::Actual => claim.actual(off),
            Place::PathRow => claim.path_row(off),
            Place::SummaryRow => claim.summary_row(off),
            Place::SplitRow => claim.split_row(off),
        };
        scene.judged(random)
    });
    Decided {
        place,
        accepted,
        refused,
    }
}

/// sign × (x − weight × other) is at most sign × constant; by `off` less would be too little.
#[derive(Clone, Copy)]
struct Claim {
    globals: usize,
    locals: usize,
    x: usize,
    /// Another column and its weight.
    other: Option<(usize, i32)>,
    constant: i64,
    sign: i32,
    off: i64,
    multiplier: i32,
    operator: Operator,
}

impl Claim {
    fn new(random: &mut Random) -> Claim {
        let columns = 1 + random.below(16);
        let locals = random.between(columns.saturating_sub(8) as i32, columns.min(8) as i32);
        let x = random.below(columns);
        let other = (x + 1) % columns;
        let weight = *random.pick(&[1, -1, 7, 999, 1_000, -1_000]);
        let constant = far(random);
        // Away from the limit.
        let sign = match constant.abs() == LARGEST {
            true => constant.signum(),
            false => *random.pick(&[1, -1]),
        };
        let offs = [1, 1, 2, 1_000_000, 1 << 32];
        let off = *random.pick(&offs.map(|off| match off - sign * constant <= LARGEST {
            true => off,
            false => 1,
        }));
        let operators = [
            Operator::AtMost,
            Operator::AtLeast,
            Operator::Less,
            Operator::Greater,
        ];
        let most = if constant.abs() == LARGEST { 2 } else { 4 };
        Claim {
            globals: columns - locals as usize,
            locals: locals as usize,
            x,
            other: (other != x && random.chance(50)).then_some((other, weight)),
            constant,
            sign: sign as i32,
            off,
            multiplier: *random.pick(&[1, 2, 999, 1_000]),
            operator: operators[random.below(most)],
        }
    }

    fn columns(&self) -> usize {
        self.globals + self.locals
    }

    /// What is at most 0 where the claim holds, with these columns behind so many others.
    fn row(&self, width: usize, before: usize, off: i64) -> Row {
        let mut terms = vec![(before + self.x, self.sign)];
        terms.extend(self.other_term(before, -self.sign));
        Row::sum(width, off - i64::from(self.sign) * self.constant, &terms)
    }

    fn other_term(&self, before: usize, sign: i32) -> Option<(usize, i32)> {
        self.other
            .map(|(column, weight)| (before + column, sign * weight))
    }

    /// The same of the columns now.
    fn now(&self, off: i64) -> Disjunct {
        vec![self.row(2 * self.columns(), self.columns(), off)]
    }

    /// What x is set to.
    fn value_of(&self) -> Expression {
        let terms: Vec<(usize, i32)> = self.other_term(0, 1).into_iter().collect();
        Expression::sum(self.columns(), self.constant, &terms)
    }

    fn main(&self, statements: Vec<Statement>) -> Program {
        let main = Procedure {
            locals: self.locals,
            parameters: self.locals / 2,
            statements,
        };
        Program::new(self.globals, vec![main])
    }

    /// x is set, and the claim holds behind that.
    fn value(&self, off: i64) -> Scene {
        let set = Statement::assign(At(1), self.x, self.value_of());
        let program = self.main(vec![set, circle(1)]);
        Scene::new(program, vec![anything(), vec![self.now(off)], never()])
    }

    /// A branch on the claim, which holds on its true side.
    fn branch(&self, off: i64) -> Scene {
        let columns = self.columns();
        let branch = Statement::branch([At(1), At(0)], Operator::AtMost, self.row(columns, 0, 0));
        let program = self.main(vec![branch, circle(1)]);
        Scene::new(program, vec![anything(), vec![self.now(off)], never()])
    }

    /// An assertion that follows from the claim.
    fn assertion(&self, off: i64) -> Scene {
        let row = self.row(self.columns(), 0, off);
        let opposite = Expression {
            constant: -row.constant,
            ..row.other_side()
        };
        let moved = |expression: Expression, by: i64| Expression {
            constant: expression.constant + by,
            ..expression
        };
        let condition = match self.operator {
            Operator::AtLeast => opposite,
            Operator::Less => moved(row, -1),
            Operator::Greater => moved(opposite, 1),
            _ => row,
        };
        let set = Statement::assign(At(1), self.x, self.value_of());
        let assertion = Statement::assert(At(2), self.operator, condition);
        let program = self.main(vec![set, assertion, circle(2)]);
        let path = vec![anything(), vec![self.now(0)], anything(), never()];
        Scene::new(program, path)
    }

    /// A call of a procedure that never ends, with x as its parameter, in which the claim holds.
    fn actual(&self, off: i64) -> Scene {
        let claim = Claim {
            // Of main's columns the callee knows the globals alone.
            other: self.other.filter(|(column, _)| *column < self.globals),
            ..*self
        };
        let main = Procedure {
            locals: self.locals,
            parameters: 0,
            statements: vec![Statement::call(Exit, 1, vec![claim.value_of()])],
        };
        let callee = Procedure {
            locals: 1,
            parameters: 1,
            statements: vec![circle(0)],
        };
        let in_callee = Claim {
            locals: 1,
            x: self.globals,
            ..claim
        };
        let program = Program::new(self.globals, vec![main, callee]);
        let path = vec![anything(), vec![in_callee.now(off)], never(), never()];
        Scene::new(program, path)
    }

    /// A row of a statement that nothing leads to, and what follows from it.
    fn path_row(&self, off: i64) -> Scene {
        let program = self.main(vec![circle(0), circle(2), circle(2)]);
        let path = vec![anything(), vec![self.now(0)], vec![self.now(off)], never()];
        Scene::new(program, path)
    }

    /// A row of an exit that nothing leads to, and the summary's, both of globals alone.
    fn summary_row(&self, off: i64) -> Scene {
        let claim = Claim {
            globals: self.columns().min(8),
            locals: 0,
            x: 0,
            other: None,
            ..*self
        };
        let program = claim.main(vec![circle(0)]);
        let mut scene = Scene::new(program, vec![anything(), vec![claim.now(0)]]);
        scene.edges.summaries = vec![vec![claim.now(off)]];
        scene
    }

    /// Two splits at the start, on the claim and, where it doesn't hold, on it again: the first side of
    /// that is impossible. The constant of the second side may be by 1 beyond the limit.
    fn split_row(&self, off: i64) -> Scene {
        let columns = self.columns();
        let holds = Witness::Disjunct {
            number: 1,
            rows: Vec::new(),
        };
        let absurd = Witness::Contradiction(vec![self.multiplier; 2]);
        let again = Witness::split(self.row(columns, 0, 0), [absurd, holds.clone()]);
        let tree = Witness::split(self.row(columns, 0, off), [holds, again]);
        let program = self.main(vec![circle(0)]);
        Scene {
            start: Some((tree, off == 0)),
            ..Scene::new(program, vec![anything(), never()])
        }
    }
}

fn circle(at: usize) -> Statement {
    Statement::Skip { next: At(at) }
}

fn anything() -> Vec<Disjunct> {
    vec![Disjunct::new()]
}

fn never() -> Vec<Disjunct> {
    Vec::new()
}

/// A program and edges, whose entailments have witnesses or none.
struct Scene {
    program: Program,
    edges: Edges,
    /// The witness of the start and whether it fits, where it isn't to be found.
    start: Option<(Witness, bool)>,
}

impl Scene {
    /// One without summary edges.
    fn new(program: Program, path: Vec<Vec<Disjunct>>) -> Scene {
        let summaries = vec![never(); program.procedures.len()];
        Scene {
            program,
            edges: Edges { path, summaries },
            start: None,
        }
    }

    /// Safe, or refused with 7 at the first entailment without a witness.
    fn judged(self, random: &mut Random) -> (Pair, Answer) {
        let systems = systems(&self.program, &self.edges).expect("the words have their form");
        let mut found: Vec<(Witness, bool)> = systems
            .iter()
            .map(|system| match system.prove() {
                Attempt::Proved(witness) => (witness, true),
                _ => (
                    Witness::Contradiction(vec![1; system.premise_count()]),
                    false,
                ),
            })
            .collect();
        if let Some(start) = self.start {
            found[0] = start;
        }
        let failing = found.iter().position(|(_, fits)| !fits);
        let witnesses: Vec<Witness> = found.into_iter().map(|(witness, _)| witness).collect();
        let certificate = Certificate {
            edges: self.edges,
            witnesses,
        };
        let program = self.program.lined(random);
        judged(&program, &certificate, failing, sharing(random))
    }
}
