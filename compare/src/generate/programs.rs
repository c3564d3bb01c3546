//! Random programs. Their assertions come later, from what is known at a vertex or from a run.

use super::constants;
use crate::build::{Expression, Next, Operator, Procedure, Program, Statement};
use crate::random::Random;

/// A random program of up to four procedures.
pub fn program(random: &mut Random) -> Program {
    let globals = size(random);
    let signatures: Vec<Signature> = (0..1 + random.below(4))
        .map(|_| {
            let locals = size(random);
            Signature {
                locals,
                parameters: random.below(locals + 1),
            }
        })
        .collect();
    let has_far = random.chance(25);
    let procedures = (0..signatures.len())
        .map(|procedure| {
            let mut writer = Writer {
                random,
                has_far,
                globals,
                signatures: &signatures,
                procedure,
            };
            let body = writer.body();
            Procedure {
                locals: signatures[procedure].locals,
                parameters: signatures[procedure].parameters,
                statements: writer.with_settings(body),
            }
        })
        .collect();
    Program::new(globals, procedures).lined(random)
}

struct Signature {
    locals: usize,
    parameters: usize,
}

/// Mostly small, sometimes up to 8.
fn size(random: &mut Random) -> usize {
    match random.below(20) {
        0 => 5 + random.below(4),
        1..=3 => 3 + random.below(2),
        _ => random.below(3),
    }
}

/// Writes the statements of one procedure.
struct Writer<'r> {
    random: &'r mut Random,
    /// Whether some of the program's constants are far.
    has_far: bool,
    globals: usize,
    signatures: &'r [Signature],
    procedure: usize,
}

impl Writer<'_> {
    fn columns(&self) -> usize {
        self.globals + self.signatures[self.procedure].locals
    }

    /// Up to this size, or far.
    fn constant(&mut self, size: i64) -> i64 {
        match self.has_far && self.random.chance(40) {
            true => constants::far(self.random),
            false => self.random.number(-size, size),
        }
    }

    fn body(&mut self) -> Vec<Statement> {
        let Signature { locals, parameters } = self.signatures[self.procedure];
        if self.procedure == 0 && self.signatures.len() > 1 && self.random.chance(80) {
            return self.caller();
        }
        match self.random.below(10) {
            0 | 1 if self.columns() >= 1 => self.counting(),
            2 | 3 if parameters >= 1 && self.globals >= 1 => self.countdown(),
            4 if parameters >= 1 && self.globals >= 1 => self.setter(),
            5 if self.globals >= 2 && locals >= 1 => self.exchange(),
            _ => self.soup(),
        }
    }

    /// At times constants for some of the other locals first, without which nothing is known of
    /// them.
    fn with_settings(&mut self, body: Vec<Statement>) -> Vec<Statement> {
        let Signature { locals, parameters } = self.signatures[self.procedure];
        if parameters == locals || self.random.chance(40) {
            return body;
        }
        let count = 1 + self.random.below(locals - parameters);
        let columns = self.columns();
        let first = self.globals + parameters;
        let settings = (0..count).map(|at| {
            let size = *self.random.pick(&[0, 0, 0, 1, 7]);
            let value = Expression::constant(columns, self.constant(size));
            Statement::assign(Next::Statement(at + 1), first + at, value)
        });
        let mut statements: Vec<Statement> = settings.collect();
        statements.extend(body.into_iter().map(|statement| later(statement, count)));
        statements
    }

    /// Constants, then calls of all other procedures with statements before them.
    fn caller(&mut self) -> Vec<Statement> {
        let calls = self.signatures.len() - 1;
        let settings = match self.columns() {
            0 => 0,
            _ => self.random.below(4),
        };
        let count = settings + 2 * calls + 1;
        let mut statements = Vec::new();
        for index in 0..count {
            let next = fall_through(index, count);
            let at = index.saturating_sub(settings);
            statements.push(match at % 2 {
                _ if index < settings => self.setting(next),
                1 => self.call_of(1 + at / 2, next),
                _ => self.statement(next, index, count),
            });
        }
        statements
    }

    /// Constants first, then statements of all kinds with jumps between them, at times the same
    /// statement again, and at times statements at the end that nothing leads to.
    fn soup(&mut self) -> Vec<Statement> {
        let settings = match self.columns() {
            0 => 0,
            _ => self.random.below(3),
        };
        let count = settings + 1 + self.random.below(6);
        let islands = match self.random.chance(20) {
            true => 1 + self.random.below(2),
            false => 0,
        };
        let mut statements: Vec<Statement> = Vec::new();
        for index in 0..count + islands {
            let next = match index {
                _ if index < settings => fall_through(index, count),
                _ if index < count => self.next(index, count),
                _ => self.jump(0, count + islands),
            };
            statements.push(match index < settings {
                true => self.setting(next),
                false if index > 0 && self.random.chance(10) => {
                    statements[self.random.below(index)].clone()
                }
                false => self.statement(next, index, count),
            });
        }
        statements
    }

    /// column = 0; while (column < bound) { one statement; column = column + step; }
    fn counting(&mut self) -> Vec<Statement> {
        let columns = self.columns();
        let column = self.random.below(columns);
        let counter = |next, constant, factor| Statement::Assign {
            next: Next::Statement(next),
            column,
            expression: Expression::sum(columns, constant, &[(column, factor)]),
        };
        let bound = self.random.between(-1, 9);
        let operator = *self.random.pick(&[Operator::Less, Operator::AtMost]);
        let step = self.random.between(1, 3);
        let body = match self.random.chance(50) {
            true => self.call(Next::Statement(3)),
            false => self.statement(Next::Statement(3), 2, 4),
        };
        vec![
            counter(1, 0, 0),
            Statement::Branch {
                on_true: Next::Statement(2),
                on_false: Next::Exit,
                operator,
                expression: Expression::sum(columns, -bound, &[(column, 1)]),
            },
            body,
            counter(1, step, 1),
        ]
    }

    /// if (a > 0) { global = global + step; itself with a - 1 }
    fn countdown(&mut self) -> Vec<Statement> {
        let columns = self.columns();
        let parameters = self.signatures[self.procedure].parameters;
        let parameter = self.globals;
        let global = self.random.below(self.globals);
        let step = self.random.between(-2, 2);
        let operator = *self.random.pick(&[Operator::Greater, Operator::NotEqual]);
        let mut actuals = vec![Expression::sum(columns, -1, &[(parameter, 1)])];
        actuals.extend((1..parameters).map(|at| match self.random.chance(50) {
            true => Expression::column(columns, parameter + at),
            false => self.expression(),
        }));
        vec![
            Statement::Branch {
                on_true: Next::Statement(1),
                on_false: Next::Exit,
                operator,
                expression: Expression::column(columns, parameter),
            },
            Statement::Assign {
                next: Next::Statement(2),
                column: global,
                expression: Expression::sum(columns, step, &[(global, 1)]),
            },
            Statement::Call {
                back: *self.random.pick(&[Next::Exit, Next::Statement(3)]),
                procedure: self.procedure,
                actuals,
            },
            Statement::Skip { next: Next::Exit },
        ]
    }

    /// global = a + c; a = 0;
    fn setter(&mut self) -> Vec<Statement> {
        let columns = self.columns();
        let parameter = self.globals;
        let constant = self.constant(3);
        vec![
            Statement::Assign {
                next: Next::Statement(1),
                column: self.random.below(self.globals),
                expression: Expression::sum(columns, constant, &[(parameter, 1)]),
            },
            Statement::Assign {
                next: Next::Exit,
                column: parameter,
                expression: Expression::constant(columns, 0),
            },
        ]
    }

    /// t = x; x = y; y = t; for globals x and y.
    fn exchange(&mut self) -> Vec<Statement> {
        let columns = self.columns();
        let local = self.globals;
        let copy = |next, to, from| Statement::Assign {
            next,
            column: to,
            expression: Expression::column(columns, from),
        };
        vec![
            copy(Next::Statement(1), local, 0),
            copy(Next::Statement(2), 0, 1),
            copy(Next::Exit, 1, local),
        ]
    }

    fn setting(&mut self, next: Next) -> Statement {
        Statement::Assign {
            next,
            column: self.random.below(self.columns()),
            expression: Expression::constant(self.columns(), self.constant(9)),
        }
    }

    /// A statement of any kind but assert; jumps go to the first `count` statements.
    fn statement(&mut self, next: Next, index: usize, count: usize) -> Statement {
        match self.random.below(12) {
            0..=3 if self.columns() >= 1 => Statement::Assign {
                next,
                column: self.random.below(self.columns()),
                expression: self.expression(),
            },
            4..=6 => self.branch(next, index, count),
            7 | 8 => self.call(next),
            _ => Statement::Skip { next },
        }
    }

    fn branch(&mut self, next: Next, index: usize, count: usize) -> Statement {
        let operator = *self.random.pick(&Operator::ALL);
        let other = self.jump(index, count);
        let (on_true, on_false) = match self.random.chance(50) {
            true => (next, other),
            false => (other, next),
        };
        let expression = match operator {
            Operator::Any => Expression::constant(self.columns(), 0),
            _ => self.expression(),
        };
        Statement::Branch {
            on_true,
            on_false,
            operator,
            expression,
        }
    }

    fn call(&mut self, back: Next) -> Statement {
        // Main seldom, so that most calls return.
        let procedure = match self.random.chance(10) {
            true => 0,
            false => self.random.below(self.signatures.len()),
        };
        self.call_of(procedure, back)
    }

    fn call_of(&mut self, procedure: usize, back: Next) -> Statement {
        let actuals = (0..self.signatures[procedure].parameters)
            .map(|_| self.expression())
            .collect();
        Statement::Call {
            back,
            procedure,
            actuals,
        }
    }

    fn expression(&mut self) -> Expression {
        let columns = self.columns();
        let constant = match self.random.chance(50) {
            true => 0,
            false => self.constant(6),
        };
        let terms = match columns {
            0 => 0,
            _ => *self.random.pick(&[0, 1, 1, 1, 2, 3]),
        };
        let terms: Vec<(usize, i32)> = (0..terms)
            .map(|_| {
                let factor = *self.random.pick(&[1, 1, 1, 1, -1, -1, 2, -2, 3]);
                (self.random.below(columns), factor)
            })
            .collect();
        Expression::sum(columns, constant, &terms)
    }

    fn next(&mut self, index: usize, count: usize) -> Next {
        match self.random.chance(80) {
            true => fall_through(index, count),
            false => self.jump(index, count),
        }
    }

    /// Mostly forward from a statement, so that most procedures end.
    fn jump(&mut self, index: usize, count: usize) -> Next {
        let least = match self.random.chance(75) {
            true => (index + 1).min(count),
            false => 0,
        };
        match least + self.random.below(count + 1 - least) {
            index if index < count => Next::Statement(index),
            _ => Next::Exit,
        }
    }
}

/// The statement in a body that has so many statements before it.
fn later(mut statement: Statement, by: usize) -> Statement {
    let nexts = match &mut statement {
        Statement::Skip { next }
        | Statement::Assign { next, .. }
        | Statement::Assert { next, .. }
        | Statement::Call { back: next, .. } => vec![next],
        Statement::Branch {
            on_true, on_false, ..
        } => vec![on_true, on_false],
    };
    for next in nexts {
        if let Next::Statement(index) = next {
            *index += by;
        }
    }
    statement
}

fn fall_through(index: usize, count: usize) -> Next {
    match index + 1 < count {
        true => Next::Statement(index + 1),
        false => Next::Exit,
    }
}
