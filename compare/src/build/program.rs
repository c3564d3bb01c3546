//! Programs and their words.

use super::{place, spelling, Sharing};
use crate::checker::linear::{Linear, COEFFICIENTS, CONSTANT_LIMIT};
pub use crate::checker::program::Operator;

/// A program; its first procedure is main.
#[derive(Clone, Debug)]
pub struct Program {
    pub globals: usize,
    pub procedures: Vec<Procedure>,
    /// The lines of its statements, by rising vertex number; those that aren't there are 0.
    pub lines: Vec<i32>,
}

#[derive(Clone, Debug)]
pub struct Procedure {
    pub locals: usize,
    pub parameters: usize,
    pub statements: Vec<Statement>,
}

#[derive(Clone, Debug, PartialEq, Eq)]
pub enum Statement {
    Skip {
        next: Next,
    },
    Assign {
        next: Next,
        column: usize,
        expression: Expression,
    },
    Branch {
        on_true: Next,
        on_false: Next,
        operator: Operator,
        expression: Expression,
    },
    Assert {
        next: Next,
        operator: Operator,
        expression: Expression,
    },
    Call {
        back: Next,
        procedure: usize,
        actuals: Vec<Expression>,
    },
}

/// A successor or return point: a statement of the same procedure, counted from 0, or its exit.
#[derive(Clone, Copy, Debug, PartialEq, Eq)]
pub enum Next {
    Statement(usize),
    Exit,
}

/// A constant and one coefficient for each column, globals and then locals.
#[derive(Clone, Debug, PartialEq, Eq)]
pub struct Expression {
    pub constant: i64,
    pub coefficients: Vec<i32>,
}

impl Statement {
    pub fn assign(next: Next, column: usize, expression: Expression) -> Statement {
        Statement::Assign {
            next,
            column,
            expression,
        }
    }

    /// `expression operator 0` decides which of the two is next: if true, if false.
    pub fn branch(nexts: [Next; 2], operator: Operator, expression: Expression) -> Statement {
        Statement::Branch {
            on_true: nexts[0],
            on_false: nexts[1],
            operator,
            expression,
        }
    }

    /// Asserts `expression operator 0`.
    pub fn assert(next: Next, operator: Operator, expression: Expression) -> Statement {
        Statement::Assert {
            next,
            operator,
            expression,
        }
    }

    pub fn call(back: Next, procedure: usize, actuals: Vec<Expression>) -> Statement {
        Statement::Call {
            back,
            procedure,
            actuals,
        }
    }
}

impl Expression {
    pub fn constant(columns: usize, constant: impl Into<i64>) -> Expression {
        Expression {
            constant: constant.into(),
            coefficients: vec![0; columns],
        }
    }

    /// `constant + Σ coefficient × column` for the listed columns.
    pub fn sum(columns: usize, constant: impl Into<i64>, terms: &[(usize, i32)]) -> Expression {
        let mut expression = Expression::constant(columns, constant);
        for &(column, coefficient) in terms {
            expression.coefficients[column] += coefficient;
        }
        expression
    }

    pub fn column(columns: usize, column: usize) -> Expression {
        Expression::sum(columns, 0, &[(column, 1)])
    }

    /// The constant and the coefficients, if they are within their limits.
    pub fn within_limits(cells: &[i64]) -> Option<Expression> {
        let coefficient = |&cell: &i64| {
            let word = i32::try_from(cell).ok();
            word.filter(|word| COEFFICIENTS.contains(word))
        };
        let coefficients: Option<Vec<i32>> = cells[1..].iter().map(coefficient).collect();
        (cells[0].abs() <= CONSTANT_LIMIT).then_some(Expression {
            constant: cells[0],
            coefficients: coefficients?,
        })
    }

    /// What is at most 0 just where this is not: 1 less it.
    pub fn other_side(&self) -> Expression {
        Expression {
            constant: 1 - self.constant,
            coefficients: self.coefficients.iter().map(|cell| -cell).collect(),
        }
    }

    /// Whether all coefficients are 0, as they are where there are no columns.
    pub fn is_constant(&self) -> bool {
        self.linear().is_constant()
    }

    pub fn linear(&self) -> Linear<'_> {
        Linear {
            constant: self.constant,
            coefficients: &self.coefficients,
        }
    }

    /// The spelling of the constant, and the coefficients.
    pub fn words(&self) -> impl Iterator<Item = i32> + '_ {
        spelling(self.constant)
            .into_iter()
            .chain(self.coefficients.iter().copied())
    }
}

impl Operator {
    /// All operators, each at the place that is its word.
    pub const ALL: [Operator; 7] = [
        Operator::Any,
        Operator::Less,
        Operator::Greater,
        Operator::AtMost,
        Operator::AtLeast,
        Operator::Equal,
        Operator::NotEqual,
    ];

    fn word(self) -> i32 {
        self as i32
    }
}

impl Program {
    /// A program whose statements have no lines.
    pub fn new(globals: usize, procedures: Vec<Procedure>) -> Program {
        Program {
            globals,
            procedures,
            lines: Vec::new(),
        }
    }

    /// The program with these lines.
    pub fn with_lines(self, lines: Vec<i32>) -> Program {
        Program { lines, ..self }
    }

    /// The line of a statement, and 0 for an exit and for vertex 0.
    pub fn line(&self, vertex: usize) -> i32 {
        let line = vertex.checked_sub(1).and_then(|at| self.lines.get(at));
        line.copied().unwrap_or(0)
    }

    pub fn statement_count(&self) -> usize {
        self.procedures
            .iter()
            .map(|procedure| procedure.statements.len())
            .sum()
    }

    /// The vertex of the procedure's first statement.
    pub fn first(&self, procedure: usize) -> usize {
        1 + self.procedures[..procedure]
            .iter()
            .map(|procedure| procedure.statements.len())
            .sum::<usize>()
    }

    pub fn exit(&self, procedure: usize) -> usize {
        self.statement_count() + 1 + procedure
    }

    pub fn vertex(&self, procedure: usize, next: Next) -> usize {
        match next {
            Next::Statement(index) => self.first(procedure) + index,
            Next::Exit => self.exit(procedure),
        }
    }

    /// k of a procedure.
    pub fn columns(&self, procedure: usize) -> usize {
        self.globals + self.procedures[procedure].locals
    }

    /// All vertices but 0, by rising number, each with its procedure.
    pub fn vertices(&self) -> impl Iterator<Item = (usize, Next)> + '_ {
        let statements = self.procedures.iter().enumerate().flat_map(|(at, body)| {
            (0..body.statements.len()).map(move |index| (at, Next::Statement(index)))
        });
        statements.chain((0..self.procedures.len()).map(|at| (at, Next::Exit)))
    }

    pub fn words(&self, sharing: Sharing) -> Vec<i32> {
        let (mut kinds, mut places, mut pool) = (Vec::new(), Vec::new(), Vec::new());
        for (procedure, next) in self.vertices() {
            let (kind, row) = match next {
                Next::Statement(index) => self.statement_row(procedure, index),
                Next::Exit => (6, self.exit_row(procedure)),
            };
            kinds.push(kind);
            places.push(place(&mut pool, &row, sharing));
        }
        let sizes = [
            self.statement_count(),
            self.procedures.len(),
            self.globals,
            pool.len(),
        ];
        let sizes = sizes.map(|size| size as i32).to_vec();
        [sizes, kinds, places, pool].concat()
    }

    /// The kind, and the line with what stands behind it.
    fn statement_row(&self, procedure: usize, index: usize) -> (i32, Vec<i32>) {
        let (kind, fields) = self.fields(procedure, index);
        let line = self.line(self.first(procedure) + index);
        (kind, [vec![line], fields].concat())
    }

    fn fields(&self, procedure: usize, index: usize) -> (i32, Vec<i32>) {
        let vertex = |next: &Next| self.vertex(procedure, *next) as i32;
        match &self.procedures[procedure].statements[index] {
            Statement::Skip { next } => (1, vec![vertex(next)]),
            Statement::Assign {
                next,
                column,
                expression,
            } => {
                let fields = [vertex(next), *column as i32];
                (2, fields.into_iter().chain(expression.words()).collect())
            }
            Statement::Branch {
                on_true,
                on_false,
                operator,
                expression,
            } => {
                let fields = [vertex(on_true), vertex(on_false), operator.word()];
                (3, fields.into_iter().chain(expression.words()).collect())
            }
            Statement::Assert {
                next,
                operator,
                expression,
            } => {
                let fields = [vertex(next), operator.word()];
                (4, fields.into_iter().chain(expression.words()).collect())
            }
            Statement::Call {
                back,
                procedure,
                actuals,
            } => {
                let fields = [vertex(back), 1 + *procedure as i32];
                let actuals = actuals.iter().flat_map(Expression::words);
                (5, fields.into_iter().chain(actuals).collect())
            }
        }
    }

    fn exit_row(&self, procedure: usize) -> Vec<i32> {
        let body = &self.procedures[procedure];
        [self.first(procedure), body.locals, body.parameters]
            .map(|number| number as i32)
            .to_vec()
    }
}
