//! Program words, tests 1 to 3.

use super::linear::{is_linear, linear_words, Linear};
use super::{part, within, Refusal};
use std::ops::Range;

/// 0 is a failed assertion, 1..=n are statements, n+1..=n+p exits.
pub type Vertex = usize;

pub const ERROR: Vertex = 0;

/// A parsed program. Procedures are counted from 0 here, so that procedure 0 is main.
#[derive(Debug)]
pub struct Program {
    pub globals: usize,
    pub procedures: Vec<Procedure>,
    statements: Vec<Statement>,
}

#[derive(Debug)]
pub struct Procedure {
    pub statements: Range<Vertex>,
    pub exit: Vertex,
    pub locals: usize,
    pub parameters: usize,
}

#[derive(Debug)]
pub struct Statement {
    /// In the plan's text, from 1 on; 0 if it has none.
    pub line: u64,
    pub action: Action,
}

#[derive(Debug)]
pub enum Action {
    Skip {
        next: Vertex,
    },
    Assign {
        next: Vertex,
        column: usize,
        expression: Expression,
    },
    Branch {
        on_true: Vertex,
        on_false: Vertex,
        guard: Guard,
    },
    Assert {
        next: Vertex,
        guard: Guard,
    },
    Call {
        back: Vertex,
        procedure: usize,
        actuals: Vec<Expression>,
    },
}

/// `expression operator 0`
#[derive(Debug)]
pub struct Guard {
    pub operator: Operator,
    pub expression: Expression,
}

#[derive(Clone, Copy, Debug, PartialEq, Eq)]
pub enum Operator {
    Any,
    Less,
    Greater,
    AtMost,
    AtLeast,
    Equal,
    NotEqual,
}

#[derive(Debug)]
pub struct Expression {
    pub constant: i64,
    pub coefficients: Vec<i64>,
}

impl Program {
    pub fn parse(words: &[i32]) -> Result<Program, Refusal> {
        let layout = Layout::parse(words).ok_or(Refusal::new(1, 0))?;
        Program::of(&layout, |vertex, procedure, procedures| {
            layout.statement(vertex, procedure, procedures)
        })
    }

    /// Tests 2 and 3, each statement read by this function, which is given its vertex, its procedure and
    /// all procedures.
    pub(super) fn of(
        layout: &Layout,
        mut read: impl FnMut(Vertex, &Procedure, &[Procedure]) -> Option<Statement>,
    ) -> Result<Program, Refusal> {
        let procedures = layout.procedures()?;
        let mut statements = Vec::with_capacity(layout.statements);
        for procedure in &procedures {
            for vertex in procedure.statements.clone() {
                let statement = read(vertex, procedure, &procedures);
                let place = layout.kind_place(vertex);
                let refusal = Refusal::of_line(3, place, layout.line(vertex));
                statements.push(statement.ok_or(refusal)?);
            }
        }
        Ok(Program {
            globals: layout.globals,
            procedures,
            statements,
        })
    }

    /// Statements and exits.
    pub fn vertices(&self) -> usize {
        self.statements.len() + self.procedures.len()
    }

    /// The statement at a vertex, or nothing at an exit and at 0.
    pub fn statement(&self, vertex: Vertex) -> Option<&Statement> {
        self.statements.get(vertex.checked_sub(1)?)
    }

    /// What the statement at a vertex does, or nothing at an exit and at 0.
    pub fn action(&self, vertex: Vertex) -> Option<&Action> {
        self.statement(vertex).map(|statement| &statement.action)
    }

    /// The line of the statement at a vertex; 0 at an exit and at 0.
    pub fn line(&self, vertex: Vertex) -> u64 {
        self.statement(vertex).map_or(0, |statement| statement.line)
    }

    /// The procedure that a statement or an exit belongs to.
    pub fn procedure_of(&self, vertex: Vertex) -> usize {
        if vertex > self.statements.len() {
            vertex - self.statements.len() - 1
        } else {
            self.procedures
                .partition_point(|procedure| procedure.statements.start <= vertex)
                - 1
        }
    }

    /// k: the globals and the procedure's locals.
    pub fn columns(&self, procedure: usize) -> usize {
        self.globals + self.procedures[procedure].locals
    }
}

impl Procedure {
    /// How many locals are no parameters.
    pub fn others(&self) -> usize {
        self.locals - self.parameters
    }

    /// A successor or return point of one of the procedure's statements.
    pub(super) fn vertex(&self, word: i32) -> Option<Vertex> {
        usize::try_from(word)
            .ok()
            .filter(|vertex| self.statements.contains(vertex) || *vertex == self.exit)
    }
}

impl Operator {
    pub fn opposite(self) -> Operator {
        match self {
            Operator::Any => Operator::Any,
            Operator::Less => Operator::AtLeast,
            Operator::Greater => Operator::AtMost,
            Operator::AtMost => Operator::Greater,
            Operator::AtLeast => Operator::Less,
            Operator::Equal => Operator::NotEqual,
            Operator::NotEqual => Operator::Equal,
        }
    }

    /// Whether `value operator 0`; `?` decides nothing.
    pub fn decides(self, value: i64) -> Option<bool> {
        match self {
            Operator::Any => None,
            Operator::Less => Some(value < 0),
            Operator::Greater => Some(value > 0),
            Operator::AtMost => Some(value <= 0),
            Operator::AtLeast => Some(value >= 0),
            Operator::Equal => Some(value == 0),
            Operator::NotEqual => Some(value != 0),
        }
    }

    fn parse(word: i32) -> Option<Operator> {
        Some(match word {
            0 => Operator::Any,
            1 => Operator::Less,
            2 => Operator::Greater,
            3 => Operator::AtMost,
            4 => Operator::AtLeast,
            5 => Operator::Equal,
            6 => Operator::NotEqual,
            _ => return None,
        })
    }
}

impl Expression {
    pub(super) fn parse(words: &[i32]) -> Option<Expression> {
        is_linear(words).then(|| {
            let linear = Linear::of(words);
            Expression {
                constant: linear.constant,
                coefficients: linear.numbers().skip(1).collect(),
            }
        })
    }

    fn is_zero(&self) -> bool {
        self.constant == 0
            && self
                .coefficients
                .iter()
                .all(|&coefficient| coefficient == 0)
    }
}

impl Guard {
    fn parse(operator: i32, expression: &[i32]) -> Option<Guard> {
        let guard = Guard {
            operator: Operator::parse(operator)?,
            expression: Expression::parse(expression)?,
        };
        (guard.operator != Operator::Any || guard.expression.is_zero()).then_some(guard)
    }
}

/// How many words n, p, G and Q take.
pub(super) const SIZES: usize = 4;

const EXIT: i32 = 6;

pub const LARGEST_LINE: usize = 1_000_000;

/// n, p, G and Q, each within its limits.
pub(super) struct Sizes {
    statements: usize,
    procedures: usize,
    globals: usize,
    pool: usize,
}

impl Sizes {
    pub fn parse(words: &[i32]) -> Option<Sizes> {
        let &[statements, procedures, globals, pool, ..] = words else {
            return None;
        };
        Some(Sizes {
            statements: within(statements, 1..=1_024)?,
            procedures: within(procedures, 1..=32)?,
            globals: within(globals, 0..=8)?,
            pool: within(pool, 0..=12_000)?,
        })
    }
}

/// The arrays of the program words, their sizes tested and nothing else.
pub(crate) struct Layout<'a> {
    pub statements: usize,
    pub globals: usize,
    /// How many words are before the first kind word.
    header: usize,
    kinds: &'a [i32],
    places: &'a [i32],
    pool: &'a [i32],
}

impl<'a> Layout<'a> {
    pub fn parse(words: &'a [i32]) -> Option<Layout<'a>> {
        Layout::behind(words, SIZES, &Sizes::parse(words)?)
    }

    /// The arrays of these sizes behind a header of so many words, if they are all the other words.
    pub(super) fn behind(words: &'a [i32], header: usize, sizes: &Sizes) -> Option<Layout<'a>> {
        let rest = words.get(header..)?;
        let vertices = sizes.statements + sizes.procedures;
        if rest.len() != 2 * vertices + sizes.pool {
            return None;
        }
        let (kinds, rest) = rest.split_at(vertices);
        let (places, pool) = rest.split_at(vertices);
        Some(Layout {
            statements: sizes.statements,
            globals: sizes.globals,
            header,
            kinds,
            places,
            pool,
        })
    }

    /// Test 2, by rising number. A procedure's statements are known once the next first is.
    pub fn procedures(&self) -> Result<Vec<Procedure>, Refusal> {
        let mut procedures: Vec<Procedure> = Vec::new();
        for exit in self.statements + 1..=self.kinds.len() {
            let procedure = self.procedure(exit, procedures.last());
            let procedure = procedure.ok_or(Refusal::new(2, self.kind_place(exit)))?;
            if let Some(before) = procedures.last_mut() {
                before.statements.end = procedure.statements.start;
            }
            procedures.push(procedure);
        }
        Ok(procedures)
    }

    fn procedure(&self, exit: Vertex, before: Option<&Procedure>) -> Option<Procedure> {
        let &[first, locals, parameters] = self.row(exit, 3)? else {
            return None;
        };
        let firsts = match before {
            None => 1..=1,
            Some(before) => before.statements.start + 1..=self.statements,
        };
        let locals = within(locals, 0..=8)?;
        (self.kind(exit) == EXIT).then_some(Procedure {
            statements: within(first, firsts)?..self.statements + 1,
            exit,
            locals,
            parameters: within(parameters, 0..=locals)?,
        })
    }

    /// Test 3 for one statement.
    pub fn statement(
        &self,
        vertex: Vertex,
        procedure: &Procedure,
        procedures: &[Procedure],
    ) -> Option<Statement> {
        let action = self.action(vertex, procedure, procedures)?;
        self.with_line(vertex, action)
    }

    /// A statement that does this, if the line of its row is in its range.
    pub(super) fn with_line(&self, vertex: Vertex, action: Action) -> Option<Statement> {
        let line = line(self.row(vertex, 1)?)?;
        Some(Statement { line, action })
    }

    /// The line that a refusal with 3 returns: the first word of the vertex's row, whatever else is
    /// there, if that word is there and in its range; else 0.
    pub fn line(&self, vertex: Vertex) -> u64 {
        self.row(vertex, 1).and_then(line).unwrap_or(0)
    }

    fn action(
        &self,
        vertex: Vertex,
        procedure: &Procedure,
        procedures: &[Procedure],
    ) -> Option<Action> {
        let columns = self.globals + procedure.locals;
        let width = linear_words(columns);
        let fields = |length: usize| self.fields(vertex, length);
        Some(match self.kind(vertex) {
            1 => {
                let row = fields(1)?;
                Action::Skip {
                    next: procedure.vertex(row[0])?,
                }
            }
            2 => {
                let row = fields(2 + width)?;
                Action::Assign {
                    next: procedure.vertex(row[0])?,
                    column: within(row[1], 0..=columns.checked_sub(1)?)?,
                    expression: Expression::parse(&row[2..])?,
                }
            }
            3 => {
                let row = fields(3 + width)?;
                Action::Branch {
                    on_true: procedure.vertex(row[0])?,
                    on_false: procedure.vertex(row[1])?,
                    guard: Guard::parse(row[2], &row[3..])?,
                }
            }
            4 => {
                let row = fields(2 + width)?;
                let guard = Guard::parse(row[1], &row[2..])?;
                if guard.operator == Operator::Any {
                    return None;
                }
                Action::Assert {
                    next: procedure.vertex(row[0])?,
                    guard,
                }
            }
            5 => {
                // The callee decides how long the row is.
                let callee = within(fields(2)?[1], 1..=procedures.len())? - 1;
                let parameters = procedures[callee].parameters;
                let row = fields(2 + parameters * width)?;
                Action::Call {
                    back: procedure.vertex(row[0])?,
                    procedure: callee,
                    actuals: row[2..]
                        .chunks_exact(width)
                        .map(Expression::parse)
                        .collect::<Option<_>>()?,
                }
            }
            _ => return None,
        })
    }

    pub(super) fn kind(&self, vertex: Vertex) -> i32 {
        self.kinds[vertex - 1]
    }

    /// Place of a vertex's kind word.
    fn kind_place(&self, vertex: Vertex) -> usize {
        self.header + vertex - 1
    }

    /// So many words of a statement's row, those behind its line.
    pub(super) fn fields(&self, vertex: Vertex, length: usize) -> Option<&'a [i32]> {
        Some(&self.row(vertex, 1 + length)?[1..])
    }

    /// A vertex's row, if the pool has all of it.
    fn row(&self, vertex: Vertex, length: usize) -> Option<&'a [i32]> {
        part(self.pool, self.places[vertex - 1], length)
    }
}

/// The line at the front of a row, if it is in its range.
fn line(row: &[i32]) -> Option<u64> {
    within(row[0], 0..=LARGEST_LINE).map(|line| line as u64)
}
