//! The list of entailments of a program and a certificate's edges.

use super::certificate::{Certificate, Disjunct, Target};
use super::program::{Action, Expression, Guard, Operator, Program, Vertex, ERROR};
use super::row::Row;
use std::iter;

/// One entailment. Its columns are main's k for the start, and else the entry and now columns of the
/// source's procedure, followed by fresh ones: where a call begins one for each other local of the
/// callee, and at a return G for the exit globals.
#[derive(Debug)]
pub struct Entailment<'a> {
    /// The vertex that it starts from, 0 for the start entailment.
    pub source: Vertex,
    pub target: Target,
    columns: usize,
    /// Premises, in this order. The source's rows stand for themselves.
    disjunct: Option<Disjunct<'a>>,
    guards: Vec<Vec<i64>>,
    summary: Option<(Disjunct<'a>, Substitution<'a>)>,
    /// What the target's columns become.
    substitution: Substitution<'a>,
}

/// For each column of a row the expression that takes its place.
type Substitution<'a> = Vec<Image<'a>>;

#[derive(Clone, Copy, Debug)]
enum Image<'a> {
    Column(usize),
    /// A linear expression whose first variable is the column `first`.
    Linear {
        first: usize,
        expression: &'a Expression,
    },
}

/// Rows of a constant and then the coefficients.
#[derive(Clone, Debug)]
pub struct Matrix {
    width: usize,
    cells: Vec<i64>,
}

impl Matrix {
    pub fn width(&self) -> usize {
        self.width
    }

    pub fn rows(&self) -> impl ExactSizeIterator<Item = &[i64]> {
        self.cells.chunks_exact(self.width)
    }

    /// A row more, the last.
    pub fn push(&mut self, row: &[i64]) {
        self.add_row().copy_from_slice(row);
    }

    /// Takes the last row off.
    pub fn pop(&mut self) {
        self.cells.truncate(self.cells.len() - self.width);
    }

    /// A row of zeros at the end.
    fn add_row(&mut self) -> &mut [i64] {
        let start = self.cells.len();
        self.cells.resize(start + self.width, 0);
        &mut self.cells[start..]
    }
}

impl Entailment<'_> {
    /// How many columns its rows are over.
    pub fn columns(&self) -> usize {
        self.columns
    }

    pub fn premise_count(&self) -> usize {
        self.disjunct.map_or(0, |disjunct| disjunct.row_count())
            + self.guards.len()
            + self
                .summary
                .as_ref()
                .map_or(0, |(rows, _)| rows.row_count())
    }

    /// How many of the premises, which come first, are rows of the source, and how many after them
    /// are guards. The rest are the summary's.
    pub fn own_premises(&self) -> (usize, usize) {
        let rows = self.disjunct.map_or(0, |disjunct| disjunct.row_count());
        (rows, self.guards.len())
    }

    pub fn premises(&self) -> Matrix {
        let width = 1 + self.columns;
        let mut matrix = Matrix {
            width,
            cells: Vec::with_capacity(width * self.premise_count()),
        };
        for row in self.disjunct.iter().flat_map(Disjunct::rows) {
            let cells = matrix.add_row();
            cells[0] = row.constant();
            for (column, coefficient) in row.terms() {
                cells[1 + column] = coefficient.into();
            }
        }
        for row in &self.guards {
            matrix.add_row().copy_from_slice(row);
        }
        if let Some((disjunct, substitution)) = &self.summary {
            for row in disjunct.rows() {
                rewrite(row, substitution, matrix.add_row());
            }
        }
        matrix
    }

    /// The rows of one of the target's disjuncts over this entailment's columns.
    pub fn goals(&self, disjunct: &Disjunct) -> Matrix {
        let width = 1 + self.columns;
        let mut matrix = Matrix {
            width,
            cells: Vec::with_capacity(width * disjunct.row_count()),
        };
        for row in disjunct.rows() {
            rewrite(row, &self.substitution, matrix.add_row());
        }
        matrix
    }
}

/// Adds the row, its columns replaced by their images, to `cells`.
fn rewrite(row: Row, substitution: &[Image], cells: &mut [i64]) {
    cells[0] += row.constant();
    for (column, coefficient) in row.terms() {
        let coefficient = i64::from(coefficient);
        match substitution[column] {
            Image::Column(column) => cells[1 + column] += coefficient,
            Image::Linear { first, expression } if coefficient != 0 => {
                cells[0] += coefficient * expression.constant;
                for (cell, factor) in cells[1 + first..].iter_mut().zip(&expression.coefficients) {
                    *cell += coefficient * factor;
                }
            }
            Image::Linear { .. } => {}
        }
    }
}

/// All entailments, in the order in which their witnesses stand.
pub fn entailments<'a>(
    program: &'a Program,
    certificate: &'a Certificate<'a>,
) -> impl Iterator<Item = Entailment<'a>> {
    let steps = (1..=program.vertices()).flat_map(move |vertex| {
        let disjuncts = certificate.edges(Target::Path(vertex)).iter();
        disjuncts.flat_map(move |&disjunct| {
            let source = Source {
                program,
                vertex,
                disjunct,
                columns: program.columns(program.procedure_of(vertex)),
            };
            source.entailments(certificate)
        })
    });
    iter::once(start(program)).chain(steps)
}

/// All of main's columns are free, each the same at entry and now.
fn start(program: &Program) -> Entailment<'_> {
    let columns = program.columns(0);
    let state: Vec<Image> = (0..columns).map(Image::Column).collect();
    Entailment {
        source: ERROR,
        target: Target::Path(1),
        columns,
        disjunct: None,
        guards: Vec::new(),
        summary: None,
        substitution: state.repeat(2),
    }
}

/// A vertex with one of its disjuncts.
#[derive(Clone, Copy)]
struct Source<'a> {
    program: &'a Program,
    vertex: Vertex,
    disjunct: Disjunct<'a>,
    /// k of the vertex's procedure.
    columns: usize,
}

impl<'a> Source<'a> {
    fn entailments(self, certificate: &'a Certificate<'a>) -> Vec<Entailment<'a>> {
        let Some(action) = self.program.action(self.vertex) else {
            return vec![self.exit()];
        };
        match action {
            Action::Skip { next } => vec![self.step(*next)],
            Action::Assign {
                next,
                column,
                expression,
            } => vec![self.assign(*next, *column, expression)],
            Action::Branch {
                on_true,
                on_false,
                guard,
            } => self.sides(guard, *on_true, *on_false),
            Action::Assert { next, guard } => self.sides(guard, *next, ERROR),
            Action::Call {
                back,
                procedure,
                actuals,
            } => {
                let entry = self.call(*procedure, actuals);
                let summaries = certificate.edges(Target::Summary(*procedure)).iter();
                let returns = summaries.map(|summary| self.back(*back, actuals, *summary));
                iter::once(entry).chain(returns).collect()
            }
        }
    }

    /// To a vertex of the same procedure, with all values as they are.
    fn step(self, next: Vertex) -> Entailment<'a> {
        Entailment {
            source: self.vertex,
            target: Target::Path(next),
            columns: 2 * self.columns,
            disjunct: Some(self.disjunct),
            guards: Vec::new(),
            summary: None,
            substitution: (0..2 * self.columns).map(Image::Column).collect(),
        }
    }

    fn assign(self, next: Vertex, column: usize, expression: &'a Expression) -> Entailment<'a> {
        let mut entailment = self.step(next);
        entailment.substitution[self.columns + column] = self.now(expression);
        entailment
    }

    /// True cases, then false cases.
    fn sides(self, guard: &Guard, on_true: Vertex, on_false: Vertex) -> Vec<Entailment<'a>> {
        let sides = [
            (guard.operator, on_true),
            (guard.operator.opposite(), on_false),
        ];
        let cases = sides.into_iter().flat_map(|(operator, next)| {
            cases(operator).iter().map(move |case| {
                let rows = case.iter();
                Entailment {
                    guards: rows
                        .map(|&(factor, added)| self.guard(&guard.expression, factor, added))
                        .collect(),
                    ..self.step(next)
                }
            })
        });
        cases.collect()
    }

    /// The row `factor × expression + added` over the columns now.
    fn guard(self, expression: &Expression, factor: i64, added: i64) -> Vec<i64> {
        let mut row = vec![0; 1 + 2 * self.columns];
        row[0] = factor * expression.constant + added;
        for (cell, coefficient) in row[1 + self.columns..]
            .iter_mut()
            .zip(&expression.coefficients)
        {
            *cell = factor * coefficient;
        }
        row
    }

    /// To the callee's first vertex: its entry state is its state now, its other locals free.
    fn call(self, procedure: usize, actuals: &'a [Expression]) -> Entailment<'a> {
        let callee = &self.program.procedures[procedure];
        let columns = 2 * self.columns + callee.others();
        let state: Vec<Image> = self
            .globals_now()
            .chain(actuals.iter().map(|actual| self.now(actual)))
            .chain((2 * self.columns..columns).map(Image::Column))
            .collect();
        Entailment {
            columns,
            substitution: state.repeat(2),
            ..self.step(callee.statements.start)
        }
    }

    /// To the return point, by one of the callee's summary edges.
    fn back(
        self,
        back: Vertex,
        actuals: &'a [Expression],
        summary: Disjunct<'a>,
    ) -> Entailment<'a> {
        let globals = self.program.globals;
        let fresh = (0..globals).map(|global| Image::Column(2 * self.columns + global));
        let summary_columns = self
            .globals_now()
            .chain(actuals.iter().map(|actual| self.now(actual)))
            .chain(fresh.clone())
            .collect();
        let entry = (0..self.columns).map(Image::Column);
        let locals_now = (self.columns + globals..2 * self.columns).map(Image::Column);
        Entailment {
            columns: 2 * self.columns + globals,
            summary: Some((summary, summary_columns)),
            substitution: entry.chain(fresh).chain(locals_now).collect(),
            ..self.step(back)
        }
    }

    /// To the summary: parameters count as they were at entry.
    fn exit(self) -> Entailment<'a> {
        let procedure = self.program.procedure_of(self.vertex);
        let parameters = self.program.procedures[procedure].parameters;
        let entry = (0..self.program.globals + parameters).map(Image::Column);
        Entailment {
            target: Target::Summary(procedure),
            substitution: entry.chain(self.globals_now()).collect(),
            ..self.step(ERROR)
        }
    }

    fn globals_now(self) -> impl Iterator<Item = Image<'a>> {
        (0..self.program.globals).map(move |global| Image::Column(self.columns + global))
    }

    /// An expression over the values now.
    fn now(self, expression: &'a Expression) -> Image<'a> {
        Image::Linear {
            first: self.columns,
            expression,
        }
    }
}

/// The cases of `e operator 0`, each a list of rows `factor × e + added ≤ 0`.
pub fn cases(operator: Operator) -> &'static [&'static [(i64, i64)]] {
    match operator {
        Operator::Any => &[&[]],
        Operator::Less => &[&[(1, 1)]],
        Operator::Greater => &[&[(-1, 1)]],
        Operator::AtMost => &[&[(1, 0)]],
        Operator::AtLeast => &[&[(-1, 0)]],
        Operator::Equal => &[&[(1, 0), (-1, 0)]],
        Operator::NotEqual => &[&[(1, 1)], &[(-1, 1)]],
    }
}
