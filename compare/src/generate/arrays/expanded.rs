//! Programs without arrays that do the same, by document 001's own abstraction with all elements: each element
//! is a global, and an access asks for each index in turn, by a branch, and then assigns. Behind the last
//! branch there is no way on. So a trace of the one is a longer trace of the other.

use super::{Access, AccessKind, ArrayProgram, Ending, Made};
use crate::build::{Expression, Next, Operator, Procedure, Program, Sharing, Statement};
use crate::checker::Answer;
use crate::generate::trace_words::TraceWords;
use crate::generate::Pair;

/// The trace of the program without arrays, what a check answers, and the values that it then leaves.
#[derive(Clone, Debug)]
pub struct Expanded {
    pub pair: Pair,
    pub answer: Answer,
    pub values: Vec<i64>,
}

/// The trace in the other program, if that is within the limits.
pub fn expanded(made: &Made) -> Option<Expanded> {
    let given = &made.program;
    if given.plain.globals + given.elements() > 8 {
        return None;
    }
    let expansion = Expansion::new(given)?;
    let mut vertices = vec![1];
    for (before, after) in made.visits.iter().zip(&made.visits[1..]) {
        if let (Some(access), Some(index)) = (given.accesses.get(&before.vertex), after.index) {
            let first = expansion.vertex(before.vertex);
            vertices.extend(way(first, given.sizes[access.array], index));
        }
        vertices.push(expansion.vertex(after.vertex));
    }
    let last = vertices.len() - 1;
    if made.ending != Ending::Failed {
        vertices.push(0);
    }
    let trace = TraceWords {
        starts: expansion.with_elements(&made.trace.starts),
        vertices: vertices.iter().map(|&vertex| vertex as i32).collect(),
        entry_values: made.trace.entry_values.clone(),
    };
    let program = expansion.program.words(Sharing::Apart);
    let is_within = trace.steps() <= 4_096 && program[0] <= 1_024 && program[3] <= 12_000;
    is_within.then(|| Expanded {
        answer: answer(made, last, trace.vertex_place(last)),
        values: expansion.values(made),
        pair: Pair {
            program,
            witness: trace.words(),
        },
    })
}

/// From the first branch of an access to its assignment, or to where there is no way on.
fn way(first: usize, size: usize, index: i64) -> Vec<usize> {
    let index = usize::try_from(index).ok().filter(|&index| index < size);
    let branches = index.map_or(size, |index| index + 1);
    let end = index.map_or(first + 2 * size, |index| first + size + index);
    (1..branches).map(|at| first + at).chain([end]).collect()
}

/// With 10 where an index is beyond its array: no step leads on from there.
fn answer(made: &Made, last: usize, place: usize) -> Answer {
    match made.ending {
        Ending::Failed => Answer::Trace(last as u64),
        Ending::Refused(number) => Answer::Refused {
            number: if number == 28 { 10 } else { number },
            place: place as u64,
            line: made.line(made.visits.len() - 1) as u64,
        },
    }
}

struct Expansion<'a> {
    given: &'a ArrayProgram,
    program: Program,
    /// By the given program's vertices, from 1 on.
    vertices: Vec<usize>,
}

impl Expansion<'_> {
    fn new(given: &ArrayProgram) -> Option<Expansion<'_>> {
        let plain = &given.plain;
        let (mut procedures, mut lines, mut vertices) = (Vec::new(), Vec::new(), Vec::new());
        for (at, procedure) in plain.procedures.iter().enumerate() {
            let first = plain.first(at);
            let length = |index| match given.accesses.get(&(first + index)) {
                Some(access) => 2 * given.sizes[access.array] + 1,
                None => 1,
            };
            let mut places = vec![0];
            for index in 0..procedure.statements.len() {
                places.push(places[index] + length(index));
            }
            let body = Body { given, places };
            let mut statements = Vec::new();
            for (index, statement) in procedure.statements.iter().enumerate() {
                vertices.push(1 + lines.len());
                statements.extend(body.expanded(first + index, index, statement)?);
                lines.extend(vec![plain.line(first + index); length(index)]);
            }
            procedures.push(Procedure {
                statements,
                ..procedure.clone()
            });
        }
        vertices.extend((1..=procedures.len()).map(|exit| lines.len() + exit));
        let globals = plain.globals + given.elements();
        Some(Expansion {
            given,
            program: Program::new(globals, procedures).with_lines(lines),
            vertices,
        })
    }

    fn vertex(&self, vertex: usize) -> usize {
        vertex.checked_sub(1).map_or(0, |at| self.vertices[at])
    }

    /// Start values, with the elements between the globals and main's locals.
    fn with_elements(&self, starts: &[i32]) -> Vec<i32> {
        let (globals, rest) = starts.split_at(self.given.plain.globals);
        let (locals, elements) = rest.split_at(rest.len() - self.given.elements());
        [globals, elements, locals].concat()
    }

    fn values(&self, made: &Made) -> Vec<i64> {
        if made.ending != Ending::Failed {
            return Vec::new();
        }
        let (globals, locals) = made.values().split_at(self.given.plain.globals);
        [globals, &made.elements.concat(), locals].concat()
    }
}

/// A procedure, and where its statements are then.
struct Body<'a> {
    given: &'a ArrayProgram,
    places: Vec<usize>,
}

impl Body<'_> {
    fn next(&self, next: Next) -> Next {
        match next {
            Next::Statement(index) => Next::Statement(self.places[index]),
            Next::Exit => Next::Exit,
        }
    }

    fn column(&self, column: usize) -> usize {
        match column < self.given.plain.globals {
            true => column,
            false => column + self.given.elements(),
        }
    }

    fn expression(&self, expression: &Expression) -> Expression {
        let globals = self.given.plain.globals;
        let (front, rest) = expression.coefficients.split_at(globals);
        Expression {
            constant: expression.constant,
            coefficients: [front, &vec![0; self.given.elements()], rest].concat(),
        }
    }

    fn expanded(&self, vertex: usize, at: usize, given: &Statement) -> Option<Vec<Statement>> {
        if let (Some(access), Statement::Skip { next }) = (self.given.accesses.get(&vertex), given)
        {
            return self.access(access, self.places[at], self.next(*next));
        }
        let mut statement = given.clone();
        match &mut statement {
            Statement::Skip { next } => *next = self.next(*next),
            Statement::Assign {
                next,
                column,
                expression,
            } => {
                (*next, *column) = (self.next(*next), self.column(*column));
                *expression = self.expression(expression);
            }
            Statement::Branch {
                on_true,
                on_false,
                expression,
                ..
            } => {
                (*on_true, *on_false) = (self.next(*on_true), self.next(*on_false));
                *expression = self.expression(expression);
            }
            Statement::Assert {
                next, expression, ..
            } => {
                *next = self.next(*next);
                *expression = self.expression(expression);
            }
            Statement::Call { back, actuals, .. } => {
                *back = self.next(*back);
                let expanded = actuals.iter().map(|actual| self.expression(actual));
                *actuals = expanded.collect();
            }
        }
        Some(vec![statement])
    }

    /// Branches, assignments, and a skip that leads to itself; if all constants are within their limits.
    fn access(&self, access: &Access, first: usize, next: Next) -> Option<Vec<Statement>> {
        let size = self.given.sizes[access.array];
        let end = Next::Statement(first + 2 * size);
        let index = self.expression(&access.index);
        let columns = index.coefficients.len();
        let before: usize = self.given.sizes[..access.array].iter().sum();
        let mut branches = Vec::new();
        let mut assignments = Vec::new();
        for at in 0..size {
            let mut is_at = index.clone();
            is_at.constant -= at as i64;
            if is_at.constant.abs() > 4_000_000_000 {
                return None;
            }
            let other = match at + 1 < size {
                true => Next::Statement(first + at + 1),
                false => end,
            };
            let nexts = [Next::Statement(first + size + at), other];
            branches.push(Statement::branch(nexts, Operator::Equal, is_at));
            let element = self.given.plain.globals + before + at;
            assignments.push(match &access.kind {
                AccessKind::Read { column } => {
                    let value = Expression::column(columns, element);
                    Statement::assign(next, self.column(*column), value)
                }
                AccessKind::Write { value } => {
                    Statement::assign(next, element, self.expression(value))
                }
            });
        }
        let last = Statement::Skip { next: end };
        Some([branches, assignments, vec![last]].concat())
    }
}
