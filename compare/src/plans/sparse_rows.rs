//! The switch times of a week, one global for each day, in minutes; those of the weekend may be later.
//!
//! main(first, later) { if (later ≥ 0) { mon = first; tue = mon + 1440; .. sat = fri + later + 1440;
//! sun = sat + 1440; assert (mon - tue < 0); .. assert (sat - sun < 0); } }

use crate::build::Next::{Exit, Statement as At};
use crate::build::{Disjunct, Edges, Expression, Operator, Procedure, Program, Row, Statement};
use std::ops::Range;

/// The globals are the days, mon to sun.
const DAYS: usize = 7;
const SAT: usize = 5;
const FIRST: usize = 7;
const LATER: usize = 8;
const COLUMNS: usize = 9;

/// The minutes of a day.
const DAY: i64 = 1_440;

pub fn program() -> Program {
    let mut statements = vec![Statement::branch(
        [At(1), Exit],
        Operator::AtLeast,
        Expression::column(COLUMNS, LATER),
    )];
    statements.extend((0..DAYS).map(|day| Statement::assign(At(2 + day), day, switch_time(day))));
    statements.extend((1..DAYS).map(|day| {
        let next = match day + 1 < DAYS {
            true => At(DAYS + 1 + day),
            false => Exit,
        };
        let rises = Expression::sum(COLUMNS, 0, &[(day - 1, 1), (day, -1)]);
        Statement::assert(next, Operator::Less, rises)
    }));
    let lines = (2..).take(statements.len()).collect();
    let main = Procedure {
        locals: 2,
        parameters: 2,
        statements,
    };
    Program::new(DAYS, vec![main]).with_lines(lines)
}

/// What is assigned to a day.
fn switch_time(day: usize) -> Expression {
    match day {
        0 => Expression::column(COLUMNS, FIRST),
        SAT => Expression::sum(COLUMNS, DAY, &[(day - 1, 1), (LATER, 1)]),
        _ => Expression::sum(COLUMNS, DAY, &[(day - 1, 1)]),
    }
}

pub fn edges() -> Edges {
    let anything = vec![Disjunct::new()];
    let mut path = vec![anything.clone()];
    // Before each assignment, and before each assertion.
    path.extend((0..DAYS).map(|day| {
        let later = (day <= SAT).then(not_earlier);
        vec![later.into_iter().chain(rising(1..day)).collect()]
    }));
    path.extend((1..DAYS).map(|day| vec![rising(day..DAYS).collect()]));
    path.push(anything.clone());
    Edges {
        path,
        summaries: vec![anything],
    }
}

/// Columns now.
fn now(column: usize) -> usize {
    COLUMNS + column
}

fn not_earlier() -> Row {
    Row::sum(2 * COLUMNS, 0, &[(now(LATER), -1)])
}

/// Each of these days is at least a day behind the one before it.
fn rising(days: Range<usize>) -> impl Iterator<Item = Row> {
    days.map(|day| Row::sum(2 * COLUMNS, DAY, &[(now(day - 1), 1), (now(day), -1)]))
}
