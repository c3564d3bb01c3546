//! Two switch times of a day in minutes, the first of which may be an hour later: when, isn't decided
//! yet; day and night are globals.
//!
//! main(degrees) { day = 360; if (?) { day = day + 60; } night = day + 900;
//! assert (day - night < 0); assert (night - 1440 < 0); }

use crate::build::Next::{Exit, Statement as At};
use crate::build::{Edges, Expression, Operator, Procedure, Program, Row, Statement};

const DAY: usize = 0;
const NIGHT: usize = 1;
const COLUMNS: usize = 3;

pub fn program() -> Program {
    let sum = |constant: i64, terms: &[(usize, i32)]| Expression::sum(COLUMNS, constant, terms);
    let less = |next, expression| Statement::assert(next, Operator::Less, expression);
    let main = Procedure {
        locals: 1,
        parameters: 1,
        statements: vec![
            Statement::assign(At(1), DAY, sum(360, &[])),
            Statement::branch([At(2), At(3)], Operator::Any, sum(0, &[])),
            Statement::assign(At(3), DAY, sum(60, &[(DAY, 1)])),
            Statement::assign(At(4), NIGHT, sum(900, &[(DAY, 1)])),
            less(At(5), sum(0, &[(DAY, 1), (NIGHT, -1)])),
            less(Exit, sum(-1_440, &[(NIGHT, 1)])),
        ],
    };
    Program::new(2, vec![main]).with_lines(vec![2, 3, 4, 6, 7, 8])
}

pub fn edges() -> Edges {
    // Columns day, night, degrees at entry and now.
    let [day, night] = [DAY, NIGHT].map(|column| COLUMNS + column);
    let at_most = |column, most: i64| Row::sum(2 * COLUMNS, -most, &[(column, 1)]);
    let later = Row::sum(2 * COLUMNS, 900, &[(day, 1), (night, -1)]);
    let anything = vec![Vec::new()];
    let path = vec![
        anything.clone(),
        vec![vec![at_most(day, 360)]],
        vec![vec![at_most(day, 360)]],
        vec![vec![at_most(day, 420)]],
        vec![vec![later, at_most(night, 1_320)]],
        vec![vec![at_most(night, 1_320)]],
        anything.clone(),
    ];
    Edges {
        path,
        summaries: vec![anything],
    }
}
