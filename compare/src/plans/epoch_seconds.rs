//! Two switch times of a day in seconds of an epoch; day and night are globals.
//!
//! main(delay) { if (delay ≥ 0) { if (delay ≤ 900) { day = delay + 1796104800; night = 1796162400;
//! assert (day - night < 0); assert (night - 1796169600 < 0); } } }

use crate::build::Next::{Exit, Statement as At};
use crate::build::{Edges, Expression, Operator, Procedure, Program, Row, Statement};

const DAY: usize = 0;
const NIGHT: usize = 1;
const DELAY: usize = 2;
const COLUMNS: usize = 3;

// 1 December 2026, 06:00 and 22:00, the midnight after them, and the longest delay.
const MORNING: i64 = 1_796_104_800;
const EVENING: i64 = MORNING + 16 * 3_600;
const MIDNIGHT: i64 = EVENING + 2 * 3_600;
const LATEST: i64 = 15 * 60;

pub fn program() -> Program {
    let sum = |constant: i64, terms: &[(usize, i32)]| Expression::sum(COLUMNS, constant, terms);
    let less = |next, expression| Statement::assert(next, Operator::Less, expression);
    let main = Procedure {
        locals: 1,
        parameters: 1,
        statements: vec![
            Statement::branch([At(1), Exit], Operator::AtLeast, sum(0, &[(DELAY, 1)])),
            Statement::branch([At(2), Exit], Operator::AtMost, sum(-LATEST, &[(DELAY, 1)])),
            Statement::assign(At(3), DAY, sum(MORNING, &[(DELAY, 1)])),
            Statement::assign(At(4), NIGHT, sum(EVENING, &[])),
            less(At(5), sum(0, &[(DAY, 1), (NIGHT, -1)])),
            less(Exit, sum(-MIDNIGHT, &[(NIGHT, 1)])),
        ],
    };
    Program::new(2, vec![main]).with_lines((2..=7).collect())
}

pub fn edges() -> Edges {
    // Columns day, night, delay at entry and now.
    let at_most = |column, most: i64| Row::sum(2 * COLUMNS, -most, &[(COLUMNS + column, 1)]);
    let at_least = |column, least: i64| Row::sum(2 * COLUMNS, least, &[(COLUMNS + column, -1)]);
    let anything = vec![Vec::new()];
    let in_the_morning = at_most(DAY, MORNING + LATEST);
    let [earliest, latest] = [at_least(NIGHT, EVENING), at_most(NIGHT, EVENING)];
    let path = vec![
        anything.clone(),
        vec![vec![at_least(DELAY, 0)]],
        vec![vec![at_least(DELAY, 0), at_most(DELAY, LATEST)]],
        vec![vec![in_the_morning.clone()]],
        vec![vec![in_the_morning, earliest, latest.clone()]],
        vec![vec![latest]],
        anything.clone(),
    ];
    Edges {
        path,
        summaries: vec![anything],
    }
}
