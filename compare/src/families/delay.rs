//! delay_iter and delay_recur: a procedure that only passes time, called N times in a loop. There
//! are no globals, so an edge speaks of the loop counter alone.

use super::{anything, finish, Rows};
use crate::build::Next::{Exit, Statement as At};
use crate::build::{Disjunct, Edges, Expression, Operator, Procedure, Program, Statement};

pub const LARGEST: i32 = 1_000_000;

/// The fixed length of delay_iter's empty loop, which the report does not give.
const LENGTH: i32 = 10;

const DELAY: usize = 1;

/// i = 0; while (i < N) { delay(..); i = i + 1; } assert (i = N);
fn main_loop(n: i32, actuals: Vec<Expression>) -> Procedure {
    const I: usize = 0;
    Procedure {
        locals: 1,
        parameters: 0,
        statements: vec![
            Statement::assign(At(1), I, Expression::constant(1, 0)),
            Statement::branch(
                [At(2), At(4)],
                Operator::Less,
                Expression::sum(1, -n, &[(I, 1)]),
            ),
            Statement::call(At(3), DELAY, actuals),
            Statement::assign(At(1), I, Expression::sum(1, 1, &[(I, 1)])),
            Statement::assert(Exit, Operator::Equal, Expression::sum(1, -n, &[(I, 1)])),
        ],
    }
}

/// The path edges of the loop's statements: 0 ≤ i ≤ N, and i < N inside.
fn main_edges(n: i32) -> [Vec<Disjunct>; 5] {
    // Columns i at entry and i now.
    let counter = |largest: i32| {
        Rows::over(2)
            .at_most(-largest, &[(1, 1)])
            .at_most(0, &[(1, -1)])
            .alone()
    };
    [
        anything(),
        counter(n),
        counter(n - 1),
        counter(n - 1),
        Rows::over(2).equal(-n, &[(1, 1)]).alone(),
    ]
}

/// delay() { j = 0; while (j < 10) { j = j + 1; } }
pub fn delay_iter(n: i32) -> (Vec<i32>, Vec<i32>) {
    const J: usize = 0;
    let delay = Procedure {
        locals: 1,
        parameters: 0,
        statements: vec![
            Statement::assign(At(1), J, Expression::constant(1, 0)),
            Statement::branch(
                [At(2), Exit],
                Operator::Less,
                Expression::sum(1, -LENGTH, &[(J, 1)]),
            ),
            Statement::assign(At(1), J, Expression::sum(1, 1, &[(J, 1)])),
        ],
    };
    // Columns j at entry and j now.
    let at_most = |largest: i32| Rows::over(2).at_most(-largest, &[(1, 1)]).alone();
    let mut path = main_edges(n).to_vec();
    path.extend([anything(), at_most(LENGTH), at_most(LENGTH - 1)]);
    path.extend([anything(), Rows::over(2).equal(-LENGTH, &[(1, 1)]).alone()]);
    let program = Program::new(0, vec![main_loop(n, Vec::new()), delay]);
    let summaries = vec![anything(), anything()];
    finish(program, Edges { path, summaries })
}

/// delay(n) { if (n > 0) { m = n - 1; delay(m); } }, called with the loop counter.
pub fn delay_recur(n: i32) -> (Vec<i32>, Vec<i32>) {
    const N: usize = 0;
    const M: usize = 1;
    let delay = Procedure {
        locals: 2,
        parameters: 1,
        statements: vec![
            Statement::branch([At(1), Exit], Operator::Greater, Expression::column(2, N)),
            Statement::assign(At(2), M, Expression::sum(2, -1, &[(N, 1)])),
            Statement::call(Exit, DELAY, vec![Expression::column(2, M)]),
        ],
    };
    // Columns n, m at entry and n, m now; the argument is never below 0.
    let at_least = |least: i32, column: usize| {
        Rows::over(4)
            .at_most(least, &[(2 + column, -1)])
            .at_most(0, &[(N, -1)])
            .alone()
    };
    let mut path = main_edges(n).to_vec();
    path.extend([at_least(0, N), at_least(1, N), at_least(0, M)]);
    path.extend([anything(), Rows::over(4).at_most(0, &[(N, -1)]).alone()]);
    // The one column of the summary is n at entry.
    let summary = Rows::over(1).at_most(0, &[(N, -1)]).alone();
    let program = Program::new(0, vec![main_loop(n, vec![Expression::column(1, 0)]), delay]);
    let summaries = vec![anything(), summary];
    finish(program, Edges { path, summaries })
}
