//! parity: the global `even` is flipped N times by a recursive procedure.

use super::{anything, finish, Rows};
use crate::build::Next::{Exit, Statement as At};
use crate::build::{Disjunct, Edges, Expression, Operator, Procedure, Program, Statement};

/// Parity is no linear relation, so the edges have a disjunct for each depth, of which there are
/// N + 1, and an entry has at most 8.
pub const LARGEST: i32 = 7;

/// x = N; even = 1; parity(x); assert (even = 1 if N is even and else 0).
///
/// parity(n) { if (n > 0) { even = 1 - even; m = n - 1; parity(m); } }
pub fn parity(n: i32) -> (Vec<i32>, Vec<i32>) {
    // Columns x, even in main; x, even, n, m in parity.
    const X: usize = 0;
    const EVEN: usize = 1;
    const N: usize = 2;
    const M: usize = 3;
    let even_at = |depth: i32| 1 - depth % 2;
    let result = even_at(n);
    let main = Procedure {
        locals: 0,
        parameters: 0,
        statements: vec![
            Statement::assign(At(1), X, Expression::constant(2, n)),
            Statement::assign(At(2), EVEN, Expression::constant(2, 1)),
            Statement::call(At(3), 1, vec![Expression::column(2, X)]),
            Statement::assert(
                Exit,
                Operator::Equal,
                Expression::sum(2, -result, &[(EVEN, 1)]),
            ),
        ],
    };
    let recursive = Procedure {
        locals: 2,
        parameters: 1,
        statements: vec![
            Statement::branch([At(1), Exit], Operator::Greater, Expression::column(4, N)),
            Statement::assign(At(2), EVEN, Expression::sum(4, 1, &[(EVEN, -1)])),
            Statement::assign(At(3), M, Expression::sum(4, -1, &[(N, 1)])),
            Statement::call(Exit, 1, vec![Expression::column(4, M)]),
        ],
    };

    let main_now = 2;
    let now = 4;
    let depths = |depths: i32, column: usize, less: i32, flipped: i32| -> Vec<Disjunct> {
        (0..depths)
            .map(|depth| {
                Rows::over(8)
                    .equal(depth + less - n, &[(now + column, 1)])
                    .equal(-even_at(depth + flipped), &[(now + EVEN, 1)])
                    .disjunct()
            })
            .collect()
    };
    let path = vec![
        anything(),
        Rows::over(4).equal(-n, &[(main_now + X, 1)]).alone(),
        Rows::over(4)
            .equal(-n, &[(main_now + X, 1)])
            .equal(-1, &[(main_now + EVEN, 1)])
            .alone(),
        Rows::over(4)
            .equal(-result, &[(main_now + EVEN, 1)])
            .alone(),
        depths(n + 1, N, 0, 0),
        depths(n, N, 0, 0),
        depths(n, N, 0, 1),
        depths(n, M, 1, 1),
        anything(),
        Rows::over(8).equal(-result, &[(now + EVEN, 1)]).alone(),
    ];
    // Columns x, even, n at entry and x, even at exit.
    let summary = Rows::over(5).equal(-result, &[(4, 1)]).alone();
    let program = Program::new(2, vec![main, recursive]);
    let summaries = vec![anything(), summary];
    finish(program, Edges { path, summaries })
}
