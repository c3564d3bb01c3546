//! swap_seq and swap_iter: two globals and a procedure swap() that exchanges their values.

use super::{anything, finish, Rows};
use crate::build::Next::{Exit, Statement as At};
use crate::build::{Disjunct, Edges, Expression, Operator, Procedure, Program, Statement};

/// 2N calls and 6 other statements make at most 1,024.
pub const LARGEST_SEQ: i32 = 509;
pub const LARGEST_ITER: i32 = 1_000_000;

const X: usize = 0;
const Y: usize = 1;
const SWAP: usize = 1;

/// t = x; x = y; y = t;
fn swap() -> Procedure {
    const T: usize = 2;
    let copy = |at, to, from| Statement::assign(at, to, Expression::column(3, from));
    Procedure {
        locals: 1,
        parameters: 0,
        statements: vec![copy(At(1), T, X), copy(At(2), X, Y), copy(Exit, Y, T)],
    }
}

/// Main, whose statements have these path edges, with swap and its edges. The lines are those of both.
fn with_swap(
    main: Procedure,
    mut path: Vec<Vec<Disjunct>>,
    lines: Vec<i32>,
) -> (Vec<i32>, Vec<i32>) {
    // Columns 0..3 are x, y, t at entry and 3..6 the same now.
    let same = |now: usize, entry: usize| [(now, 1), (entry, -1)];
    let first = Rows::over(6).equal(0, &same(3, X)).equal(0, &same(4, Y));
    let second = Rows::over(6).equal(0, &same(5, X)).equal(0, &same(4, Y));
    let third = Rows::over(6).equal(0, &same(5, X)).equal(0, &same(3, Y));
    let exit = Rows::over(6).equal(0, &same(4, X)).equal(0, &same(3, Y));
    path.extend([first, second, third].map(Rows::alone));
    path.extend([anything(), exit.alone()]);
    // Columns x, y at entry and x, y at exit.
    let summary = Rows::over(4).equal(0, &same(3, X)).equal(0, &same(2, Y));
    let program = Program::new(2, vec![main, swap()]).with_lines(lines);
    let summaries = vec![anything(), summary.alone()];
    finish(program, Edges { path, summaries })
}

/// x = 1; y = 2; then swap() 2N times; assert (x = 1).
pub fn swap_seq(n: i32) -> (Vec<i32>, Vec<i32>) {
    let calls = 2 * n as usize;
    let mut statements = vec![
        Statement::assign(At(1), X, Expression::constant(2, 1)),
        Statement::assign(At(2), Y, Expression::constant(2, 2)),
    ];
    statements.extend((0..calls).map(|call| Statement::call(At(3 + call), SWAP, Vec::new())));
    statements.push(Statement::assert(
        Exit,
        Operator::Equal,
        Expression::sum(2, -1, &[(X, 1)]),
    ));
    let main = Procedure {
        locals: 0,
        parameters: 0,
        statements,
    };

    // Columns x, y at entry and x, y now.
    let values = |x: i32, y: i32| Rows::over(4).equal(-x, &[(2, 1)]).equal(-y, &[(3, 1)]);
    let mut path = vec![anything(), Rows::over(4).equal(-1, &[(2, 1)]).alone()];
    path.extend((0..=calls).map(|done| match done % 2 {
        0 => values(1, 2).alone(),
        _ => values(2, 1).alone(),
    }));
    with_swap(main, path, Vec::new())
}

/// x = 1; y = 2; i = 0; while (i < N) { swap(); i = i + 1; } assert (x ≠ y). The edges of the loop
/// have one disjunct for each order of the values. The lines are those of `plans/swap-iter`.
pub fn swap_iter(n: i32) -> (Vec<i32>, Vec<i32>) {
    const I: usize = 2;
    let main = Procedure {
        locals: 1,
        parameters: 0,
        statements: vec![
            Statement::assign(At(1), X, Expression::constant(3, 1)),
            Statement::assign(At(2), Y, Expression::constant(3, 2)),
            Statement::assign(At(3), I, Expression::constant(3, 0)),
            Statement::branch(
                [At(4), At(6)],
                Operator::Less,
                Expression::sum(3, -n, &[(I, 1)]),
            ),
            Statement::call(At(5), SWAP, Vec::new()),
            Statement::assign(At(3), I, Expression::sum(3, 1, &[(I, 1)])),
            Statement::assert(
                Exit,
                Operator::NotEqual,
                Expression::sum(3, 0, &[(X, 1), (Y, -1)]),
            ),
        ],
    };

    // Columns x, y, i at entry and x, y, i now.
    let values = |x: i32, y: i32| Rows::over(6).equal(-x, &[(3, 1)]).equal(-y, &[(4, 1)]);
    let both = || vec![values(1, 2).disjunct(), values(2, 1).disjunct()];
    let mut path = vec![
        anything(),
        Rows::over(6).equal(-1, &[(3, 1)]).alone(),
        values(1, 2).alone(),
    ];
    path.extend((3..7).map(|_| both()));
    with_swap(main, path, vec![1, 1, 1, 2, 3, 4, 6, 8, 8, 8])
}
