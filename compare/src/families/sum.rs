//! sum: the sum of the first N natural numbers, by a loop. The report's Table 4 counts four
//! conditions and two loops for it; its text speaks of one loop, and that is what is here.

use super::{anything, finish, Rows};
use crate::build::Next::{Exit, Statement as At};
use crate::build::{Disjunct, Edges, Expression, Operator, Procedure, Program, Statement};

/// The edges of the loop have N + 5 rows, and a disjunct at most 32.
pub const LARGEST: i32 = 27;

/// Up to here each turn of the loop has a disjunct of its own, of which an entry has at most 8.
const LARGEST_EXACT: i32 = 7;

// Columns n, sum, i at entry and then now.
const N: usize = 0;
const SUM: usize = 1;
const I: usize = 2;
const NOW: usize = 3;

/// n = N; sum = 0; i = 1; while (i ≤ n) { sum = sum + i; i = i + 1; } assert (sum = N(N+1)/2).
///
/// The sum is no linear relation of i. Up to N = 7 the edges list its values; above, they are
/// tangents of i(i-1)/2, which bound it from below, and the assertion is sum ≥ N(N+1)/2.
pub fn sum(n: i32) -> (Vec<i32>, Vec<i32>) {
    let total = n * (n + 1) / 2;
    let (operator, edges) = match n {
        ..=LARGEST_EXACT => (Operator::Equal, listed(n)),
        _ => (Operator::AtLeast, tangents(n)),
    };
    let main = Procedure {
        locals: 1,
        parameters: 0,
        statements: vec![
            Statement::assign(At(1), N, Expression::constant(3, n)),
            Statement::assign(At(2), SUM, Expression::constant(3, 0)),
            Statement::assign(At(3), I, Expression::constant(3, 1)),
            Statement::branch(
                [At(4), At(6)],
                Operator::AtMost,
                Expression::sum(3, 0, &[(I, 1), (N, -1)]),
            ),
            Statement::assign(At(5), SUM, Expression::sum(3, 0, &[(SUM, 1), (I, 1)])),
            Statement::assign(At(3), I, Expression::sum(3, 1, &[(I, 1)])),
            Statement::assert(Exit, operator, Expression::sum(3, -total, &[(SUM, 1)])),
        ],
    };
    let program = Program::new(2, vec![main]);
    let [test, add, count, assertion] = edges;
    let set = Rows::over(6).equal(-n, &[(NOW + N, 1)]);
    let cleared = Rows::over(6)
        .equal(-n, &[(NOW + N, 1)])
        .equal(0, &[(NOW + SUM, 1)]);
    let path = vec![
        anything(),
        set.alone(),
        cleared.alone(),
        test,
        add,
        count,
        assertion,
        anything(),
    ];
    let summaries = vec![anything()];
    finish(program, Edges { path, summaries })
}

/// The edges of the loop's test, its two assignments and the assertion: all values of i.
fn listed(n: i32) -> [Vec<Disjunct>; 4] {
    let at = |i: i32, sum: i32| {
        Rows::over(6)
            .equal(-n, &[(NOW + N, 1)])
            .equal(-i, &[(NOW + I, 1)])
            .equal(-sum, &[(NOW + SUM, 1)])
            .disjunct()
    };
    [
        (1..=n + 1).map(|i| at(i, i * (i - 1) / 2)).collect(),
        (1..=n).map(|i| at(i, i * (i - 1) / 2)).collect(),
        (1..=n).map(|i| at(i, i * (i + 1) / 2)).collect(),
        vec![at(n + 1, n * (n + 1) / 2)],
    ]
}

/// The same edges by the tangents sum ≥ a × i - a(a+1)/2; each gives the next one a turn later.
fn tangents(n: i32) -> [Vec<Disjunct>; 4] {
    let bounds = |beyond: i32, added: i32| {
        let rows = Rows::over(6)
            .equal(-n, &[(NOW + N, 1)])
            .at_most(-beyond, &[(NOW + I, 1), (NOW + N, -1)])
            .at_most(1, &[(NOW + I, -1)]);
        (0..=n).fold(rows, |rows, a| {
            let terms = [(NOW + I, a), (NOW + SUM, -1)];
            rows.at_most(added * a - a * (a + 1) / 2, &terms)
        })
    };
    let total = n * (n + 1) / 2;
    [
        bounds(1, 0).alone(),
        bounds(0, 0).alone(),
        bounds(0, 1).alone(),
        Rows::over(6).at_most(total, &[(NOW + SUM, -1)]).alone(),
    ]
}
