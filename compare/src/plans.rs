//! The example plans of `plans/`. Their statements have the lines of the text in the plan's README.md,
//! counted from 1; those of document 01's plans have none.

mod epoch_seconds;
mod sparse_rows;
mod undecided;

use crate::build::Next::{Exit, Statement as At};
use crate::build::{
    certify, Edges, Expression, Operator, Procedure, Program, Row, Sharing, Statement,
};
use crate::examples::named;
pub use crate::examples::words;
use crate::families::swap_iter;
use crate::generate::sparse::{Form, Parts};
use crate::generate::Pair;

/// Program A, plan A of document 01, and its certificate.
pub const PROGRAM_A: &str = named("program A");
pub const CERTIFICATE_A: &str = named("certificate A");

/// Program B, plan A with 660 for 540, and its trace.
pub const PROGRAM_B: &str = named("program B");
pub const TRACE_B: &str = named("trace B");

/// All plans, by the names of their folders.
pub fn plans() -> [(&'static str, Pair); 11] {
    [
        (
            "epoch-seconds",
            certified(&epoch_seconds::program(), epoch_seconds::edges()),
        ),
        ("plan-a", written(PROGRAM_A, CERTIFICATE_A)),
        ("plan-b", written(PROGRAM_B, TRACE_B)),
        (
            "price-bands",
            written(named("program bands"), named("certificate bands")),
        ),
        ("recursive", recursive()),
        ("refused", written(PROGRAM_A, named("certificate too-weak"))),
        (
            "sparse-rows",
            in_sparse_form(certified(&sparse_rows::program(), sparse_rows::edges())),
        ),
        ("swap-iter", pair(swap_iter(1_000))),
        (
            "undecided",
            certified(&undecided::program(), undecided::edges()),
        ),
        (
            "unset-local",
            written(named("program unset"), named("trace unset")),
        ),
        ("whole-hours", whole_hours()),
    ]
}

fn pair((program, witness): (Vec<i32>, Vec<i32>)) -> Pair {
    Pair { program, witness }
}

fn written(program: &str, witness: &str) -> Pair {
    pair((words(program), words(witness)))
}

/// The program with the certificate of these edges.
fn certified(program: &Program, edges: Edges) -> Pair {
    let certificate = certify(program, edges).expect("each entailment has a witness");
    Pair {
        program: program.words(Sharing::Shared),
        witness: certificate.words(Sharing::Shared),
    }
}

fn in_sparse_form(dense: Pair) -> Pair {
    Parts::of(&dense).pair(&dense.program, Form::Sparse)
}

/// Switch times that rise, set by a procedure that calls itself; t is a global.
///
/// main(n) { t = 0; switches(n); assert (t ≥ 0); }
///
/// switches(n) { if (n > 0) { before = t; t = t + 30; switches(n - 1); assert (t > before); } }
fn recursive() -> Pair {
    const T: usize = 0;
    const N: usize = 1;
    const BEFORE: usize = 2;
    let main = Procedure {
        locals: 1,
        parameters: 1,
        statements: vec![
            Statement::assign(At(1), T, Expression::constant(2, 0)),
            Statement::call(At(2), 1, vec![Expression::column(2, N)]),
            Statement::assert(Exit, Operator::AtLeast, Expression::column(2, T)),
        ],
    };
    let switches = Procedure {
        locals: 2,
        parameters: 1,
        statements: vec![
            Statement::branch([At(1), Exit], Operator::Greater, Expression::column(3, N)),
            Statement::assign(At(2), BEFORE, Expression::column(3, T)),
            Statement::assign(At(3), T, Expression::sum(3, 30, &[(T, 1)])),
            Statement::call(At(4), 1, vec![Expression::sum(3, -1, &[(N, 1)])]),
            Statement::assert(
                Exit,
                Operator::Greater,
                Expression::sum(3, 0, &[(T, 1), (BEFORE, -1)]),
            ),
        ],
    };
    let program = Program::new(1, vec![main, switches]).with_lines(vec![2, 3, 4, 8, 9, 10, 11, 12]);

    // Columns t, n at entry and t, n now.
    let not_negative = vec![vec![Row::sum(4, 0, &[(2, -1)])]];
    let anything = vec![Vec::new()];
    // Columns t, n, before at entry and t, n, before now: "the first is by so much below the second".
    let below = |low: usize, high: usize, by: i32| Row::sum(6, by, &[(low, 1), (high, -1)]);
    let (t_now, before_now) = (3 + T, 3 + BEFORE);
    let risen = vec![vec![below(T, t_now, 0)]];
    let saved = vec![vec![below(T, before_now, 0), below(before_now, t_now, 0)]];
    let moved = vec![vec![below(T, before_now, 0), below(before_now, t_now, 30)]];
    let path = vec![
        anything.clone(),
        not_negative.clone(),
        not_negative,
        risen.clone(),
        risen.clone(),
        saved,
        moved.clone(),
        moved,
        anything.clone(),
        risen,
    ];
    // Columns t, n at entry and t at exit.
    let summary = vec![vec![Row::sum(3, 0, &[(0, 1), (2, -1)])]];
    let edges = Edges {
        path,
        summaries: vec![anything, summary],
    };
    certified(&program, edges)
}

/// Two pairs of equal steps, of a and of b whole hours; t is a global.
///
/// main(a, b) { if (2 a - 3 ≤ 0) { if (2 b - 3 ≤ 0) { t = a + b; assert (t - 2 ≤ 0); } } }
fn whole_hours() -> Pair {
    const T: usize = 0;
    const A: usize = 1;
    const B: usize = 2;
    let fits = |next, step| {
        let twice = Expression::sum(3, -3, &[(step, 2)]);
        Statement::branch([next, Exit], Operator::AtMost, twice)
    };
    let main = Procedure {
        locals: 2,
        parameters: 2,
        statements: vec![
            fits(At(1), A),
            fits(At(2), B),
            Statement::assign(At(3), T, Expression::sum(3, 0, &[(A, 1), (B, 1)])),
            Statement::assert(Exit, Operator::AtMost, Expression::sum(3, -2, &[(T, 1)])),
        ],
    };
    let program = Program::new(1, vec![main]).with_lines(vec![2, 3, 4, 5]);

    // Columns t, a, b at entry and t, a, b now.
    let at_most = |largest: i32, column: usize| Row::sum(6, -largest, &[(3 + column, 1)]);
    let anything = vec![Vec::new()];
    let path = vec![
        anything.clone(),
        vec![vec![at_most(1, A)]],
        vec![vec![at_most(1, A), at_most(1, B)]],
        vec![vec![at_most(2, T)]],
        anything.clone(),
    ];
    let edges = Edges {
        path,
        summaries: vec![anything],
    };
    certified(&program, edges)
}
