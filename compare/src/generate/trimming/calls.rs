//! Calls of one procedure with different actuals, and a summary disjunct for each of these: every call
//! needs one of them, and excludes the others.

use crate::build::{
    systems, Attempt, Certificate, Disjunct, Edges, Expression, Next, Procedure, Program, Row,
    Statement,
};
use crate::random::Random;

/// The columns of f: the global x and the parameter a.
const X: usize = 0;
const A: usize = 1;
const COLUMNS: usize = 2;

/// Main calls f with some of the numbers from 0 on, one after the other, and at times begins again;
/// f(a) sets x to a.
pub fn calls(random: &mut Random) -> (Program, Certificate) {
    let numbers = *random.pick(&[1, 2, 2, 3, 4]);
    let actuals: Vec<i32> = (0..1 + random.below(5))
        .map(|_| random.below(numbers) as i32)
        .collect();
    let program = program(random, &actuals);
    let numbers: Vec<i32> = (0..numbers as i32).collect();
    let of_f = |columns: usize, tied: &[usize]| -> Vec<Disjunct> {
        let disjuncts = numbers.iter().map(|number| {
            let rows = tied.iter().flat_map(|at| equal(columns, *at, *number));
            rows.collect()
        });
        disjuncts.collect()
    };
    // Behind a call x is its actual; behind the last of them main ends or begins again.
    let mut path = vec![vec![Disjunct::new()]];
    path.extend(
        actuals
            .iter()
            .map(|actual| vec![equal(2, 1, *actual).into()]),
    );
    let exit = path.pop().expect("there is a call");
    let body = of_f(2 * COLUMNS, &[A, COLUMNS + A]);
    path.extend([body, exit, of_f(2 * COLUMNS, &[A, COLUMNS + X])]);
    let edges = Edges {
        path,
        summaries: vec![vec![Disjunct::new()], of_f(3, &[A, 2])],
    };
    let systems = systems(&program, &edges).expect("well formed");
    let witnesses = systems.iter().map(|system| {
        let shown = || match system.prove() {
            Attempt::Proved(witness) => witness,
            attempt => panic!("no witness from {}: {attempt:?}", system.source),
        };
        system.contradict_plainly().unwrap_or_else(shown)
    });
    let witnesses = witnesses.collect();
    (program, Certificate { edges, witnesses })
}

fn program(random: &mut Random, actuals: &[i32]) -> Program {
    let count = actuals.len();
    let calls = actuals.iter().enumerate().map(|(at, actual)| {
        let back = match at + 1 < count {
            true => Next::Statement(at + 1),
            false => Next::Exit,
        };
        Statement::call(back, 1, vec![Expression::constant(1, *actual)])
    });
    let mut statements: Vec<Statement> = calls.collect();
    if random.chance(30) {
        let first = Next::Statement(0);
        let last = statements.len() - 1;
        let actual = vec![Expression::constant(1, actuals[last])];
        statements[last] = Statement::call(first, 1, actual);
    }
    let main = Procedure {
        locals: 0,
        parameters: 0,
        statements,
    };
    let body = Statement::assign(Next::Exit, X, Expression::column(COLUMNS, A));
    let f = Procedure {
        locals: 1,
        parameters: 1,
        statements: vec![body],
    };
    Program::new(1, vec![main, f]).lined(random)
}

/// The rows that say that a column is a number.
fn equal(columns: usize, at: usize, number: i32) -> [Row; 2] {
    [1, -1].map(|sign| Row::sum(columns, -sign * number, &[(at, sign)]))
}
