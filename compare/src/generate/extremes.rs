//! Accepted pairs with coefficients, constants, multipliers and divisors at their limits, so that
//! sums go far beyond 32 bits.

mod sums;
mod wrapping;

pub use sums::{goals, sums};
pub use wrapping::wrapping;

use super::constants::LARGEST;
use super::Pair;
use crate::build::{
    systems, Attempt, Certificate, Combination, Disjunct, Edges, Expression, Next, Operator,
    Procedure, Program, Row, Sharing, Statement, System, Witness,
};
use crate::checker::Answer;
use crate::random::Random;

const COEFFICIENT: i32 = 1_000;

pub fn pair(random: &mut Random) -> (Program, Certificate) {
    match random.below(3) {
        0 => cancelling(random),
        1 => never_returning(random),
        _ => relation(random),
    }
}

/// Main calls a procedure with eight equal actuals at the limits. All edges say that weighted
/// differences are 0, which holds although each weighted value by itself is huge.
fn cancelling(random: &mut Random) -> (Program, Certificate) {
    let globals = 8;
    let columns = 16;
    let actual = extreme_expression(random, columns);
    let main = Procedure {
        locals: 8,
        parameters: random.below(9),
        statements: vec![
            Statement::Call {
                back: Next::Statement(1),
                procedure: 1,
                actuals: vec![actual; 8],
            },
            Statement::Skip { next: Next::Exit },
        ],
    };
    let callee = Procedure {
        locals: 8,
        parameters: 8,
        statements: vec![
            Statement::Skip {
                next: Next::Statement(1),
            },
            Statement::Branch {
                on_true: Next::Exit,
                on_false: Next::Exit,
                operator: *random.pick(&Operator::ALL[1..]),
                expression: extreme_expression(random, columns),
            },
        ],
    };
    let program = Program::new(globals, vec![main, callee]).lined(random);

    let weights: Vec<Vec<i32>> = (0..1 + random.below(3))
        .map(|_| extreme_row(random, globals).coefficients)
        .collect();
    // Weights of the parameters that add up to 0, as the parameters are all equal at entry.
    let balanced: Vec<i32> = (0..8)
        .map(|at| [COEFFICIENT, -COEFFICIENT][at % 2])
        .collect();
    let differences = |width: usize, before: usize, after: usize| -> Vec<(Vec<i32>, i64)> {
        let rows = weights.iter().map(|weights| {
            let mut row = vec![0; width];
            for (at, weight) in weights.iter().enumerate() {
                row[before + at] = -weight;
                row[after + at] = *weight;
            }
            (row, 0)
        });
        rows.collect()
    };
    let with_balance = |mut rows: Vec<(Vec<i32>, i64)>, width: usize| {
        let mut row = vec![0; width];
        row[globals..globals + 8].copy_from_slice(&balanced);
        rows.push((row, 0));
        equalities(rows)
    };
    let in_main = equalities(differences(32, 0, 16));
    let in_callee = with_balance(differences(32, 0, 16), 32);
    let summary = with_balance(differences(24, 0, 16), 24);
    let edges = Edges {
        path: vec![
            vec![in_main.clone()],
            vec![in_main],
            vec![in_callee.clone()],
            vec![in_callee.clone()],
            vec![Disjunct::new()],
            vec![in_callee],
        ],
        summaries: vec![vec![Disjunct::new()], vec![summary]],
    };
    certify(random, program, edges)
}

/// Main calls a procedure that never gets to its exit. Its summary edges contradict themselves, so
/// the return point is shown unreached whatever the actuals are.
fn never_returning(random: &mut Random) -> (Program, Certificate) {
    let globals = random.below(9);
    let (locals, parameters) = (random.below(9), random.below(9));
    let columns = globals + locals;
    let actuals = (0..parameters)
        .map(|_| extreme_expression(random, columns))
        .collect();
    let main = Procedure {
        locals,
        parameters: random.below(locals + 1),
        statements: vec![
            Statement::Call {
                back: Next::Statement(1),
                procedure: 1,
                actuals,
            },
            Statement::Assert {
                next: Next::Exit,
                operator: Operator::Less,
                expression: Expression::constant(columns, LARGEST),
            },
        ],
    };
    let callee = Procedure {
        locals: 8,
        parameters,
        statements: vec![Statement::Skip {
            next: Next::Statement(0),
        }],
    };
    // Without columns there are no rows, and without an edge there is no return.
    let width = 2 * globals + parameters;
    let edge_count = match width {
        0 => 0,
        _ => 1 + random.below(8),
    };
    let summary = (0..edge_count)
        .map(|_| {
            let row = extreme_row(random, width);
            let opposite = Row {
                constant: (1 - row.constant).min(LARGEST),
                coefficients: row.coefficients.iter().map(|cell| -cell).collect(),
            };
            let mut rows = vec![row, opposite];
            if rows[0].constant + rows[1].constant < 1 {
                rows[0].constant = 1 - rows[1].constant;
            }
            rows.extend((0..random.below(5)).map(|_| extreme_row(random, width)));
            rows
        })
        .collect();
    let program = Program::new(globals, vec![main, callee]).lined(random);
    let anything = || vec![Disjunct::new()];
    let edges = Edges {
        path: vec![anything(), vec![], anything(), vec![], vec![]],
        summaries: vec![vec![], summary],
    };
    certify(random, program, edges)
}

/// y = an extreme expression of the others; assert that it is.
fn relation(random: &mut Random) -> (Program, Certificate) {
    let globals = random.below(9);
    let locals = 1 + random.below(8);
    let columns = globals + locals;
    let assigned = random.below(columns);
    let mut expression = extreme_expression(random, columns);
    expression.coefficients[assigned] = 0;
    let mut difference = expression.clone();
    difference.coefficients[assigned] = -1;
    let operator = *random.pick(&[Operator::Equal, Operator::AtMost, Operator::AtLeast]);
    let main = Procedure {
        locals,
        parameters: random.below(locals + 1),
        statements: vec![
            Statement::Assign {
                next: Next::Statement(1),
                column: assigned,
                expression,
            },
            Statement::Assert {
                next: Next::Exit,
                operator,
                expression: difference.clone(),
            },
        ],
    };
    let program = Program::new(globals, vec![main]).lined(random);
    let mut row = vec![0; columns];
    row.extend(difference.coefficients);
    let known = equalities(vec![(row, difference.constant)]);
    let edges = Edges {
        path: vec![vec![Disjunct::new()], vec![known.clone()], vec![known]],
        summaries: vec![vec![Disjunct::new()]],
    };
    certify(random, program, edges)
}

/// A sum with divisor 1,000 whose constant is the least that fits a row with the largest constant,
/// or the most negative one, and the same one lower.
///
/// Nothing leads to vertex 2, which sets x to the same constant; `times` premises speak of y, and
/// the row of vertex 3 of y and of `times` - 1 times x.
pub fn rounded(random: &mut Random) -> [(Pair, Answer); 2] {
    const X: usize = 0;
    const Y: usize = 1;
    let times = 1 + random.below(31);
    let sign = *random.pick(&[1, -1]);
    let circle = |at| Statement::Skip {
        next: Next::Statement(at),
    };
    let setting = Expression::constant(2, sign * LARGEST);
    let main = Procedure {
        locals: 0,
        parameters: 0,
        statements: vec![
            circle(0),
            Statement::assign(Next::Statement(2), X, setting),
            circle(2),
        ],
    };
    let program = Program::new(2, vec![main]).lined(random);
    // 1,000 × (times × constant − 1) + 1, by 1,000 for each of the first and 1 for the last.
    let row = |constant: i64, terms: &[(usize, i32)]| Row::sum(4, constant, terms);
    let y_now = 2 + Y;
    let premises = |last: i64| -> Disjunct {
        let mut rows = vec![row(sign * LARGEST, &[(y_now, 1)]); times];
        if sign == 1 {
            rows[0].constant -= 1;
        }
        rows.push(row(last, &[(y_now, COEFFICIENT)]));
        rows
    };
    let least = match sign {
        1 => 1,
        _ => 1 - i64::from(COEFFICIENT),
    };
    let count = times as i32;
    let target = row(sign * LARGEST, &[(2 + X, count - 1), (y_now, count + 1)]);
    let by_row = |divisor, multipliers| Witness::Disjunct {
        number: 1,
        rows: vec![Combination {
            divisor,
            multipliers,
        }],
    };
    let anything = Witness::Disjunct {
        number: 1,
        rows: Vec::new(),
    };
    let multipliers = [vec![1_000; times], vec![1]].concat();
    let witnesses = vec![
        anything.clone(),
        anything,
        by_row(1_000, multipliers),
        by_row(1, vec![1]),
    ];
    [least, least - 1].map(|last| {
        let edges = Edges {
            path: vec![
                vec![Disjunct::new()],
                vec![premises(last)],
                vec![vec![target.clone()]],
                Vec::new(),
            ],
            summaries: vec![Vec::new()],
        };
        let rest = witnesses[2].words().len() + witnesses[3].words().len();
        let certificate = Certificate {
            edges,
            witnesses: witnesses.clone(),
        };
        let pair = Pair {
            program: program.words(Sharing::Apart),
            witness: certificate.words(Sharing::Apart),
        };
        let place = (pair.witness.len() - rest) as u64;
        let answer = match last == least {
            true => Answer::Safe(4),
            false => Answer::refused(7, place),
        };
        (pair, answer)
    })
}

fn extreme_coefficient(random: &mut Random) -> i32 {
    match random.below(4) {
        0 => random.between(-COEFFICIENT, COEFFICIENT),
        1 => -COEFFICIENT,
        _ => COEFFICIENT,
    }
}

fn extreme_expression(random: &mut Random, columns: usize) -> Expression {
    Expression {
        constant: *random.pick(&[LARGEST, -LARGEST, 0, LARGEST - 1]),
        coefficients: (0..columns).map(|_| extreme_coefficient(random)).collect(),
    }
}

/// A row that speaks of its last column if of no other.
fn extreme_row(random: &mut Random, columns: usize) -> Row {
    let mut row = extreme_expression(random, columns);
    if row.is_constant() {
        row.coefficients[columns - 1] = COEFFICIENT;
    }
    row
}

/// Both directions of each row.
fn equalities(rows: Vec<(Vec<i32>, i64)>) -> Disjunct {
    let both = rows.into_iter().flat_map(|(coefficients, constant)| {
        let opposite = Row {
            constant: -constant,
            coefficients: coefficients.iter().map(|cell| -cell).collect(),
        };
        let row = Row {
            constant,
            coefficients,
        };
        [row, opposite]
    });
    both.collect()
}

fn certify(random: &mut Random, program: Program, edges: Edges) -> (Program, Certificate) {
    let systems = systems(&program, &edges).expect("the words have their form");
    let witnesses = systems
        .iter()
        .map(|system| match system.prove() {
            Attempt::Proved(witness) => enlarged(random, system, witness),
            attempt => panic!("no witness from {}: {attempt:?}", system.source),
        })
        .collect();
    (program, Certificate { edges, witnesses })
}

/// Divisors and multipliers up to 1,000, and premises that cancel each other.
pub fn enlarged(random: &mut Random, system: &System, mut witness: Witness) -> Witness {
    let factor = *random.pick(&[1, 7, 500, 1_000]);
    for leaf in witness.leaves_mut() {
        let Witness::Disjunct { rows, .. } = leaf else {
            continue;
        };
        for row in rows.iter_mut() {
            let largest = row.multipliers.iter().fold(row.divisor, |a, b| a.max(*b));
            let factor = factor.min(1_000 / largest);
            row.divisor *= factor;
            row.multipliers
                .iter_mut()
                .for_each(|number| *number *= factor);
        }
    }
    let opposites = system.opposites();
    for multipliers in witness.multipliers_mut() {
        for &(a, b) in &opposites {
            let most = 1_000 - multipliers[a].max(multipliers[b]);
            let added = random.between(0, most);
            multipliers[a] += added;
            multipliers[b] += added;
        }
    }
    witness
}
