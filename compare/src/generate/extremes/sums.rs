//! The largest sums there can be: 64 premises, half of them rows of a summary whose actuals are at
//! the limits, and eight split rows, most of them with the largest multipliers. The sum's constant is
//! just enough, or one short.

use super::COEFFICIENT;
use crate::build::{
    Certificate, Combination, Disjunct, Edges, Expression, Next, Procedure, Program, Row, Sharing,
    Statement, Witness,
};
use crate::checker::Answer;
use crate::generate::constants::LARGEST;
use crate::generate::{judged, Pair};
use crate::random::Random;

const GLOBALS: usize = 8;
const LOCALS: usize = 8;
const COLUMNS: usize = GLOBALS + LOCALS;

/// Rows of a disjunct.
const ROWS: usize = 32;

/// Numbers at their limits, or within 1 of them.
struct Sizes {
    constant: i64,
    coefficient: i32,
    multiplier: i32,
    divisor: i32,
}

impl Sizes {
    fn any(random: &mut Random) -> Sizes {
        let mut near = |limit: i32| limit - random.between(0, 1);
        let [coefficient, multiplier, divisor] = [COEFFICIENT, 1_000, 1_000].map(&mut near);
        Sizes {
            constant: LARGEST - random.number(0, 1),
            coefficient,
            multiplier,
            divisor,
        }
    }

    fn constant(&self, random: &mut Random) -> i64 {
        *random.pick(&[1, -1]) * self.constant
    }

    /// All coefficients and the constant of this size.
    fn row(&self, random: &mut Random, columns: usize) -> Row {
        let mut cell = || *random.pick(&[1, -1]) * self.coefficient;
        Row {
            coefficients: (0..columns).map(|_| cell()).collect(),
            constant: self.constant(random),
        }
    }

    /// Rows and their opposites in turn, whose sum is 0. The last two are for a sum with this
    /// constant, if it is small.
    fn opposites(&self, random: &mut Random, columns: usize, sum: i64) -> Disjunct {
        let mut rows = Disjunct::new();
        for _ in 0..ROWS / 2 {
            let row = self.row(random, columns);
            rows.extend([opposite(&row), row]);
        }
        let first = if sum < 0 {
            -self.constant
        } else {
            self.constant
        };
        rows[ROWS - 2].constant = first;
        rows[ROWS - 1].constant = sum - first;
        rows
    }

    /// The multipliers of these rows: the last two once.
    fn multipliers(&self) -> Vec<i32> {
        [vec![self.multiplier; ROWS - 2], vec![1; 2]].concat()
    }
}

fn opposite(row: &Row) -> Row {
    Row {
        constant: -row.constant,
        coefficients: row.coefficients.iter().map(|cell| -cell).collect(),
    }
}

/// What the premises at a return show.
#[derive(Clone, Copy, PartialEq, Eq)]
enum Shown {
    /// A contradiction: huge constants cancel each other, and 1 is left, or 0.
    Contradiction,
    /// The same where all of them have one sign, and the sum is as large as it can be, or as low.
    OneSign,
    /// A row with a constant at the limit, by the largest divisor.
    Row,
}

/// A sum at a return that is just enough, and one that is short.
pub fn sums(random: &mut Random) -> [(Pair, Answer); 2] {
    let shown = *random.pick(&[Shown::Contradiction, Shown::OneSign, Shown::Row]);
    let sizes = Sizes::any(random);
    let actuals: Vec<Expression> = (0..LOCALS)
        .map(|_| match shown {
            Shown::OneSign => Expression::constant(COLUMNS, sizes.constant(random)),
            _ => sizes.row(random, COLUMNS),
        })
        .collect();
    let program = calling(&actuals).lined(random);
    let splits = *random.pick(&[0, 2, 8, 8]);
    let mut cuts = sizes.opposites(random, 2 * COLUMNS + GLOBALS, 0);
    cuts.truncate(splits);
    if shown == Shown::OneSign {
        set_constants(&mut cuts, sizes.constant);
    }
    let seed = random.word();
    [true, false].map(|is_enough| {
        // The same rows but for what is short.
        let random = &mut Random::new(seed);
        let back = Return::new(random, &sizes, shown, &actuals, is_enough);
        back.pair(&program, &sizes, &cuts, is_enough)
    })
}

/// Main has a skip, a call of a procedure that doesn't end, which nothing leads to, and a skip.
fn calling(actuals: &[Expression]) -> Program {
    let circle = |at| Statement::Skip {
        next: Next::Statement(at),
    };
    let call = Statement::call(Next::Statement(2), 1, actuals.to_vec());
    let body = |statements| Procedure {
        locals: LOCALS,
        parameters: LOCALS,
        statements,
    };
    let main = body(vec![circle(0), call, circle(2)]);
    Program::new(GLOBALS, vec![main, body(vec![circle(0)])])
}

/// The rows at the call, those of the callee's summary and the row at the return point, with the
/// multipliers of a leaf.
struct Return {
    rows: Disjunct,
    summary: Disjunct,
    target: Option<Row>,
    multipliers: Vec<i32>,
}

impl Return {
    fn new(
        random: &mut Random,
        sizes: &Sizes,
        shown: Shown,
        actuals: &[Expression],
        is_enough: bool,
    ) -> Return {
        let mut rows = sizes.opposites(random, 2 * COLUMNS, i64::from(is_enough));
        let mut multipliers = [sizes.multipliers(), vec![sizes.multiplier; ROWS]].concat();
        let summary = match shown {
            Shown::OneSign => {
                let sign = if is_enough { 1 } else { -1 };
                set_constants(&mut rows, i64::from(sign) * sizes.constant);
                one_sign(random, sizes, actuals, sign)
            }
            _ => {
                let columns = 2 * GLOBALS + LOCALS;
                sizes.opposites(random, columns, 0)
            }
        };
        let target = (shown == Shown::Row).then(|| {
            // The first row shows the target's but for the rest of the sum, and the second nothing.
            let target = sizes.row(random, 2 * COLUMNS);
            let target = at_return(target, sizes.constant);
            rows[0] = Row {
                constant: target.constant - 1,
                ..target.clone()
            };
            (multipliers[0], multipliers[1]) = (sizes.divisor, 0);
            target
        });
        Return {
            rows,
            summary,
            target,
            multipliers,
        }
    }

    /// With a comb of splits at these rows.
    fn pair(
        self,
        program: &Program,
        sizes: &Sizes,
        cuts: &[Row],
        is_enough: bool,
    ) -> (Pair, Answer) {
        let leaf = |added: Vec<i32>| {
            let multipliers = [&self.multipliers[..], &added].concat();
            match self.target {
                None => Witness::Contradiction(multipliers),
                Some(_) => by_row(sizes.divisor, multipliers),
            }
        };
        let tree = comb(cuts, sizes.multiplier, 0, &leaf);
        let returned: Vec<Disjunct> = self.target.iter().map(|row| vec![row.clone()]).collect();
        let mut witnesses = vec![anything(), anything(), anything(), tree];
        witnesses.extend(returned.iter().map(|_| by_row(1, vec![1])));
        witnesses.push(anything());
        let always = vec![Disjunct::new()];
        let path = vec![
            always.clone(),
            vec![self.rows.clone()],
            returned,
            always,
            Vec::new(),
            Vec::new(),
        ];
        let edges = Edges {
            path,
            summaries: vec![Vec::new(), vec![self.summary.clone()]],
        };
        let certificate = Certificate { edges, witnesses };
        let refused = (!is_enough).then_some(3);
        judged(program, &certificate, refused, Sharing::Apart)
    }
}

fn set_constants(rows: &mut [Row], constant: i64) {
    rows.iter_mut().for_each(|row| row.constant = constant);
}

/// Rows of a summary that give constants of one sign for these actuals, as far from 0 as can be. The
/// coefficients of the globals cancel each other.
fn one_sign(random: &mut Random, sizes: &Sizes, actuals: &[Expression], sign: i32) -> Disjunct {
    let mut rows = sizes.opposites(random, 2 * GLOBALS + LOCALS, 0);
    set_constants(&mut rows, i64::from(sign) * sizes.constant);
    for row in &mut rows {
        let parameters = &mut row.coefficients[GLOBALS..GLOBALS + LOCALS];
        for (cell, actual) in parameters.iter_mut().zip(actuals) {
            *cell = sign * actual.constant.signum() as i32 * sizes.coefficient;
        }
    }
    rows
}

/// The row without the globals now, which are others after a call; its constant at the limit and by
/// 1 less still within it.
fn at_return(mut row: Row, limit: i64) -> Row {
    row.coefficients[COLUMNS..COLUMNS + GLOBALS].fill(0);
    row.constant = row.constant.max(1 - limit);
    row
}

fn anything() -> Witness {
    Witness::Disjunct {
        number: 1,
        rows: Vec::new(),
    }
}

fn by_row(divisor: i32, multipliers: Vec<i32>) -> Witness {
    Witness::Disjunct {
        number: 1,
        rows: vec![Combination {
            divisor,
            multipliers,
        }],
    }
}

/// A comb of splits at these rows from this one on, which goes on at first sides. A leaf gets the
/// multipliers of the split rows above it: a row and its opposite cancel each other.
fn comb(
    cuts: &[Row],
    multiplier: i32,
    from: usize,
    leaf: &impl Fn(Vec<i32>) -> Witness,
) -> Witness {
    let taken = |splits: usize, first_sides: usize| {
        let both = |at: usize| at / 2 * 2 + 1 < first_sides;
        let numbers = (0..splits).map(|at| if both(at) { multiplier } else { 0 });
        leaf(numbers.collect())
    };
    match cuts.get(from) {
        None => taken(from, from),
        Some(row) => {
            let sides = [
                comb(cuts, multiplier, from + 1, leaf),
                taken(from + 1, from),
            ];
            Witness::split(row.clone(), sides)
        }
    }
}

/// A row where a call begins whose constant is just low enough for the sum of the caller's rows with
/// the largest divisor, and the same one higher: the actuals cancel each other, or have one sign.
pub fn goals(random: &mut Random) -> [(Pair, Answer); 2] {
    let sizes = Sizes::any(random);
    let actuals: Vec<Expression> = (0..LOCALS)
        .map(|_| Expression::constant(COLUMNS, sizes.constant(random)))
        .collect();
    let program = calling(&actuals).lined(random);
    let cancel = random.chance(50);
    let least = 1 - i64::from(sizes.divisor);
    let rows = sizes.opposites(random, 2 * COLUMNS, least);
    [true, false].map(|is_enough| {
        let sign = if is_enough { -1 } else { 1 };
        let signs = if cancel { [1, -1] } else { [sign; 2] };
        let goal = weighing(&sizes, &actuals, signs, i64::from(!is_enough));
        let edges = Edges {
            path: vec![
                vec![Disjunct::new()],
                vec![rows.clone()],
                Vec::new(),
                vec![vec![goal]],
                Vec::new(),
                Vec::new(),
            ],
            summaries: vec![Vec::new(); 2],
        };
        let witnesses = vec![
            anything(),
            anything(),
            by_row(sizes.divisor, sizes.multipliers()),
            by_row(1, vec![1]),
        ];
        let certificate = Certificate { edges, witnesses };
        let refused = (!is_enough).then_some(2);
        judged(&program, &certificate, refused, Sharing::Apart)
    })
}

/// A row of the callee with this constant, in which each actual counts with one of these signs in turn,
/// at entry and now.
fn weighing(sizes: &Sizes, actuals: &[Expression], signs: [i32; 2], constant: i64) -> Row {
    let mut row = Row::constant(2 * COLUMNS, constant);
    for (at, actual) in actuals.iter().enumerate() {
        let cell = signs[at % 2] * actual.constant.signum() as i32 * sizes.coefficient;
        for before in [0, COLUMNS] {
            row.coefficients[before + GLOBALS + at] = cell;
        }
    }
    row
}
