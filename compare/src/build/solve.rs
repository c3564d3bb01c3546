//! The search for multipliers: phase 1 of the simplex method in whole numbers.

use super::Combination;
use crate::checker::entailment::Matrix;

const LARGEST: i128 = 1_000;
const PIVOTS: usize = 400;

/// The goal, a constant and coefficients, as the sum of at most two premises.
pub fn plain(premises: &Matrix, goal: &[i64]) -> Option<Combination> {
    plain_sum(premises, goal).map(|multipliers| Combination {
        divisor: 1,
        multipliers,
    })
}

/// A divisor and multipliers that give the goal from the premises, by rounding only if need be.
pub fn combination(premises: &Matrix, goal: &[i64]) -> Option<Combination> {
    plain(premises, goal)
        .or_else(|| exact(premises, goal))
        .or_else(|| rounded(premises, goal))
}

fn exact(premises: &Matrix, goal: &[i64]) -> Option<Combination> {
    let (multipliers, divisor) = solve(premises, goal)?;
    lowest(multipliers, divisor)
}

/// A sum that gives the goal only because its variables are whole numbers: over fractions it gives
/// one whose constant is above the goal's less 1, by a 1,000th or more.
fn rounded(premises: &Matrix, goal: &[i64]) -> Option<Combination> {
    let scale = LARGEST as i64;
    let mut finer: Vec<i64> = goal.iter().map(|cell| scale * cell).collect();
    finer[0] += 1 - scale;
    let (multipliers, divisor) = solve(premises, &finer)?;
    lowest(multipliers, LARGEST * divisor)
}

/// The combination in lowest terms, if its numbers are in range.
fn lowest(multipliers: Vec<i128>, divisor: i128) -> Option<Combination> {
    let common = multipliers.iter().copied().fold(divisor, gcd);
    let multipliers = multipliers.into_iter().map(|number| small(number / common));
    Some(Combination {
        divisor: small(divisor / common)?,
        multipliers: multipliers.collect::<Option<_>>()?,
    })
}

/// Multipliers whose sum has no coefficients and a constant of at least 1.
pub fn contradiction(premises: &Matrix) -> Option<Vec<i32>> {
    if let Some(multipliers) = plain_contradiction(premises) {
        return Some(multipliers);
    }
    let (multipliers, _) = solve(premises, &absurd(premises))?;
    let common = multipliers.iter().copied().fold(0, gcd);
    let reduced = multipliers.into_iter().map(|number| small(number / common));
    reduced.collect()
}

/// The same by at most two premises.
pub fn plain_contradiction(premises: &Matrix) -> Option<Vec<i32>> {
    plain_sum(premises, &absurd(premises))
}

/// 1 ≤ 0.
fn absurd(premises: &Matrix) -> Vec<i64> {
    let mut goal = vec![0; premises.width()];
    goal[0] = 1;
    goal
}

/// Multipliers 1 for at most two premises whose sum is the goal, the most common combinations.
fn plain_sum(premises: &Matrix, goal: &[i64]) -> Option<Vec<i32>> {
    let rows: Vec<&[i64]> = premises.rows().collect();
    let mut multipliers = vec![0; rows.len()];
    let zero = vec![0; goal.len()];
    let is_goal = |a: &[i64], b: &[i64]| {
        let mut cells = a.iter().zip(b).zip(goal).skip(1);
        a[0] + b[0] >= goal[0] && cells.all(|((a, b), wanted)| a + b == *wanted)
    };
    if is_goal(&zero, &zero) {
        return Some(multipliers);
    }
    for (at, row) in rows.iter().enumerate() {
        if is_goal(row, &zero) {
            multipliers[at] = 1;
            return Some(multipliers);
        }
    }
    for (at, row) in rows.iter().enumerate() {
        if let Some(offset) = rows[at + 1..].iter().position(|other| is_goal(row, other)) {
            multipliers[at] = 1;
            multipliers[at + 1 + offset] = 1;
            return Some(multipliers);
        }
    }
    None
}

fn small(number: i128) -> Option<i32> {
    (number <= LARGEST).then_some(number as i32)
}

fn gcd(a: i128, b: i128) -> i128 {
    match b {
        0 => a,
        _ => gcd(b, a % b),
    }
}

/// Multipliers and a divisor, all at least 0.
fn solve(premises: &Matrix, goal: &[i64]) -> Option<(Vec<i128>, i128)> {
    let rows: Vec<&[i64]> = premises.rows().collect();
    let useful = useful(&rows, goal)?;
    let mut tableau = Tableau::new(&rows, &useful, goal);
    tableau.solve()?;
    let mut multipliers = vec![0; rows.len()];
    for (basic, equation) in tableau.basis.iter().zip(&tableau.equations) {
        if let Some(used) = basic.and_then(|basic| useful.get(basic)) {
            multipliers[*used] = equation[useful.len() + 1];
        }
    }
    Some((multipliers, tableau.divisor))
}

/// The premises that can have a multiplier above 0. One whose coefficient in some column only
/// pushes the sum away from the goal's cannot.
fn useful(rows: &[&[i64]], goal: &[i64]) -> Option<Vec<usize>> {
    let mut useful: Vec<usize> = (0..rows.len()).collect();
    loop {
        let before = useful.len();
        for (column, &wanted) in goal.iter().enumerate().skip(1) {
            let has = |sign: i64| useful.iter().any(|&at| rows[at][column].signum() == sign);
            let (up, down) = (has(1), has(-1));
            if (wanted > 0 && !up) || (wanted < 0 && !down) {
                return None;
            }
            if wanted == 0 && up != down {
                useful.retain(|&at| rows[at][column] == 0);
            }
        }
        if useful.len() == before {
            return Some(useful);
        }
    }
}

/// Equations over the multipliers and one surplus variable, divided throughout by `divisor`. What
/// an equation lacks to its last cell is an artificial variable; `basis` has none for it.
struct Tableau {
    equations: Vec<Vec<i128>>,
    /// The sum of the artificial variables, as one more equation.
    lack: Vec<i128>,
    basis: Vec<Option<usize>>,
    divisor: i128,
}

impl Tableau {
    fn new(rows: &[&[i64]], useful: &[usize], goal: &[i64]) -> Tableau {
        let mut equations = Vec::new();
        for column in 0..goal.len() {
            let surplus = if column == 0 { -1 } else { 0 };
            let cells = useful.iter().map(|&at| rows[at][column]);
            let mut equation: Vec<i128> = cells
                .chain([surplus, goal[column]])
                .map(i128::from)
                .collect();
            if goal[column] < 0 {
                equation.iter_mut().for_each(|cell| *cell = -*cell);
            }
            if equation.iter().any(|&cell| cell != 0) {
                equations.push(equation);
            }
        }
        let mut lack = vec![0; useful.len() + 2];
        for equation in &equations {
            for (sum, cell) in lack.iter_mut().zip(equation) {
                *sum += cell;
            }
        }
        Tableau {
            basis: vec![None; equations.len()],
            equations,
            lack,
            divisor: 1,
        }
    }

    /// Pivots until nothing is lacking. Bland's rule keeps it from going round in circles.
    fn solve(&mut self) -> Option<()> {
        let last = self.lack.len() - 1;
        for _ in 0..PIVOTS {
            if self.lack[last] == 0 {
                return Some(());
            }
            let column = self.lack[..last].iter().position(|&cell| cell > 0)?;
            let mut chosen: Option<usize> = None;
            for (at, equation) in self.equations.iter().enumerate() {
                if equation[column] <= 0 {
                    continue;
                }
                let better = chosen.map_or(Some(true), |other| {
                    let left = equation[last].checked_mul(self.equations[other][column])?;
                    let right = self.equations[other][last].checked_mul(equation[column])?;
                    Some((left, self.basis[at]) < (right, self.basis[other]))
                });
                if better? {
                    chosen = Some(at);
                }
            }
            self.pivot(chosen?, column)?;
        }
        None
    }

    /// Every cell stays a whole number: the old divisor divides each of the new ones.
    fn pivot(&mut self, at: usize, column: usize) -> Option<()> {
        let row = self.equations[at].clone();
        let others = self.equations.iter_mut().enumerate();
        let others = others.filter(|(other, _)| *other != at);
        for equation in others.map(|(_, equation)| equation).chain([&mut self.lack]) {
            let factor = equation[column];
            for (cell, pivot) in equation.iter_mut().zip(&row) {
                let kept = cell.checked_mul(row[column])?;
                let taken = factor.checked_mul(*pivot)?;
                *cell = kept.checked_sub(taken)? / self.divisor;
            }
        }
        self.basis[at] = Some(column);
        self.divisor = row[column];
        Some(())
    }
}
