//! Names of variables and procedures, and sums and conditions over them.
//!
//! Globals are g0, g1, .., a procedure's locals l0, l1, .., parameters first. A name alone means the
//! value now; behind an @ stands when else, or whose it is.

use crate::checker::program::{Expression, Guard, Operator};
use crate::checker::row::Row;

/// `main`, and from the second on `p2`, `p3`, ..; counted from 0 as the checker does.
pub fn procedure(procedure: usize) -> String {
    match procedure {
        0 => "main".into(),
        _ => format!("p{}", procedure + 1),
    }
}

/// The columns of all procedures are named by how many globals there are.
#[derive(Clone, Copy)]
pub struct Names {
    pub globals: usize,
}

impl Names {
    pub fn column(self, column: usize) -> String {
        match column.checked_sub(self.globals) {
            None => format!("g{column}"),
            Some(local) => format!("l{local}"),
        }
    }

    /// Values now, of the first so many columns.
    pub fn now(self, columns: usize) -> Vec<String> {
        (0..columns).map(|column| self.column(column)).collect()
    }

    /// The columns of a path edge: at entry, then now.
    pub fn path(self, columns: usize) -> Vec<String> {
        [self.when(columns, "entry"), self.now(columns)].concat()
    }

    /// The columns of a summary edge: globals and parameters at entry, globals at exit.
    pub fn summary(self, parameters: usize) -> Vec<String> {
        let entry = self.when(self.globals + parameters, "entry");
        [entry, self.when(self.globals, "exit")].concat()
    }

    /// The columns where a call returns: the caller's, now at the call, and the globals after it.
    pub fn back(self, columns: usize) -> Vec<String> {
        [self.path(columns), self.when(self.globals, "return")].concat()
    }

    /// Values at another time, or of another procedure.
    pub fn when(self, columns: usize, when: &str) -> Vec<String> {
        let names = self.now(columns).into_iter();
        names.map(|name| format!("{name}@{when}")).collect()
    }

    pub fn expression(self, expression: &Expression) -> String {
        let names = self.now(expression.coefficients.len());
        sum(expression.constant, &expression.coefficients, &names)
    }

    pub fn guard(self, guard: &Guard) -> String {
        self.condition(&guard.expression, guard.operator)
    }

    /// `expression operator 0`, or `?`.
    pub fn condition(self, expression: &Expression, operator: Operator) -> String {
        match sign(operator) {
            "?" => "?".into(),
            sign => format!("{} {sign} 0", self.expression(expression)),
        }
    }

    /// `g0 = 1, l0 = 2`; a value of each column.
    pub fn values(self, values: impl Iterator<Item = i64>) -> String {
        let equations: Vec<String> = values
            .enumerate()
            .map(|(column, value)| format!("{} = {value}", self.column(column)))
            .collect();
        match equations[..] {
            [] => "no variables".into(),
            _ => equations.join(", "),
        }
    }
}

pub fn sign(operator: Operator) -> &'static str {
    match operator {
        Operator::Any => "?",
        Operator::Less => "<",
        Operator::Greater => ">",
        Operator::AtMost => "≤",
        Operator::AtLeast => "≥",
        Operator::Equal => "=",
        Operator::NotEqual => "≠",
    }
}

/// A row of a certificate as the inequality that it is.
pub fn row(row: Row, names: &[String]) -> String {
    let coefficients = row.coefficients(names.len());
    let coefficients: Vec<i64> = coefficients.into_iter().map(i64::from).collect();
    format!("{} ≤ 0", sum(row.constant(), &coefficients, names))
}

/// A constant and coefficients as an inequality.
pub fn inequality(cells: &[i64], names: &[String]) -> String {
    format!("{} ≤ 0", sum(cells[0], &cells[1..], names))
}

/// The terms that aren't 0 and then the constant: `2*g0 - l1 + 30`.
pub fn sum(constant: i64, coefficients: &[i64], names: &[String]) -> String {
    let terms = coefficients.iter().zip(names);
    let terms = terms.filter(|(coefficient, _)| **coefficient != 0);
    let mut text = String::new();
    for (&coefficient, name) in terms {
        let factor = match coefficient.unsigned_abs() {
            1 => String::new(),
            size => format!("{size}*"),
        };
        add(&mut text, coefficient < 0, &format!("{factor}{name}"));
    }
    if constant != 0 || text.is_empty() {
        add(
            &mut text,
            constant < 0,
            &constant.unsigned_abs().to_string(),
        );
    }
    text
}

fn add(text: &mut String, negative: bool, term: &str) {
    let sign = match (text.is_empty(), negative) {
        (true, false) => "",
        (true, true) => "-",
        (false, false) => " + ",
        (false, true) => " - ",
    };
    *text += sign;
    *text += term;
}

/// `one`, `one and two`, `one, two and three`.
pub fn list(parts: &[String]) -> String {
    match parts {
        [] => String::new(),
        [one] => one.clone(),
        [front @ .., last] => format!("{} and {last}", front.join(", ")),
    }
}

/// `1 word`, `2 words`.
pub fn count(number: usize, noun: &str) -> String {
    match number {
        1 => format!("1 {noun}"),
        _ => format!("{number} {noun}s"),
    }
}

/// `word 3`, `words 3 to 5`.
pub fn places(first: usize, last: usize) -> String {
    match first == last {
        true => format!("word {first}"),
        false => format!("words {first} to {last}"),
    }
}

/// A number with commas, as the documents write limits.
pub fn with_commas(number: u64) -> String {
    match number {
        0..=999 => number.to_string(),
        _ => format!("{},{:03}", with_commas(number / 1_000), number % 1_000),
    }
}
