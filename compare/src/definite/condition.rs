//! Conditions as text, in the form in which explanations print them: `2*g0 - l1 + 30 < 0`.
//!
//! A condition is a sum, an operator and 0. A sum is terms with + or - between them, the first of
//! which may have a - before it. A term is a number, a name, or a number, * and a name. Blanks and
//! tabs may stand around each of these.

use super::{Condition, Expression, Fault, Operator};
use crate::explain::names::{list, Names};

/// Each way of writing an operator, those first that another is the front of.
const OPERATORS: [(&str, Operator); 9] = [
    ("<=", Operator::AtMost),
    (">=", Operator::AtLeast),
    ("≤", Operator::AtMost),
    ("≥", Operator::AtLeast),
    ("<", Operator::Less),
    (">", Operator::Greater),
    ("=", Operator::Equal),
    ("≠", Operator::NotEqual),
    ("!=", Operator::NotEqual),
];

/// The condition that a text is, over so many globals and all columns; or what is wrong with it.
pub fn parse(text: &str, globals: usize, columns: usize) -> Result<Condition, String> {
    let mut reader = Reader {
        rest: text,
        names: Names { globals }.now(columns),
        constant: 0,
        coefficients: vec![0; columns],
    };
    reader.sum()?;
    let operator = reader.operator()?;
    if reader.rest.trim_matches(BLANKS) != "0" {
        return Err("the condition must end with 0: bring all else to the left".into());
    }
    Ok(Condition {
        operator,
        expression: reader.expression()?,
    })
}

const BLANKS: [char; 2] = [' ', '\t'];

struct Reader<'a> {
    /// What isn't read yet.
    rest: &'a str,
    /// Of the columns.
    names: Vec<String>,
    /// What the terms so far add up to.
    constant: i64,
    coefficients: Vec<i64>,
}

impl<'a> Reader<'a> {
    fn sum(&mut self) -> Result<(), String> {
        let mut is_negative = self.take("-");
        loop {
            self.term(is_negative)?;
            is_negative = match (self.take("+"), self.take("-")) {
                (false, false) => return Ok(()),
                (plus, _) => !plus,
            };
        }
    }

    fn term(&mut self, is_negative: bool) -> Result<(), String> {
        let word = self.word()?;
        let is_number = word.bytes().all(|byte| byte.is_ascii_digit());
        let (factor, column) = match is_number {
            false => (1, Some(self.column(word)?)),
            true => {
                let factor = word.parse().map_err(|_| beyond())?;
                let column = match self.take("*") {
                    true => Some(self.word().and_then(|name| self.column(name))?),
                    false => None,
                };
                (factor, column)
            }
        };
        let added: i64 = if is_negative { -factor } else { factor };
        let total = match column {
            Some(column) => &mut self.coefficients[column],
            None => &mut self.constant,
        };
        *total = total.checked_add(added).ok_or_else(beyond)?;
        Ok(())
    }

    /// The letters and digits at the front, of which there is one at least.
    fn word(&mut self) -> Result<&'a str, String> {
        self.rest = self.rest.trim_start_matches(BLANKS);
        let end = self.rest.find(|sign: char| !sign.is_ascii_alphanumeric());
        let (word, rest) = self.rest.split_at(end.unwrap_or(self.rest.len()));
        if word.is_empty() {
            return Err(format!("a number or a name is missing {}", self.place()));
        }
        self.rest = rest;
        Ok(word)
    }

    fn column(&self, name: &str) -> Result<usize, String> {
        let column = self.names.iter().position(|known| known == name);
        column.ok_or_else(|| match self.names[..] {
            [] => format!("{name} is no number, and there are no variables here"),
            _ => format!("{name} is no number and none of {}", list(&self.names)),
        })
    }

    fn operator(&mut self) -> Result<Operator, String> {
        let mut operators = OPERATORS.into_iter();
        let found = operators.find(|(text, _)| self.take(text));
        let missing = || format!("an operator, <, >, <= or >=, is missing {}", self.place());
        found.map(|(_, operator)| operator).ok_or_else(missing)
    }

    fn take(&mut self, token: &str) -> bool {
        let rest = self.rest.trim_start_matches(BLANKS);
        let behind = rest.strip_prefix(token);
        self.rest = behind.unwrap_or(rest);
        behind.is_some()
    }

    fn place(&self) -> String {
        match self.rest {
            "" => "at the end of the condition".into(),
            rest => format!("before '{rest}'"),
        }
    }

    fn expression(&self) -> Result<Expression, String> {
        let cells = [&[self.constant], &self.coefficients[..]].concat();
        Expression::within_limits(&cells).ok_or_else(beyond)
    }
}

fn beyond() -> String {
    Fault::BeyondLimits.to_string()
}
