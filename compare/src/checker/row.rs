//! Rows of entries in the two forms of a certificate.

use super::linear::{constant, is_constant_within_limits, COEFFICIENTS, CONSTANT_WORDS};
use super::within;

/// How a certificate stores the rows of its entries.
#[derive(Clone, Copy, Debug, PartialEq, Eq)]
pub enum Form {
    /// A coefficient for each column.
    Dense,
    /// A count, so many columns, and a coefficient for each of them.
    Sparse,
}

impl Form {
    pub const ALL: [Form; 2] = [Form::Dense, Form::Sparse];

    /// The first word of such a certificate.
    pub fn mark(self) -> i32 {
        match self {
            Form::Dense => 1,
            Form::Sparse => 4,
        }
    }

    /// That of a certificate with this mark.
    pub fn of(mark: i32) -> Option<Form> {
        Form::ALL.into_iter().find(|form| form.mark() == mark)
    }
}

/// A row of an entry, its words where they stand. It means "sum ≤ 0".
#[derive(Clone, Copy, Debug)]
pub struct Row<'a> {
    /// The high word and the low word of the constant.
    pub spelling: [i32; 2],
    /// The columns of the coefficients; nothing in dense form, where all columns have one.
    columns: Option<&'a [i32]>,
    coefficients: &'a [i32],
}

impl<'a> Row<'a> {
    /// Takes a row over so many columns off the front, if all of its words are there.
    pub fn take(rest: &mut &'a [i32], form: Form, columns: usize) -> Option<Row<'a>> {
        let spelling = rest.split_off(..CONSTANT_WORDS)?;
        let (listed, coefficients) = match form {
            Form::Dense => (None, rest.split_off(..columns)?),
            Form::Sparse => {
                let count = within(*rest.split_off_first()?, 0..=columns)?;
                (Some(rest.split_off(..count)?), rest.split_off(..count)?)
            }
        };
        Some(Row {
            spelling: [spelling[0], spelling[1]],
            columns: listed,
            coefficients,
        })
    }

    /// Whether its constant, its columns, of which there are so many, and its coefficients are in
    /// their ranges.
    pub fn is_in_range(self, columns: usize) -> bool {
        let [high, low] = self.spelling;
        let is_column = |word: &i32| usize::try_from(*word).is_ok_and(|column| column < columns);
        is_constant_within_limits(high, low)
            && self.columns.unwrap_or_default().iter().all(is_column)
            && self
                .coefficients
                .iter()
                .all(|coefficient| COEFFICIENTS.contains(coefficient))
    }

    /// Whether its columns rise and none of its coefficients is 0, as sparse form asks.
    pub fn is_sparse(self) -> bool {
        let columns = self.columns.unwrap_or_default();
        columns.is_sorted_by(|earlier, later| earlier < later) && !self.coefficients.contains(&0)
    }

    /// Whether the coefficients are all 0, as they are where there are none.
    pub fn is_constant(self) -> bool {
        self.coefficients
            .iter()
            .all(|&coefficient| coefficient == 0)
    }

    pub fn constant(self) -> i64 {
        let [high, low] = self.spelling;
        constant(high, low)
    }

    /// Columns, rising, and their coefficients; a column that isn't among them has 0.
    pub fn terms(self) -> impl Iterator<Item = (usize, i32)> + 'a {
        let terms = self.coefficients.iter().enumerate();
        terms.map(move |(at, &coefficient)| {
            let column = self.columns.map_or(at, |columns| columns[at] as usize);
            (column, coefficient)
        })
    }

    /// A coefficient for each of so many columns.
    pub fn coefficients(self, columns: usize) -> Vec<i32> {
        let mut coefficients = vec![0; columns];
        for (column, coefficient) in self.terms() {
            coefficients[column] = coefficient;
        }
        coefficients
    }
}
