//! What is wrong with a row of a sparse certificate, or with its row words as a whole: refusals 5, 25
//! and 15.

use super::entry_faults::{rows_end, Found, CONSTANT_ALONE};
use super::faults::range_text;
use super::names::count;
use crate::checker::linear::CONSTANT_WORDS;
use crate::files::WITNESS;

/// A row by the place of its first word.
pub struct SparseRow<'a> {
    pub place: usize,
    /// The names of all columns.
    pub names: &'a [String],
    /// Which row it is.
    pub of: &'a str,
    /// The place of the first word behind the row words.
    pub end: usize,
}

/// The words before the columns: the constant and the count.
const FRONT: usize = CONSTANT_WORDS + 1;

impl SparseRow<'_> {
    /// Finds fault with it; where the next row begins, if this one can be read to its end.
    pub fn test(&self, found: &mut Found) -> Option<usize> {
        let terms = self.count(found)?;
        let columns = self.place + FRONT;
        for column in columns..columns + terms {
            self.column(found, column);
            self.coefficient(found, column, column + terms);
        }
        Some(columns + 2 * terms)
    }

    /// How many columns it has, if as many words and again as many follow.
    fn count(&self, found: &mut Found) -> Option<usize> {
        let (of, place) = (self.of, self.place + CONSTANT_WORDS);
        if place >= self.end {
            let missing = format!("the count of {of}");
            found.range.add(rows_end(self.end, &missing));
            return None;
        }
        found.range.constant(self.place, of);
        let what = format!("how many coefficients {of} has");
        if !found
            .range
            .expect(place, 0..=self.names.len() as i64, &what)
        {
            return None;
        }
        let terms = found.range.word(place) as usize;
        let last = place + 2 * terms;
        if last >= self.end {
            found.range.add(format!(
                "Word {place} of {WITNESS} says that {of} has {} and {}: it would end at word {last}, \
                 and the row words end at word {}.",
                count(terms, "column"),
                count(terms, "coefficient"),
                self.end - 1
            ));
            return None;
        }
        if terms == 0 {
            let is = match self.names {
                [] => CONSTANT_ALONE,
                _ => "a constant, and no coefficients; there must be one at least",
            };
            found.constant_rows.words(self.place..place + 1, of, is);
        }
        Some(terms)
    }

    /// The name of the column that a word says, if there is one.
    fn name(&self, found: &Found, place: usize) -> Option<&String> {
        let column = usize::try_from(found.range.word(place)).ok()?;
        self.names.get(column)
    }

    fn column(&self, found: &mut Found, place: usize) {
        let Some(name) = self.name(found, place) else {
            let what = format!("a column of {}", self.of);
            found.range.unless(false, place, &what, &self.columns());
            return;
        };
        if place == self.place + FRONT {
            return;
        }
        let [before, column] = [place - 1, place].map(|place| found.order.word(place));
        let why = match column == before {
            true => "no column comes twice",
            false => "columns rise",
        };
        let what = format!("the column of {name} in {}", self.of);
        let should = format!("above {before}, the one before it: {why}");
        found.order.unless(column > before, place, &what, &should);
    }

    /// Which columns there are.
    fn columns(&self) -> String {
        let range = range_text(0..=self.names.len() as i64 - 1);
        match self.names {
            [first, .., last] => format!("{range}, for {first} to {last}"),
            names => format!("{range}, for {}", names.concat()),
        }
    }

    fn coefficient(&self, found: &mut Found, column: usize, place: usize) {
        let what = match self.name(found, column) {
            Some(name) => format!("the coefficient of {name} in {}", self.of),
            None => format!("a coefficient of {}", self.of),
        };
        found.range.expect(place, -1_000..=1_000, &what);
        let right = found.order.word(place) != 0;
        let should = "another number, or left out with its column";
        found.order.unless(right, place, &what, should);
    }
}

/// How many of the row words the first entries take, whose counts these are; all are well formed.
pub fn taken(rows: &[i32], counts: &[i32]) -> usize {
    let mut at = 0;
    for _ in 0..counts.iter().sum() {
        let of_disjunct = rows[at];
        at += 1;
        for _ in 0..of_disjunct {
            at += FRONT + 2 * rows[at + CONSTANT_WORDS] as usize;
        }
    }
    at
}

/// Refusal 25 at R, with the place of the first row word and all counts.
pub fn left_over(words: &[i32], rows: usize, counts: &[i32]) -> Vec<String> {
    let taken = taken(&words[rows..], counts);
    let (all, first) = (words[1] as usize, rows + taken);
    vec![format!(
        "The entries take {}, and R, word 1, says that there are {all}: word {first} of {WITNESS}, \
         which is {}, is the first that no entry takes, {} too many. A sparse certificate has none.",
        count(taken, "row word"),
        words[first],
        all - taken
    )]
}
