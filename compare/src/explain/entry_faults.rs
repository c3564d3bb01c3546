//! What is wrong with an entry of a certificate: refusals 5, 25 and 15.

use super::edges::columns;
use super::faults::Faults;
use super::names::{count, procedure};
use super::sparse_faults::{left_over, taken, SparseRow};
use super::witness_faults::entries;
use crate::checker::certificate::Target;
use crate::checker::linear::{linear_words, Linear};
use crate::checker::program::Program;
use crate::checker::row::Form;
use crate::files::WITNESS;

/// Place of R.
const ROW_WORDS: usize = 1;

/// Place of the first count word.
const COUNTS: usize = 3;

/// Of the entry whose count word stands at the place; or 25 of the row words as a whole.
pub fn entry(program: &Program, words: &[i32], place: usize) -> Vec<String> {
    if place == ROW_WORDS {
        let entry = Entry::new(program, words, COUNTS);
        return left_over(words, entry.rows, &words[COUNTS..entry.place]);
    }
    let entry = Entry::new(program, words, place);
    let mut found = Found::new(words);
    entry.test(&mut found);
    let mut sentences = found.first();
    if !sentences.is_empty() {
        sentences.insert(0, format!("It is the entry of {}.", entry.name()));
    }
    sentences
}

/// What was found wrong with an entry, by the test that refuses it.
pub struct Found<'a> {
    /// 5.
    pub range: Faults<'a>,
    /// 25, for its place and for its rows.
    place: Faults<'a>,
    pub order: Faults<'a>,
    /// 15.
    pub constant_rows: Faults<'a>,
}

impl<'a> Found<'a> {
    fn new(words: &'a [i32]) -> Found<'a> {
        let none = || Faults::new(WITNESS, words);
        Found {
            range: none(),
            place: none(),
            order: none(),
            constant_rows: none(),
        }
    }

    /// What the first test that fails finds. A wrong place is said with 5 too: what stands there may
    /// be of another entry.
    fn first(self) -> Vec<String> {
        let [range, place, order, constant_rows] =
            [self.range, self.place, self.order, self.constant_rows].map(Faults::found);
        if !range.is_empty() {
            return [range, place].concat();
        }
        match [place, order].concat() {
            none if none.is_empty() => constant_rows,
            found => found,
        }
    }
}

/// What the entry at the place of a count word is of.
fn target(program: &Program, place: usize) -> Target {
    let at = place - COUNTS;
    match at.checked_sub(program.vertices()) {
        None => Target::Path(at + 1),
        Some(number) => Target::Summary(number),
    }
}

struct Entry<'a> {
    target: Target,
    columns: Vec<String>,
    words: &'a [i32],
    /// Places of its count word, of its place word, of the first row word and of the first word behind
    /// the row words.
    count: usize,
    place: usize,
    rows: usize,
    end: usize,
}

impl<'a> Entry<'a> {
    fn new(program: &Program, words: &'a [i32], place: usize) -> Entry<'a> {
        let target = target(program, place);
        let entries = entries(program);
        let rows = COUNTS + 2 * entries;
        Entry {
            target,
            columns: columns(program, target),
            words,
            count: place,
            place: place + entries,
            rows,
            end: rows + words[ROW_WORDS] as usize,
        }
    }

    fn name(&self) -> String {
        match self.target {
            Target::Path(vertex) => format!("vertex {vertex}"),
            Target::Summary(number) => format!("the summary of {}", procedure(number)),
        }
    }

    fn is_sparse(&self) -> bool {
        self.words[0] == Form::Sparse.mark()
    }

    /// Finds fault with the first thing that keeps the entry from being read on, and with every word
    /// up to there.
    fn test(&self, found: &mut Found) {
        let name = self.name();
        let what = format!("how many disjuncts {name} has");
        if !found.range.expect(self.count, 0..=8, &what) {
            return;
        }
        let disjuncts = self.words[self.count];
        let has_place = match self.is_sparse() {
            true => self.has_free_place(found),
            false => disjuncts == 0 || self.has_place(found),
        };
        if disjuncts == 0 || !has_place {
            return;
        }
        let mut at = self.rows + self.words[self.place] as usize;
        for disjunct in 1..=disjuncts {
            let of = format!("disjunct {disjunct} of {name}");
            match self.disjunct(found, at, &of) {
                Some(next) => at = next,
                None => break,
            }
        }
    }

    fn place_of_disjuncts(&self) -> String {
        format!(
            "the place in the row words of the disjuncts of {}",
            self.name()
        )
    }

    fn is_place_inside(&self) -> bool {
        let rows = self.end - self.rows;
        usize::try_from(self.words[self.place]).is_ok_and(|place| place < rows)
    }

    /// 5 by the place word of an entry that has disjuncts.
    fn has_place(&self, found: &mut Found) -> bool {
        let should = match self.end - self.rows {
            0 => "in the row words, and there are none".into(),
            1 => "0, for there is 1 row word".into(),
            rows => format!("0 to {}, for there are {rows} row words", rows - 1),
        };
        let (inside, what) = (self.is_place_inside(), self.place_of_disjuncts());
        found.range.unless(inside, self.place, &what, &should)
    }

    /// 25 by the place word in sparse form, or 5 where nothing can be read from there on. All entries
    /// before are well formed.
    fn has_free_place(&self, found: &mut Found) -> bool {
        let free = taken(&self.words[self.rows..], &self.words[COUNTS..self.count]);
        let is_free = usize::try_from(self.words[self.place]) == Ok(free);
        let is_empty = self.words[self.count] == 0;
        let is_read = is_empty || is_free || self.is_place_inside();
        let (what, should) = match is_empty {
            true => (
                format!("the place of {}, which has no disjuncts", self.name()),
                format!("{free}, the next free one, as for any other entry"),
            ),
            false => (
                self.place_of_disjuncts(),
                format!("{free}, the next free one"),
            ),
        };
        let faults = match is_read {
            true => &mut found.place,
            false => &mut found.range,
        };
        faults.unless(is_free, self.place, &what, &should);
        is_read
    }

    /// Where the next disjunct begins, if this one can be read to its end.
    fn disjunct(&self, found: &mut Found, at: usize, of: &str) -> Option<usize> {
        if at >= self.end {
            found.range.add(match self.end - self.rows {
                0 => format!("There are no row words, and so no {of}."),
                _ => rows_end(self.end, of),
            });
            return None;
        }
        let what = format!("how many rows {of} has");
        if !found.range.expect(at, 0..=32, &what) {
            return None;
        }
        match self.is_sparse() {
            true => self.sparse_rows(found, at, of),
            false => self.dense_rows(found, at, of),
        }
    }

    fn sparse_rows(&self, found: &mut Found, at: usize, of: &str) -> Option<usize> {
        let mut place = at + 1;
        for row in 1..=self.words[at] {
            let row = SparseRow {
                place,
                names: &self.columns,
                of: &format!("row {row} of {of}"),
                end: self.end,
            };
            place = row.test(found)?;
        }
        Some(place)
    }

    fn dense_rows(&self, found: &mut Found, at: usize, of: &str) -> Option<usize> {
        let width = linear_words(self.columns.len());
        let rows = self.words[at] as usize;
        let next = at + 1 + rows * width;
        if next > self.end {
            found.range.add(format!(
                "Word {at} of {WITNESS} says that {of} has {}, of {} each: it would end at word {}, \
                 and the row words end at word {}.",
                count(rows, "row"),
                count(width, "word"),
                next - 1,
                self.end - 1
            ));
            return None;
        }
        for row in 0..rows {
            let (place, of) = (at + 1 + row * width, format!("row {} of {of}", row + 1));
            found.range.expression(place, &self.columns, &of);
            self.constant_row(found, place, &of);
        }
        Some(next)
    }

    fn constant_row(&self, found: &mut Found, place: usize, of: &str) {
        let end = place + linear_words(self.columns.len());
        let row = &self.words[place..end];
        if !Linear::of(row).is_constant() {
            return;
        }
        let is = match self.columns[..] {
            [] => CONSTANT_ALONE,
            _ => "a constant, and coefficients that are all 0; one of them at least must not be 0",
        };
        found.constant_rows.words(place..end, of, is);
    }
}

/// Said where something isn't there, behind which place the row words end.
pub fn rows_end(end: usize, before: &str) -> String {
    let last = end - 1;
    format!("The row words end at word {last} of {WITNESS}, before {before}.")
}

/// What is wrong with a row where there are no columns.
pub const CONSTANT_ALONE: &str =
    "a constant alone, for there are no variables; such a row must not be there";
