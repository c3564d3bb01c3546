//! Certificates of both forms, written entry by entry, and words of all sorts that look like sparse
//! ones.

mod large;

pub use large::{large, most_shared, with_result, LargeResult};

use super::program_words::ProgramWords;
use super::{aimed, certificates, damage, splits, traces, Pair};
use crate::checker::linear::{linear_words, CONSTANT_WORDS};
pub use crate::checker::row::Form;
use crate::random::Random;
use std::iter;

/// What a certificate says, apart from how its words stand; and, where it is to be wrong, words that
/// aren't what the rest says.
#[derive(Clone, Debug, PartialEq, Eq)]
pub struct Parts {
    /// Those of the vertices and then those of the summaries.
    pub entries: Vec<Entry>,
    pub witness_words: Vec<i32>,
    /// The entries, counted from 0, in the order in which their words stand.
    pub order: Vec<usize>,
    /// Row words at the end that no entry uses.
    pub left: Vec<i32>,
}

#[derive(Clone, Debug, PartialEq, Eq)]
pub struct Entry {
    pub columns: usize,
    pub disjuncts: Vec<Disjunct>,
    /// Its count word, if it isn't how many disjuncts there are.
    pub count: Option<i32>,
    /// Its place word, if it isn't where its words stand.
    pub place: Option<Place>,
    /// Row words before its own that no entry uses.
    pub before: Vec<i32>,
}

/// Where an entry says that its words stand.
#[derive(Clone, Copy, Debug, PartialEq, Eq)]
pub enum Place {
    At(i32),
    /// So far behind its words, or before them.
    Off(i32),
    /// So far behind the end of the row words.
    Past(i32),
}

#[derive(Clone, Debug, PartialEq, Eq)]
pub struct Disjunct {
    /// Its row count, if it isn't how many rows there are.
    pub count: Option<i32>,
    pub rows: Vec<Row>,
}

#[derive(Clone, Debug, PartialEq, Eq)]
pub struct Row {
    /// The high word and the low word of its constant.
    pub spelling: [i32; 2],
    /// Its count word in sparse form, if it isn't how many terms there are.
    pub count: Option<i32>,
    /// Columns and their coefficients.
    pub terms: Vec<(i32, i32)>,
}

impl Parts {
    /// That of a well-formed dense certificate.
    pub fn of(pair: &Pair) -> Parts {
        let given = ProgramWords(&pair.program);
        let words = &pair.witness;
        let entry = |number: usize| {
            let columns = given.entry_columns(number);
            let disjuncts = given.entry_rows(words, number).into_iter();
            let disjunct = |rows: Vec<usize>| Disjunct {
                count: None,
                rows: rows
                    .into_iter()
                    .map(|place| Row::dense(&words[place..place + linear_words(columns)]))
                    .collect(),
            };
            Entry::new(columns, disjuncts.map(disjunct).collect())
        };
        let entries = (1..=given.entries()).map(entry).collect();
        let witnesses = words.len() - words[2] as usize;
        Parts::new(entries, words[witnesses..].to_vec())
    }

    pub fn new(entries: Vec<Entry>, witness_words: Vec<i32>) -> Parts {
        Parts {
            order: (0..entries.len()).collect(),
            entries,
            witness_words,
            left: Vec::new(),
        }
    }

    /// Its words, each entry at the next free place.
    pub fn words(&self, form: Form) -> Vec<i32> {
        let (mut rows, mut starts) = (Vec::new(), vec![0; self.entries.len()]);
        for &at in &self.order {
            let entry = &self.entries[at];
            rows.extend(&entry.before);
            starts[at] = rows.len() as i32;
            entry.add_words(form, &mut rows);
        }
        rows.extend(&self.left);
        let end = rows.len() as i32;
        let counts = self.entries.iter().map(Entry::count_word);
        let places = self.entries.iter().zip(starts);
        let places = places.map(|(entry, start)| match entry.place {
            None => start,
            Some(Place::At(place)) => place,
            Some(Place::Off(by)) => start + by,
            Some(Place::Past(by)) => end + by,
        });
        let mut words = vec![form.mark(), end, self.witness_words.len() as i32];
        words.extend(counts.chain(places));
        words.extend(rows);
        words.extend(&self.witness_words);
        words
    }

    /// Its words in this form, with the program's.
    pub fn pair(&self, program: &[i32], form: Form) -> Pair {
        Pair {
            program: program.to_vec(),
            witness: self.words(form),
        }
    }

    /// Where in the row words an entry, counted from 0, begins if all stand in order.
    pub fn start(&self, form: Form, entry: usize) -> usize {
        let mut rows = Vec::new();
        for entry in &self.entries[..entry] {
            rows.extend(&entry.before);
            entry.add_words(form, &mut rows);
        }
        rows.len()
    }
}

impl Entry {
    pub fn new(columns: usize, disjuncts: Vec<Disjunct>) -> Entry {
        Entry {
            columns,
            disjuncts,
            count: None,
            place: None,
            before: Vec::new(),
        }
    }

    /// How many disjuncts it says that there are.
    fn count_word(&self) -> i32 {
        self.count.unwrap_or(self.disjuncts.len() as i32)
    }

    /// Its disjuncts, one behind the other.
    pub fn add_words(&self, form: Form, words: &mut Vec<i32>) {
        for Disjunct { count, rows } in &self.disjuncts {
            words.push(count.unwrap_or(rows.len() as i32));
            for row in rows {
                row.add_words(form, self.columns, words);
            }
        }
    }

    /// All of its rows.
    pub fn rows(&self) -> impl Iterator<Item = &Row> {
        self.disjuncts.iter().flat_map(|disjunct| &disjunct.rows)
    }

    pub fn rows_mut(&mut self) -> Vec<&mut Row> {
        let disjuncts = self.disjuncts.iter_mut();
        disjuncts.flat_map(|disjunct| &mut disjunct.rows).collect()
    }
}

impl Row {
    pub fn new(spelling: [i32; 2], terms: Vec<(i32, i32)>) -> Row {
        Row {
            spelling,
            count: None,
            terms,
        }
    }

    /// That of a constant and a coefficient for each column.
    fn dense(words: &[i32]) -> Row {
        let (spelling, coefficients) = words.split_at(CONSTANT_WORDS);
        let terms = (0..).zip(coefficients.iter().copied());
        let terms = terms.filter(|(_, coefficient)| *coefficient != 0);
        Row::new([spelling[0], spelling[1]], terms.collect())
    }

    fn add_words(&self, form: Form, columns: usize, words: &mut Vec<i32>) {
        words.extend(self.spelling);
        match form {
            Form::Dense => {
                let first = words.len();
                words.resize(first + columns, 0);
                for &(column, coefficient) in &self.terms {
                    words[first + column as usize] = coefficient;
                }
            }
            Form::Sparse => {
                words.push(self.count.unwrap_or(self.terms.len() as i32));
                words.extend(self.terms.iter().map(|(column, _)| column));
                words.extend(self.terms.iter().map(|(_, coefficient)| coefficient));
            }
        }
    }
}

/// An accepted dense certificate, one in four with splits.
pub fn accepted(random: &mut Random) -> Pair {
    if random.chance(75) {
        return certificates::accepted(random);
    }
    let sharing = certificates::sharing(random);
    match random.below(2) {
        0 => splits::pair(&splits::accepted(random), sharing),
        _ => splits::pair(&splits::covered(random).into_parts(), sharing),
    }
}

/// Damaged pairs for each accepted one.
const DAMAGED: usize = 20;

/// Accepted certificates in both forms, damaged ones, traces, and words that were never well formed.
pub fn pairs(seed: u64) -> impl Iterator<Item = Pair> {
    let mut random = Random::new(seed);
    iter::repeat_with(move || {
        let random = &mut random;
        let dense = accepted(random);
        let parts = Parts::of(&dense);
        let sparse = parts.pair(&dense.program, Form::Sparse);
        let mut pairs = vec![relabelled(&dense), relabelled(&sparse)];
        for _ in 0..DAMAGED {
            pairs.push(damage::damaged(random, &sparse));
            pairs.push(row_word(random, &sparse));
        }
        pairs.extend((0..3).map(|_| damage::damaged(random, &dense)));
        pairs.extend((0..3).map(|_| damage::shifted(random, &sparse)));
        pairs.extend((0..4).map(|_| damage::sparse_garbage(random)));
        if random.chance(10) {
            pairs.push(traces::trace(random).pair);
        }
        if random.chance(20) {
            let aimed = aimed::sparse(random, &dense.program, &parts);
            pairs.extend(aimed.into_iter().map(|aimed| Pair {
                program: aimed.input.program,
                witness: aimed.input.witness,
            }));
        }
        pairs.extend([dense, sparse]);
        pairs
    })
    .flatten()
}

/// The certificate with the mark of the other form.
fn relabelled(pair: &Pair) -> Pair {
    let mut pair = pair.clone();
    let [dense, sparse] = Form::ALL.map(Form::mark);
    pair.witness[0] = dense + sparse - pair.witness[0];
    pair
}

/// A row word of a sparse certificate, or the place or the count of an entry, set to another small
/// number, most often one that is in range.
fn row_word(random: &mut Random, pair: &Pair) -> Pair {
    let mut pair = pair.clone();
    let entries = ProgramWords(&pair.program).entries();
    let end = 3 + 2 * entries + pair.witness[1] as usize;
    let at = 3 + random.below(end - 3);
    let word = pair.witness[at];
    pair.witness[at] = match random.below(6) {
        0 => 0,
        1 => word.wrapping_sub(1),
        2 => word.wrapping_add(1),
        3 => pair.witness[3 + random.below(end - 3)],
        4 => random.between(-1, 3),
        _ => random.between(0, 40),
    };
    pair
}
