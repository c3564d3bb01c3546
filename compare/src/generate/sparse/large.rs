//! Certificates whose other form has as many words as a certificate may have, or one more.

use super::{Disjunct, Entry, Parts, Row};
use crate::checker::row::Form;
use crate::generate::program_words::ProgramWords;
use crate::generate::{large as sizes, Pair};

/// The most words of a certificate.
const LARGEST: usize = 1_000_000;

/// A certificate of this form, and its words in the other, which may be too many.
pub struct LargeResult {
    pub name: &'static str,
    pub pair: Pair,
    pub from: Form,
    pub result: Vec<i32>,
}

/// Results of exactly 1,000,000 words and of one more, in both directions: from shorter words, from
/// shared ones, and from words that are 1,000,000 too.
pub fn large() -> Vec<LargeResult> {
    let program = sizes::sized(1_024, 32, 8, 8, 12_000).program;
    let make = |name, from, kind, length| {
        let parts = parts(&program, kind, other(from), length);
        LargeResult {
            name,
            pair: parts.pair(&program, from),
            from,
            result: parts.words(other(from)),
        }
    };
    let (dense, sparse) = (Form::Dense, Form::Sparse);
    let (most, more) = (LARGEST, LARGEST + 1);
    let mut results = vec![
        make("dense, 1,000,000 words", sparse, Rows::OneTerm, most),
        make("dense, 1,000,001 words", sparse, Rows::OneTerm, more),
        make("sparse, 1,000,000 words", dense, Rows::Full, most),
        make("sparse, 1,000,001 words", dense, Rows::Full, more),
        make("dense, from longer words", sparse, Rows::Full, 510_000),
        make("sparse, from longer words", dense, Rows::OneTerm, 150_000),
        make("dense, without rows", sparse, Rows::None, most),
        make("sparse, without rows", dense, Rows::None, most),
    ];
    for length in [most, more] {
        let name = match length {
            LARGEST => "sparse, 1,000,000 words from shared ones",
            _ => "sparse, 1,000,001 words from shared ones",
        };
        let mut shared = make(name, dense, Rows::Full, length);
        shared.pair.witness = share(&shared.pair);
        results.push(shared);
    }
    results
}

/// A certificate of this form, whose other form has so many words.
pub fn with_result(from: Form, length: usize) -> Pair {
    let program = sizes::sized(64, 1, 2, 2, 1_000).program;
    let rows = match from {
        Form::Dense => Rows::Full,
        Form::Sparse => Rows::OneTerm,
    };
    parts(&program, rows, other(from), length).pair(&program, from)
}

/// A dense certificate with one place for all vertices, which would have more than 18,000,000 words in
/// sparse form.
pub fn most_shared() -> Pair {
    let program = sizes::sized(1_024, 32, 8, 8, 12_000).program;
    let vertices = 1_024 + 32;
    let mut pair = parts(&program, Rows::Full, Form::Dense, 15_000).pair(&program, Form::Dense);
    let entries = ProgramWords(&program).entries();
    pair.witness[3..3 + vertices].fill(8);
    pair.witness[3 + entries..3 + 2 * entries].fill(0);
    pair
}

fn other(form: Form) -> Form {
    match form {
        Form::Dense => Form::Sparse,
        Form::Sparse => Form::Dense,
    }
}

#[derive(Clone, Copy, PartialEq, Eq)]
enum Rows {
    None,
    OneTerm,
    Full,
}

/// A certificate that has so many words in this form: entries of 8 disjuncts of 32 equal rows, as
/// many as there is room for, and witness words.
fn parts(program: &[i32], rows: Rows, form: Form, length: usize) -> Parts {
    let given = ProgramWords(program);
    let mut free = length - 3 - 2 * given.entries();
    let columns = (1..=given.entries()).map(|entry| given.entry_columns(entry));
    let mut entries: Vec<Entry> = columns.map(|columns| Entry::new(columns, vec![])).collect();
    for entry in &mut entries {
        let disjuncts = disjuncts(rows, entry.columns);
        let full = Entry::new(entry.columns, disjuncts);
        let mut words = Vec::new();
        full.add_words(form, &mut words);
        match free.checked_sub(words.len()) {
            Some(rest) if rows != Rows::None => (free, *entry) = (rest, full),
            _ => break,
        }
    }
    Parts::new(entries, (0..free as i32).collect())
}

fn disjuncts(rows: Rows, columns: usize) -> Vec<Disjunct> {
    let columns = columns as i32;
    let terms = match rows {
        Rows::Full => (0..columns)
            .map(|column| (column, column - 1_000))
            .collect(),
        _ => vec![(columns - 1, -1_000)],
    };
    let disjunct = Disjunct {
        count: None,
        rows: vec![Row::new([-4_000, 0], terms); 32],
    };
    vec![disjunct; 8]
}

/// The dense words with the first entry's rows for all entries that have some; these are equal.
fn share(pair: &Pair) -> Vec<i32> {
    let words = &pair.witness;
    let entries = ProgramWords(&pair.program).entries();
    let (arrays, rest) = words.split_at(3 + 2 * entries);
    let (rows, witness_words) = rest.split_at(words[1] as usize);
    let mut arrays = arrays.to_vec();
    // The second entry begins where the first ends.
    let first = arrays[3 + entries + 1];
    arrays[1] = first;
    arrays[3 + entries..].fill(0);
    [&arrays, &rows[..first as usize], witness_words].concat()
}
