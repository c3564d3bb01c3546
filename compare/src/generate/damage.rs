//! Random damage, word by word, and words that were never well formed.

use super::program_words::ProgramWords;
use super::{large, Pair};
use crate::checker::linear::{linear_words, CONSTANT_WORDS};
use crate::checker::row::Form;
use crate::checker::{witness_layout, Part};
use crate::random::Random;

/// The pair with one or two random changes.
pub fn damaged(random: &mut Random, pair: &Pair) -> Pair {
    let mut pair = pair.clone();
    for _ in 0..1 + random.below(2) {
        match random.below(15) {
            0..=2 => change(random, &mut pair.program),
            3..=6 => change(random, &mut pair.witness),
            7 => resize(random, &mut pair.program, 3),
            8 => resize(random, &mut pair.witness, 2),
            9 => number(random, &mut pair.witness),
            10 | 11 => nudge(random, &mut pair.program),
            12 => zero_row(random, &mut pair),
            _ => nudge(random, &mut pair.witness),
        }
    }
    pair
}

/// A word set, moved by one, removed, added, or exchanged with another.
fn change(random: &mut Random, words: &mut Vec<i32>) {
    if words.is_empty() {
        words.push(small(random));
        return;
    }
    let at = random.below(words.len());
    match random.below(12) {
        0..=2 => words[at] = small(random),
        3 | 4 => words[at] = words[at].wrapping_add(1),
        5 | 6 => words[at] = words[at].wrapping_sub(1),
        7 => words[at] = extreme(random),
        8 => {
            words.remove(at);
        }
        9 => words.insert(at, small(random)),
        10 => {
            let other = random.below(words.len());
            words.swap(at, other);
        }
        _ => words[at] = words[random.below(words.len())],
    }
}

/// A word less or more at the end, with the size word changed to match: a pool word, a witness word
/// or an entry value.
fn resize(random: &mut Random, words: &mut Vec<i32>, size: usize) {
    if words.len() <= size {
        return;
    }
    if random.chance(50) {
        words.push(small(random));
        words[size] = words[size].wrapping_add(1);
    } else {
        words.pop();
        if let Some(size) = words.get_mut(size) {
            *size = size.wrapping_sub(1);
        }
    }
}

/// A word of the second half, which has the witness words of most certificates and the vertices or
/// the entry values of most traces, set to a number that is often in range.
fn number(random: &mut Random, words: &mut [i32]) {
    if words.is_empty() {
        return;
    }
    let at = words.len() / 2 + random.below(words.len() - words.len() / 2);
    words[at] = random.between(0, 4);
}

/// A word behind the sizes, and not 0, moved by one: most often a constant, a coefficient, a
/// multiplier or a vertex.
fn nudge(random: &mut Random, words: &mut [i32]) {
    let candidates: Vec<usize> = (4..words.len()).filter(|&at| words[at] != 0).collect();
    if !candidates.is_empty() {
        let at = *random.pick(&candidates);
        words[at] = words[at].wrapping_add(*random.pick(&[1, -1]));
    }
}

/// A row of a dense certificate that is still well formed, its coefficients all set to 0 where it
/// stands.
fn zero_row(random: &mut Random, pair: &mut Pair) {
    let is_dense = pair.witness.first() == Some(&Form::Dense.mark());
    if !is_dense || witness_layout(&pair.program, &pair.witness).is_none() {
        return;
    }
    let given = ProgramWords(&pair.program);
    let entry = 1 + random.below(given.entries());
    let rows = given.entry_rows(&pair.witness, entry).concat();
    if !rows.is_empty() {
        let row = *random.pick(&rows);
        let end = row + linear_words(given.entry_columns(entry));
        pair.witness[row + CONSTANT_WORDS..end].fill(0);
    }
}

/// The pair with a witness word more or less somewhere, and W to match, so that those behind it are
/// read as others.
pub fn shifted(random: &mut Random, pair: &Pair) -> Pair {
    let mut pair = pair.clone();
    let words = pair.witness[2] as usize;
    let first = pair.witness.len() - words;
    if words > 0 && random.chance(50) {
        pair.witness.remove(first + random.below(words));
        pair.witness[2] -= 1;
    } else {
        let word = *random.pick(&[-1, -1, 0, 1, 2]);
        pair.witness.insert(first + random.below(words + 1), word);
        pair.witness[2] += 1;
    }
    pair
}

/// The pair, which is accepted, with the row of one of its splits moved: by one, by sign, or to that
/// of another split.
pub fn moved_row(random: &mut Random, pair: &Pair) -> Pair {
    let mut pair = pair.clone();
    let layout = witness_layout(&pair.program, &pair.witness).expect("the pair is accepted");
    let parts = layout.into_iter().flat_map(|tree| tree.parts);
    let splits: Vec<Part> = parts.filter(|part| part.is_split).collect();
    if splits.is_empty() {
        return pair;
    }
    let row = random.pick(&splits).words.clone();
    let row = row.start + 1..row.end;
    let place = row.start + random.below(row.len());
    match random.below(5) {
        0 => pair.witness[row.start] += 1,
        1 => pair.witness[row.start] -= 1,
        2 => pair.witness[place] += *random.pick(&[1, -1]),
        3 => pair.witness[row].iter_mut().for_each(|word| *word = -*word),
        _ => {
            let other = random.pick(&splits).words.clone();
            let other = pair.witness[other.start + 1..other.end].to_vec();
            if other.len() == row.len() {
                pair.witness[row].copy_from_slice(&other);
            }
        }
    }
    pair
}

fn small(random: &mut Random) -> i32 {
    random.between(-3, 12)
}

fn extreme(random: &mut Random) -> i32 {
    *random.pick(&[
        i32::MIN,
        i32::MIN + 1,
        i32::MAX,
        1_000,
        1_001,
        -1_001,
        1_000_000,
        1_000_001,
        -1_000_001,
        999_999,
        4_000,
        -4_001,
        1_000_000_000,
        1_000_000_001,
        -1_000_000_001,
        12_000,
        12_001,
        65_536,
    ])
}

/// Words that only look like a program and a witness input.
pub fn garbage(random: &mut Random) -> Pair {
    match random.below(5) {
        0 => Pair {
            program: noise(random),
            witness: noise(random),
        },
        1 => Pair {
            program: loose_program(random),
            witness: noise(random),
        },
        2 => Pair {
            program: loose_program(random),
            witness: loose_trace(random),
        },
        _ => {
            let program = loose_program(random);
            let witness = loose_certificate(random, &program);
            Pair { program, witness }
        }
    }
}

fn noise(random: &mut Random) -> Vec<i32> {
    let length = random.below(30);
    let wild = random.chance(30);
    (0..length)
        .map(|_| match wild {
            true => random.word() as i32,
            false => small(random),
        })
        .collect()
}

/// Right sizes and kinds, rows anywhere in a pool of small words.
fn loose_program(random: &mut Random) -> Vec<i32> {
    let statements = random.between(1, 3);
    let globals = random.between(0, 1);
    let pool = random.between(1, 24);
    let mut words = vec![statements, 1, globals, pool];
    words.extend((0..statements).map(|_| random.between(1, 5)));
    words.push(6);
    words.extend((0..=statements).map(|_| random.between(0, pool - 1)));
    words.extend((0..pool).map(|_| random.between(0, 2)));
    words
}

/// Right sizes for a program of one procedure, rows anywhere, and small witness words.
fn loose_certificate(random: &mut Random, program: &[i32]) -> Vec<i32> {
    let entries = program[0] + 2;
    let rows = random.between(1, 12);
    let witness_words = random.between(0, 16);
    let mut words = vec![1, rows, witness_words];
    words.extend((0..entries).map(|_| random.between(0, 2)));
    words.extend((0..entries).map(|_| random.between(0, rows - 1)));
    words.extend((0..rows).map(|_| random.between(-1, 1)));
    words.extend((0..witness_words).map(|_| random.between(0, 1)));
    words
}

/// Words that look like a program and a sparse certificate: entries mostly where they should be, of
/// disjuncts with one row or none.
pub fn sparse_garbage(random: &mut Random) -> Pair {
    let program = match random.chance(30) {
        true => loose_program(random),
        false => {
            let [statements, globals] = [2, 2].map(|most| random.below(most));
            large::sized(1 + statements, 1, globals, random.below(2), 30).program
        }
    };
    let entries = program[0] + 2;
    let (mut counts, mut places, mut rows) = (Vec::new(), Vec::new(), Vec::new());
    for _ in 0..entries {
        let count = *random.pick(&[0, 1, 1, 2]);
        counts.push(count);
        places.push(rows.len() as i32 + i32::from(random.chance(4)));
        for _ in 0..count {
            rows.push(random.between(0, 1));
            if rows.last() == Some(&1) {
                let terms = random.between(0, 2);
                rows.extend([0, random.between(0, 2), terms]);
                rows.extend((0..terms).map(|at| at + i32::from(random.chance(20))));
                rows.extend((0..terms).map(|_| random.between(-1, 2)));
            }
        }
    }
    rows.extend(random.chance(10).then_some(0));
    let witness_words = random.below(8);
    let mut words = vec![Form::Sparse.mark(), rows.len() as i32, witness_words as i32];
    words.extend(counts.into_iter().chain(places).chain(rows));
    words.extend((0..witness_words).map(|_| random.between(0, 1)));
    Pair {
        program,
        witness: words,
    }
}

/// Right sizes for a program of few columns, and small words.
fn loose_trace(random: &mut Random) -> Vec<i32> {
    let [columns, steps] = [random.between(0, 2), random.between(1, 3)];
    let entry_values = random.between(0, 3);
    let mut words = vec![3, steps, entry_values];
    words.extend((0..columns).map(|_| random.between(-1, 1)));
    words.push(1);
    words.extend((0..steps).map(|_| random.between(0, 3)));
    words.extend((0..entry_values).map(|_| random.between(-1, 1)));
    words
}
