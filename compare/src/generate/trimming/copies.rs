//! Copies of disjuncts that no witness names, by the words of an accepted certificate alone.

use super::DISJUNCTS;
use crate::checker::{witness_layout, WitnessLayout};
use crate::generate::program_words::ProgramWords;
use crate::generate::sparse::{Form, Parts};
use crate::generate::Pair;

/// An accepted dense certificate with the disjuncts of each entry once more behind the others, as many of
/// the first as it can have. The entailments from a copy have the witnesses of those from its original.
pub fn with_copies(pair: &Pair) -> Pair {
    let mut parts = Parts::of(pair);
    let counts: Vec<usize> = parts
        .entries
        .iter()
        .map(|own| own.disjuncts.len())
        .collect();
    for entry in &mut parts.entries {
        let copies = copies(entry.disjuncts.len());
        entry.disjuncts.extend_from_within(..copies);
    }
    parts.witness_words = witness_words(pair, &counts);
    parts.pair(&pair.program, Form::Dense)
}

/// How many of so many disjuncts are copied.
fn copies(count: usize) -> usize {
    count.min(DISJUNCTS - count)
}

fn witness_words(pair: &Pair, counts: &[usize]) -> Vec<i32> {
    let program = ProgramWords(&pair.program);
    let layout = witness_layout(&pair.program, &pair.witness).expect("it is accepted");
    let mut witnesses = layout.chunk_by(|one, next| one.source == next.source);
    let mut words = Vec::new();
    let start = witnesses.next().expect("there is a start");
    add(&mut words, pair, start);
    for own in witnesses {
        let vertex = own[0].source;
        let count = counts[vertex - 1];
        let own: Vec<&[WitnessLayout]> = own.chunks_exact(own.len() / count).collect();
        for of_disjunct in own.iter().chain(&own[..copies(count)]) {
            add(&mut words, pair, of_disjunct);
            if program.0[ProgramWords::kind(vertex)] == 5 {
                // The entry, and then the returns by each summary disjunct.
                let returns = &of_disjunct[1..];
                add(&mut words, pair, &returns[..copies(returns.len())]);
            }
        }
    }
    words
}

fn add(words: &mut Vec<i32>, pair: &Pair, witnesses: &[WitnessLayout]) {
    for witness in witnesses {
        words.extend(&pair.witness[witness.words()]);
    }
}
