//! Generators of inputs: accepted certificates, traces, and both damaged. A seed fixes all of it.

pub mod aimed;
pub mod arrays;
pub mod calls;
pub mod certificates;
pub mod constants;
pub mod damage;
pub mod definite;
pub mod extremes;
pub mod interpreter;
pub mod invariants;
pub mod large;
pub mod lines;
pub mod other_locals;
pub mod program_words;
mod programs;
pub mod rounding;
pub mod sparse;
pub mod splits;
pub mod trace_words;
pub mod traces;
pub mod trimming;

use crate::build::{Certificate, Program, Sharing, Statement, Witness};
use crate::checker::Answer;
use crate::random::Random;
use aimed::Aimed;
use constants::Place;
use std::iter;

/// Program words and a witness input for them.
#[derive(Clone, Debug)]
pub struct Pair {
    pub program: Vec<i32>,
    pub witness: Vec<i32>,
}

/// All that a check is given.
#[derive(Clone, Debug)]
pub struct Input {
    pub program: Vec<i32>,
    pub witness: Vec<i32>,
    pub buffer: Vec<i64>,
}

impl Input {
    fn new(random: &mut Random, pair: Pair) -> Input {
        let length = *random.pick(&[0, 1, 3, 16, 20]);
        Input {
            program: pair.program,
            witness: pair.witness,
            buffer: buffer(random, length),
        }
    }
}

/// Damaged inputs for each pair.
const DAMAGED: usize = 30;

/// Accepted certificates, each followed by damaged ones.
pub fn certificate_inputs(seed: u64) -> impl Iterator<Item = Input> {
    let mut random = Random::new(seed);
    iter::repeat_with(move || {
        let pair = certificates::accepted(&mut random);
        let mut aimed = aimed::certificate(&mut random, &pair);
        if random.chance(20) {
            aimed.extend(aimed::lines(&mut random, &pair));
        }
        if random.chance(20) {
            aimed.extend(aimed::constants(&mut random, &pair));
        }
        let mut inputs = batch(&mut random, pair, aimed);
        if random.chance(10) {
            let (wrapping, _) = extremes::wrapping(&mut random);
            inputs.push(Input::new(&mut random, wrapping));
        }
        if random.chance(20) {
            let near = near_rounding(&mut random);
            inputs.extend(near.into_iter().map(|pair| Input::new(&mut random, pair)));
        }
        if random.chance(20) {
            let pairs = aimed::one_column(&mut random);
            inputs.extend(pairs.map(|(pair, _)| Input::new(&mut random, pair)));
        }
        if random.chance(20) {
            let pairs = about_other_locals(&mut random);
            inputs.extend(pairs.into_iter().map(|pair| Input::new(&mut random, pair)));
        }
        if random.chance(20) {
            let pairs = with_far_constants(&mut random);
            inputs.extend(pairs.into_iter().map(|pair| Input::new(&mut random, pair)));
        }
        inputs
    })
    .flatten()
}

/// Damaged inputs for each pair with splits, which is longer than others.
const DAMAGED_SPLITS: usize = 10;

/// Accepted certificates with splits, each followed by damaged ones.
pub fn split_inputs(seed: u64) -> impl Iterator<Item = Input> {
    let mut random = Random::new(seed);
    iter::repeat_with(move || {
        let random = &mut random;
        let sharing = certificates::sharing(random);
        let pair = splits::pair(&splits::accepted(random), sharing);
        let mut aimed = aimed::trees(random, &pair);
        if random.chance(30) {
            aimed.extend(aimed::constants(random, &pair));
        }
        let mut pairs: Vec<Pair> = Vec::new();
        for _ in 0..DAMAGED_SPLITS {
            pairs.push(damage::damaged(random, &pair));
            pairs.push(damage::shifted(random, &pair));
        }
        let tree = match random.below(6) {
            0 => splits::bounded(random),
            1 => splits::impossible(random),
            _ => splits::covered(random),
        };
        let changed = splits::changed(random, &tree, sharing);
        pairs.extend(changed.into_iter().map(|changed| changed.pair));
        let tree = splits::pair(&tree.into_parts(), sharing);
        pairs.extend((0..4).map(|_| damage::moved_row(random, &tree)));
        pairs.extend([tree, pair]);
        let pairs = pairs.into_iter().map(|pair| Input::new(random, pair));
        let inputs: Vec<Input> = pairs.collect();
        let aimed = aimed.into_iter().map(|aimed| aimed.input);
        aimed.chain(inputs).collect::<Vec<_>>()
    })
    .flatten()
}

/// Certificates that only rounding accepts, and others that not even rounding does.
fn near_rounding(random: &mut Random) -> Vec<Pair> {
    let sharing = certificates::sharing(random);
    let rounded = rounding::rounded(random);
    let mut pairs = vec![
        rounded.accepted(sharing),
        rounded.tighter(sharing),
        rounded.too_low(sharing),
    ];
    pairs.extend(rounding::contradictions(random, sharing));
    pairs.extend(rounding::starts(random));
    pairs.extend(extremes::rounded(random));
    pairs.into_iter().map(|(pair, _)| pair).collect()
}

/// Certificates that say what other locals hold at an entry.
fn about_other_locals(random: &mut Random) -> Vec<Pair> {
    let zero = other_locals::zero(random);
    let mut pairs = vec![zero.unassigned, zero.assigned];
    pairs.extend(other_locals::tied(random));
    pairs.into_iter().map(|(pair, _)| pair).collect()
}

/// Certificates that a far constant decides, at each place, and the largest sums.
fn with_far_constants(random: &mut Random) -> Vec<Pair> {
    let mut pairs: Vec<(Pair, Answer)> = Vec::new();
    for place in Place::ALL {
        let decided = constants::decided(random, place);
        pairs.extend([decided.accepted, decided.refused]);
    }
    pairs.extend(extremes::sums(random));
    pairs.extend(extremes::goals(random));
    pairs.into_iter().map(|(pair, _)| pair).collect()
}

/// Traces, each followed by damaged ones.
pub fn trace_inputs(seed: u64) -> impl Iterator<Item = Input> {
    let mut random = Random::new(seed);
    iter::repeat_with(move || {
        let trace = traces::trace(&mut random);
        let aimed = aimed::trace(&mut random, &trace);
        let mut inputs = batch(&mut random, trace.pair, aimed);
        let clash = aimed::clashing(&mut random);
        inputs.push(Input::new(&mut random, clash.pair));
        inputs
    })
    .flatten()
}

/// Sparse certificates, accepted and damaged, with the dense ones that they are made from.
pub fn sparse_inputs(seed: u64) -> impl Iterator<Item = Input> {
    let mut random = Random::new(seed);
    let pairs = sparse::pairs(random.word());
    pairs.map(move |pair| Input::new(&mut random, pair))
}

fn batch(random: &mut Random, pair: Pair, aimed: Vec<Aimed>) -> Vec<Input> {
    let damaged: Vec<Pair> = (0..DAMAGED)
        .map(|_| damage::damaged(random, &pair))
        .collect();
    let garbage = (0..2).map(|_| damage::garbage(random)).collect();
    let pairs = [vec![pair], damaged, garbage].concat();
    let inputs = pairs.into_iter().map(|pair| Input::new(random, pair));
    let inputs: Vec<Input> = inputs.collect();
    aimed
        .into_iter()
        .map(|aimed| aimed.input)
        .chain(inputs)
        .collect()
}

/// The pair, accepted or refused with 7 at the first word of this entailment, counted from 0.
fn judged(
    program: &Program,
    certificate: &Certificate,
    refused: Option<usize>,
    sharing: Sharing,
) -> (Pair, Answer) {
    let pair = Pair {
        program: program.words(sharing),
        witness: certificate.words(sharing),
    };
    let witnesses = &certificate.witnesses;
    let answer = match refused {
        None => Answer::Safe(witnesses.len() as u64),
        Some(at) => {
            let rest: usize = witnesses[at..].iter().map(Witness::length).sum();
            Answer::refused(7, (pair.witness.len() - rest) as u64)
        }
    };
    (pair, answer)
}

/// A result buffer whose cells are all different, so that any change shows.
fn buffer(random: &mut Random, length: usize) -> Vec<i64> {
    (0..length).map(|_| random.word() as i64).collect()
}

fn statement_at(program: &mut Program, vertex: usize) -> &mut Statement {
    program
        .procedures
        .iter_mut()
        .flat_map(|procedure| &mut procedure.statements)
        .nth(vertex - 1)
        .expect("the vertex is a statement")
}
