//! Demand 3 by samples: runs of accepted programs meet the certificate's edges and fail no assertion,
//! whatever the other locals hold at main's start and at each call's entry. The runs know nothing of
//! entailments, so wrong entailments would show here.

mod common;

use common::needing_rounding;
use compare::build::{Certificate, Disjunct, Edges, Next, Program, Sharing, Witness};
use compare::checker::{judge, Answer};
use compare::generate::interpreter::{other_local, At, Run};
use compare::generate::program_words::ProgramWords;
use compare::generate::{extremes, invariants, splits};
use compare::random::Random;

const FAR: i64 = 1_000_000_000_000;

/// Tried certificates, those with splits, runs of each and steps of a run.
const CERTIFICATES: usize = 16_000;
const SPLIT_CERTIFICATES: usize = 6_000;
const RUNS: usize = 4;
const STEPS: usize = 150;

fn meets(edges: &[Disjunct], values: &[i64]) -> bool {
    edges.iter().any(|disjunct| {
        disjunct.iter().all(|row| {
            let terms = row.coefficients.iter().zip(values);
            let sum: i128 = terms
                .map(|(factor, value)| i128::from(*factor) * i128::from(*value))
                .sum();
            i128::from(row.constant) + sum <= 0
        })
    })
}

fn starts(random: &mut Random, program: &Program) -> Vec<i64> {
    let globals_and_parameters = program.globals + program.procedures[0].parameters;
    let starts = (0..program.columns(0)).map(|column| match column < globals_and_parameters {
        true => {
            let limit = *random.pick(&[1, 10, 1_000_000_000]);
            random.between(-limit, limit)
        }
        false => other_local(random),
    });
    starts.map(i64::from).collect()
}

/// What was seen of runs.
#[derive(Debug, Default)]
struct Seen {
    /// Accepted certificates, those of programs with other locals, and entailments that need
    /// rounding.
    certificates: u64,
    with_others: u64,
    rounded: usize,
    /// Witnesses with splits, and those with eight on a way.
    split: usize,
    deepest_splits: usize,
    states: u64,
    /// Open calls that waited, in all of the states, and among them those whose globals had changed
    /// since.
    waiting: u64,
    set_aside: u64,
    exits: u64,
    deepest: usize,
    entry_values: usize,
}

impl Seen {
    /// Each open call meets a path edge of where it stands, and at an exit a summary edge.
    fn state(&mut self, program: &Program, edges: &Edges, run: &Run) {
        assert_ne!(run.top().at, At::Failed, "{program:?}");
        for call in &run.calls {
            let state = [&call.entry[..], &run.values_of(call)].concat();
            let path = &edges.path[run.vertex_of(call) - 1];
            assert!(meets(path, &state), "{program:?} {run:?}");
            if let Some(globals) = &call.set_aside {
                self.waiting += 1;
                self.set_aside += u64::from(*globals != run.globals);
            }
        }
        let call = run.top();
        if call.at == At::Vertex(Next::Exit) {
            let known = program.globals + program.procedures[call.procedure].parameters;
            let state = [&call.entry[..known], &run.globals].concat();
            let summary = &edges.summaries[call.procedure];
            assert!(meets(summary, &state), "{program:?} {run:?}");
            self.exits += 1;
        }
        self.states += 1;
        self.deepest = self.deepest.max(run.calls.len());
    }

    fn run(&mut self, random: &mut Random, program: &Program, edges: &Edges) {
        let mut run = Run::start(program, &starts(random, program));
        for _ in 0..STEPS {
            self.state(program, edges, &run);
            let far = run.values().iter().any(|value| value.abs() > FAR);
            if far || !run.step(random) {
                break;
            }
        }
        self.entry_values += run.entry_values.len();
    }

    fn certificate(&mut self, random: &mut Random, program: &Program, certificate: &Certificate) {
        let words = program.words(Sharing::Shared);
        let answer = judge(&words, &certificate.words(Sharing::Shared));
        assert!(matches!(answer, Answer::Safe(_)), "{answer}");
        self.certificates += 1;
        self.with_others += u64::from(ProgramWords(&words).has_others());
        self.rounded += needing_rounding(program, certificate).len();
        let depths = certificate.witnesses.iter().map(Witness::depth);
        self.split += depths.clone().filter(|depth| *depth > 0).count();
        self.deepest_splits += depths.filter(|depth| *depth == 8).count();
        for _ in 0..RUNS {
            self.run(random, program, &certificate.edges);
        }
    }
}

#[test]
fn meet_the_edges() {
    let random = &mut Random::new(51);
    let mut seen = Seen::default();
    for turn in 0..CERTIFICATES {
        let pair = match turn % 10 {
            0 => Some(extremes::pair(random)),
            _ => invariants::accepted(random),
        };
        if let Some((program, certificate)) = pair {
            seen.certificate(random, &program, &certificate);
        }
    }
    println!("{seen:?}");
    assert_eq!(seen.split, 0);
    assert!(seen.certificates >= 10_000 && seen.with_others >= 10_000);
    assert!(seen.states > 1_000_000 && seen.exits > 100_000 && seen.rounded > 1_000);
    assert!(seen.waiting > 100_000 && seen.set_aside > 10_000 && seen.entry_values > 100_000);
}

#[test]
fn meet_the_edges_with_splits() {
    let random = &mut Random::new(52);
    let mut seen = Seen::default();
    for turn in 0..SPLIT_CERTIFICATES {
        let made = match turn % 3 {
            0 => splits::accepted(random),
            1 => splits::covered(random).into_parts(),
            _ => loop {
                if let Some(made) = invariants::accepted_by_splits(random) {
                    break made;
                }
            },
        };
        seen.certificate(random, &made.0, &made.1);
    }
    println!("{seen:?}");
    assert!(seen.split >= 10_000 && seen.deepest_splits >= 500);
    assert!(seen.states > 500_000 && seen.exits > 10_000 && seen.waiting > 10_000);
}
