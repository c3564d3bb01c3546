//! No input makes the checker, a converter or trimming panic, only a trace touches the checker's
//! buffer and only what is written that of the others. Built for development the same inputs show that
//! nothing overflows either.

mod common;

use common::{words, CERTIFICATE_A, CERTIFICATE_C, PROGRAM_A, PROGRAM_B, PROGRAM_C, TRACE_B};
use compare::checker::{check, diagnosis, judge, replay, replay_by_grammar, Answer};
use compare::convert::{to_dense, to_sparse, Writing};
use compare::generate::{certificate_inputs, damage, sparse, split_inputs, trace_inputs, Input};
use compare::random::Random;
use compare::trim::trim;

type Entry = fn(&[i32], &[i32], &mut [i64]) -> Answer;

/// Gives the input to every entry point.
fn survive(program: &[i32], witness: &[i32], buffer: &[i64]) {
    let judged: Entry = |program, witness, _| judge(program, witness);
    for entry in [judged, replay, replay_by_grammar, check] {
        let mut after = buffer.to_vec();
        let answer = entry(program, witness, &mut after);
        if !matches!(answer, Answer::Trace(_)) {
            assert_eq!(after, buffer);
        }
        let part = diagnosis(program, witness, answer);
        assert!(part.len() <= program.len().max(witness.len()));
    }
    for write in [to_sparse, to_dense, trim] {
        let mut result = [7; 40];
        let writing = write(program, witness, &mut result);
        assert!(matches!(writing, Writing::Written(_)) || result == [7; 40]);
    }
}

#[test]
fn generated() {
    let certificates = certificate_inputs(21).take(80_000);
    let splits = split_inputs(24).take(30_000);
    let traces = trace_inputs(22).take(80_000);
    for input in certificates.chain(splits).chain(traces) {
        let Input {
            program,
            witness,
            buffer,
        } = input;
        survive(&program, &witness, &buffer);
    }
}

#[test]
fn garbage() {
    let random = &mut Random::new(23);
    for _ in 0..200_000 {
        let pair = damage::garbage(random);
        survive(&pair.program, &pair.witness, &[7; 2]);
        let pair = damage::sparse_garbage(random);
        survive(&pair.program, &pair.witness, &[7; 2]);
    }
}

#[test]
fn sparse_certificates() {
    for pair in sparse::pairs(25).take(60_000) {
        survive(&pair.program, &pair.witness, &[7; 2]);
    }
}

/// Two calls of a procedure with two other locals, the second of which fails.
const PROGRAM_D: &str =
    "3 2 0 19 | 5 5 4 6 6 | 0 3 6 13 16 | 12 2 2 13 4 2 17 5 1 0 0 1 -1 1 0 0 3 2 0";
const TRACE_D: &str = "3 5 4 1 3 5 2 3 0 1 3 2 1";

/// Certificate A in sparse form.
const SPARSE_A: &str =
    "4 9 8 | 1 1 1 1 | 0 1 7 8 | 0 | 1 -1 999460 1 1 1 | 0 | 0 | 1 1 1 1 0 1 1 1";

/// Each word set to each of some extremes, and each beginning, of five pairs.
#[test]
fn every_word() {
    let extremes = [
        i32::MIN,
        i32::MIN + 1,
        -1,
        0,
        1,
        1_001,
        4_000,
        1_000_000,
        i32::MAX - 1,
        i32::MAX,
    ];
    for (program, witness) in [
        (PROGRAM_A, CERTIFICATE_A),
        (PROGRAM_B, TRACE_B),
        (PROGRAM_D, TRACE_D),
        (PROGRAM_C, CERTIFICATE_C),
        (PROGRAM_A, SPARSE_A),
    ] {
        let (program, witness) = (words(program), words(witness));
        for length in 0..=program.len() {
            survive(&program[..length], &witness, &[7; 2]);
        }
        for length in 0..=witness.len() {
            survive(&program, &witness[..length], &[7; 2]);
        }
        for extreme in extremes {
            for at in 0..program.len() {
                let mut program = program.clone();
                program[at] = extreme;
                survive(&program, &witness, &[7; 2]);
            }
            for at in 0..witness.len() {
                let mut witness = witness.clone();
                witness[at] = extreme;
                survive(&program, &witness, &[7; 2]);
            }
        }
    }
}

#[test]
fn nothing_at_all() {
    survive(&[], &[], &[]);
    survive(&[i32::MIN; 4], &[i32::MIN; 3], &[]);
    survive(&[i32::MAX; 4], &[i32::MAX; 3], &[]);
    survive(&words(PROGRAM_A), &[], &[]);
    survive(&[], &words(CERTIFICATE_A), &[]);
}
