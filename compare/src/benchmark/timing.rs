//! Times of calls that take turns.

use crate::checker::Answer;
use crate::compare::Subject;
use crate::generate::Pair;
use std::fmt::Debug;
use std::hint::black_box;
use std::time::{Duration, Instant};

/// Turns of all on a certificate, the best of which counts.
pub const TURNS: usize = 40;

/// Turns where a call is short.
pub const MORE_TURNS: usize = 1_000;

/// A call, which answers something.
pub type Call<'a, T> = Box<dyn FnMut() -> T + 'a>;

/// The best time of each call, in seconds. All answer what is expected, and who goes first changes with
/// each turn.
pub fn best<T: PartialEq + Debug>(turns: usize, expected: T, mut calls: Vec<Call<T>>) -> Vec<f64> {
    let mut best = vec![Duration::MAX; calls.len()];
    for turn in 0..turns {
        for at in 0..calls.len() {
            let at = (turn + at) % calls.len();
            let start = Instant::now();
            let answer = calls[at]();
            best[at] = best[at].min(start.elapsed());
            assert_eq!(answer, expected);
        }
    }
    best.iter().map(Duration::as_secs_f64).collect()
}

/// The best times of these checks.
pub fn checked(turns: usize, expected: Answer, checks: &[(&dyn Subject, &Pair)]) -> Vec<f64> {
    let calls = checks.iter().map(|&(subject, pair)| -> Call<Answer> {
        let mut buffer = [0; 16];
        Box::new(move || {
            subject.check(
                black_box(&pair.program),
                black_box(&pair.witness),
                black_box(&mut buffer),
            )
        })
    });
    best(turns, expected, calls.collect())
}
