//! The proved checker and the second checker on the same certificates and traces.

use super::head;
use super::shapes::{self, random, Shape};
use super::timing::{checked, MORE_TURNS, TURNS};
use crate::checker::Answer;
use crate::compare::Second;
use crate::generate::large::{self, Large};
use crate::generate::Pair;
use crate::proved::Proved;

/// Times in milliseconds, then in nanoseconds per word of the certificate.
pub fn certificates() {
    let columns = [
        "certificate",
        "multipliers",
        "words",
        "entailments",
        "proved, ms",
        "second, ms",
        "proved, ns/word",
        "second, ns/word",
        "proved/second",
    ];
    head(2, &columns);
    shapes::all().for_each(|shape| certificate_row(&shape));
}

fn certificate_row(shape: &Shape) {
    let Shape { pair, count, .. } = shape;
    let [proved, second] = both(TURNS, Answer::Safe(*count), pair);
    let words = pair.witness.len();
    let per_word = |seconds: f64| 1e9 * seconds / words as f64;
    println!(
        "| {} | {words} | {count} | {:.3} | {:.3} | {:.2} | {:.2} | {:.2} |",
        shape.title(),
        1e3 * proved,
        1e3 * second,
        per_word(proved),
        per_word(second),
        proved / second
    );
}

pub fn traces() {
    let columns = [
        "trace",
        "steps",
        "proved, ms",
        "second, ms",
        "proved/second",
    ];
    head(1, &columns);
    for trace in large::traces(&mut random()) {
        if let Answer::Trace(steps) = trace.answer {
            trace_row(trace, steps);
        }
    }
}

fn trace_row(trace: Large, steps: u64) {
    let pair = Pair {
        program: trace.input.program,
        witness: trace.input.witness,
    };
    let [proved, second] = both(MORE_TURNS, trace.answer, &pair);
    println!(
        "| {} | {steps} | {:.3} | {:.3} | {:.2} |",
        trace.name,
        1e3 * proved,
        1e3 * second,
        proved / second
    );
}

/// The best time of the proved checker and of the second checker.
fn both(turns: usize, expected: Answer, pair: &Pair) -> [f64; 2] {
    let times = checked(turns, expected, &[(&Proved, pair), (&Second, pair)]);
    [times[0], times[1]]
}
