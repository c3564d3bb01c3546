//! The proved replay by the grammar beside the check's, and both of the second checker, on traces whose
//! calls stand to each other in several ways.

use super::head;
use super::shapes::random;
use super::timing::{checked, MORE_TURNS};
use crate::compare::{Second, SecondByGrammar};
use crate::generate::calls::{of_steps, Shape};
use crate::proved::{Proved, ProvedByGrammar};

const STEPS: [usize; 4] = [512, 1_024, 2_048, 4_096];

const SHAPES: [(&str, Shape); 5] = [
    ("no calls", Shape::NoCalls),
    ("calls that return", Shape::Matched),
    ("63 calls that don't return", Shape::Unmatched),
    ("calls of both sorts in turn", Shape::InTurn),
    ("down to 64 open calls and back", Shape::Nested),
];

/// Nanoseconds for each vertex.
pub fn replays() {
    let columns = [
        "trace",
        "steps",
        "proved, by the grammar, ns/vertex",
        "proved, check, ns/vertex",
        "second, check, ns/vertex",
        "second, by the grammar, ns/vertex",
        "by the grammar/check",
    ];
    head(1, &columns);
    for (name, shape) in SHAPES {
        for steps in STEPS {
            row(name, shape, steps);
        }
    }
}

fn row(name: &str, shape: Shape, steps: usize) {
    let trace = of_steps(&mut random(), shape, steps);
    let pair = &trace.pair;
    assert_eq!(pair.witness[1] as usize, steps, "{name}");
    let times = checked(
        MORE_TURNS,
        trace.answer,
        &[
            (&ProvedByGrammar, pair),
            (&Proved, pair),
            (&Second, pair),
            (&SecondByGrammar, pair),
        ],
    );
    let each = |at: usize| 1e9 * times[at] / (steps + 1) as f64;
    println!(
        "| {name} | {steps} | {:.1} | {:.1} | {:.1} | {:.1} | {:.2} |",
        each(0),
        each(1),
        each(2),
        each(3),
        times[0] / times[1]
    );
}
