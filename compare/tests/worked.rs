//! The worked cases of document 01, their traces as document 02 (CR 2) spells them, their programs
//! with lines (CR 7), which are 0, and their constants in two words (CR 8).

mod common;

use common::{assert_answer, assert_example, examples, named, words, PROGRAM_B, TRACE_B};

#[test]
fn worked_cases() {
    let examples = examples().into_iter();
    let worked: Vec<_> = examples
        .filter(|example| example.name.starts_with("01."))
        .collect();
    worked.iter().for_each(assert_example);
    assert_eq!(worked.len(), 14);
}

/// The trace is written out in document 02.
#[test]
fn plan_b_as_written() {
    assert_eq!(words(TRACE_B), [3, 2, 0, 0, 1, 2, 0]);
    let old = words("2 2 0 1 2 0");
    assert_answer("mark 2", &words(PROGRAM_B), &old, "refused 4 0 0");
}

/// The trace 1, then 2 3 `turns` times, then `ending`.
fn countdown_trace(turns: usize, ending: &[i32]) -> Vec<i32> {
    let vertices = [vec![1], [2, 3].repeat(turns), ending.to_vec()].concat();
    [vec![3, vertices.len() as i32 - 1, 0], vertices].concat()
}

/// A procedure that calls itself with one less and fails at 0.
#[test]
fn depth_limits() {
    let [program_62, program_63] = ["program D49-62", "program D49"].map(|name| words(named(name)));
    let trace = countdown_trace(62, &[2, 0]);
    assert_answer("64 calls", &program_62, &trace, "trace 126 0");
    let trace = countdown_trace(63, &[2, 0]);
    assert_answer("65 calls", &program_63, &trace, "refused 12 130 0");
    let trace = countdown_trace(63, &[2]);
    assert_answer(
        "last not 0 at the 65th",
        &program_63,
        &trace,
        "refused 10 130 0",
    );
}
