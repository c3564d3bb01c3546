//! Lines of statements (document 02, CR 7): which words they may be, and which line a refusal has.

mod common;

use common::{assert_answer, assert_answers, refused, words, CERTIFICATE_A, TRACE_B};
use compare::checker::{check, Answer};

/// Plan A with these two lines, 540 replaced by `value`.
fn plan(lines: [i32; 2], value: i32) -> Vec<i32> {
    let [first, second] = lines;
    words(&format!(
        "2 1 1 15 | 2 4 6 | 0 6 12 | {first} 2 0 0 {value} 0 {second} 3 1 -1 999400 1 1 0 0"
    ))
}

/// The words with one changed.
fn with(mut words: Vec<i32>, place: usize, word: i32) -> Vec<i32> {
    words[place] = word;
    words
}

fn assert_refused(program: &[i32], witness: &str, number: u64, place: u64, line: i32) {
    let expected = format!("refused {number} {place} {line}");
    assert_answer(&expected, program, &words(witness), &expected);
}

/// 0 to 1,000,000 are lines, and no answer that isn't a refusal depends on them.
#[test]
fn in_range() {
    for line in [0, 1, 2, 999_999, 1_000_000] {
        for lines in [[line, 0], [0, line], [line, line], [1_000_000, line]] {
            let [safe, failing] = [plan(lines, 540), plan(lines, 660)];
            assert_answer("safe", &safe, &words(CERTIFICATE_A), "safe 5");
            assert_answer("trace", &failing, &words(TRACE_B), "trace 2 660");
        }
    }
}

#[test]
fn beyond_the_range() {
    for line in [-1, 1_000_001, i32::MIN, i32::MAX] {
        assert_refused(&plan([line, 12], 540), CERTIFICATE_A, 3, 4, 0);
        assert_refused(&plan([7, line], 540), CERTIFICATE_A, 3, 5, 0);
        assert_refused(&plan([line, line], 540), CERTIFICATE_A, 3, 4, 0);
        // Another fault of the same statement changes nothing.
        let program = with(plan([7, line], 540), 17, 4);
        assert_refused(&program, CERTIFICATE_A, 3, 5, 0);
    }
}

/// 3 by anything else in the row.
#[test]
fn of_a_wrong_statement() {
    for line in [0, 1, 12, 1_000_000] {
        let program = plan([7, line], 540);
        for (place, word) in [
            (17, 4),
            (17, 0),
            (18, 0),
            (18, 7),
            (19, 4_000),
            (20, 1_000_000),
            (21, 1_001),
        ] {
            let program = with(program.clone(), place, word);
            assert_refused(&program, CERTIFICATE_A, 3, 5, line);
        }
        let program = with(plan([line, 7], 540), 12, 1);
        assert_refused(&program, CERTIFICATE_A, 3, 4, line);
    }
}

/// "whatever the kind"
#[test]
fn of_an_unknown_kind() {
    for kind in [0, 6, 7, -1, i32::MIN, i32::MAX] {
        for (line, told) in [
            (0, 0),
            (1, 1),
            (1_000_000, 1_000_000),
            (1_000_001, 0),
            (-1, 0),
        ] {
            let program = with(plan([7, line], 540), 5, kind);
            assert_refused(&program, CERTIFICATE_A, 3, 5, told);
        }
        // At the exit's row, whose first word is 1.
        let program = with(with(plan([7, 12], 540), 5, kind), 8, 12);
        assert_refused(&program, CERTIFICATE_A, 3, 5, 1);
    }
}

/// "if there"
#[test]
fn of_rows_past_the_pool() {
    for place in [-1, 15, 16, i32::MIN, i32::MAX] {
        let program = with(plan([7, 12], 540), 8, place);
        assert_refused(&program, CERTIFICATE_A, 3, 5, 0);
        let program = with(program, 5, 7);
        assert_refused(&program, CERTIFICATE_A, 3, 5, 0);
    }
    // One word of the row in the pool, and two; of each kind, and of none.
    for kind in 0..=7 {
        for (line, told) in [
            (0, 0),
            (1, 1),
            (1_000_000, 1_000_000),
            (1_000_001, 0),
            (-1, 0),
        ] {
            let pool = format!("7 2 0 0 540 0 12 3 1 -1 999400 1 1 0 0 {line}");
            let cut = format!("2 1 1 16 | 2 {kind} 6 | 0 15 12 | {pool}");
            assert_refused(&words(&cut), CERTIFICATE_A, 3, 5, told);
            if kind != 1 {
                let cut = format!("2 1 1 17 | 2 {kind} 6 | 0 15 12 | {pool} 3");
                assert_refused(&words(&cut), CERTIFICATE_A, 3, 5, told);
            }
        }
    }
}

/// Two skips at one row, which has one line.
#[test]
fn of_a_shared_row() {
    let certificate = "1 1 3 | 1 1 0 0 | 0 0 0 0 | 0 | 1 1 1";
    assert_answers(&[
        (
            "shared",
            "2 1 0 5 | 1 1 6 | 0 0 2 | 9 2 1 0 0",
            certificate,
            "safe 3",
        ),
        (
            "both wrong",
            "2 1 0 5 | 1 1 6 | 0 0 2 | 9 4 1 0 0",
            certificate,
            "refused 3 4 9",
        ),
        (
            "the successor of the first is the line of the second, which is wrong",
            "2 1 0 5 | 1 7 6 | 0 1 2 | 9 2 1 0 0",
            certificate,
            "refused 3 5 2",
        ),
        (
            "the second wrong",
            "2 1 0 5 | 1 7 6 | 0 0 2 | 9 2 1 0 0",
            certificate,
            "refused 3 5 9",
        ),
        (
            "the successor of the first is the line of the second",
            "2 1 0 5 | 1 1 6 | 0 1 2 | 9 2 1 0 0",
            certificate,
            "safe 3",
        ),
    ]);
}

/// Main calls f at lines 3 and 4 and asserts at line 5; f is one skip at line 9.
const TWO_CALLS: &str =
    "4 2 0 19 | 5 5 4 1 6 6 | 0 3 6 11 13 16 | 3 2 2 4 3 2 5 5 1 0 1 9 6 1 0 0 4 0 0";

/// 10: that of the vertex being left.
#[test]
fn of_a_step_that_there_is_not() {
    let passing = plan([7, 12], 599);
    for (witness, place, line) in [
        // The first vertex: nothing is left.
        ("3 2 0 0 2 2 0", 4, 0),
        ("3 2 0 0 0 2 0", 4, 0),
        ("3 2 0 0 1 3 0", 5, 7),
        ("3 2 0 0 1 1 0", 5, 7),
        ("3 2 0 0 1 -1 0", 5, 7),
        ("3 2 0 0 1 2 0", 6, 12),
        // The step is right, and the last vertex isn't 0.
        ("3 1 0 0 1 2", 5, 7),
        ("3 2 0 0 1 2 3", 6, 12),
        // From main's exit.
        ("3 3 0 0 1 2 3 0", 7, 0),
        ("3 3 0 0 1 2 3 1", 7, 0),
    ] {
        assert_refused(&passing, witness, 10, place, line);
    }
    // From vertex 0.
    assert_refused(&plan([7, 12], 660), "3 3 0 0 1 2 0 0", 10, 7, 0);
    assert_refused(&plan([7, 12], 660), "3 3 0 0 1 2 0 2", 10, 7, 0);
    let program = words(TWO_CALLS);
    assert_answer(
        "two calls",
        &program,
        &words("3 7 0 1 4 6 2 4 6 3 0"),
        "trace 7",
    );
    for (witness, place, line) in [
        // From f's exit, to another return point and to the right one as the last vertex.
        ("3 4 0 1 4 6 3 0", 6, 0),
        ("3 3 0 1 4 6 2", 6, 0),
        // From the calls, from f, and from the assertion.
        ("3 2 0 1 2 0", 4, 3),
        ("3 1 0 1 4", 4, 3),
        ("3 4 0 1 4 6 2 0", 7, 4),
        ("3 4 0 1 4 6 2 4", 7, 4),
        ("3 2 0 1 4 0", 5, 9),
        ("3 7 0 1 4 6 2 4 6 3 5", 10, 5),
    ] {
        assert_refused(&program, witness, 10, place, line);
    }
}

/// 11: x = 1000 × x + 1 at line 4.
#[test]
fn of_a_value_beyond_its_limit() {
    for line in [0, 1, 4, 1_000_000] {
        let program = words(&format!(
            "2 1 0 15 | 2 4 6 | 0 6 12 | {line} 2 0 0 1 1000 5 3 1 0 0 1 1 1 1"
        ));
        assert_refused(&program, "3 2 0 1000000000 1 2 0", 11, 5, line);
    }
}

/// 12, and 10 at the same vertex: main calls f(63); f(a) asserts a ≠ 0 at line 6 and calls f(a − 1)
/// at line 7.
#[test]
fn of_the_65th_call() {
    let program = words(
        "3 2 0 23 | 5 4 5 6 6 | 0 5 11 17 20 | 2 4 2 0 63 6 3 6 0 0 1 7 5 2 -1 999999 1 1 0 0 2 1 1",
    );
    let trace = |ending: &str| {
        let vertices = format!("1 {}{ending}", "2 3 ".repeat(63));
        let steps = vertices.split_whitespace().count() - 1;
        format!("3 {steps} 0 {vertices}")
    };
    assert_refused(&program, &trace("2 0"), 12, 130, 7);
    assert_refused(&program, &trace("2"), 10, 130, 7);
    assert_refused(&program, &trace("3 0"), 10, 130, 7);
}

/// Main calls at line 8 a procedure that has a parameter and one other local, and asserts at line 9.
const CALL: &str = "2 2 1 20 | 5 4 6 6 | 0 6 14 17 | 8 3 2 0 5 1 9 4 1 -1 999400 1 0 0 1 0 0 2 2 1";

/// All other refusals have none, though the statements do.
#[test]
fn none_in_other_refusals() {
    let program = plan([7, 12], 540);
    assert_refused(&program[..24], CERTIFICATE_A, 1, 0, 0);
    assert_refused(&with(program.clone(), 6, 5), CERTIFICATE_A, 2, 6, 0);
    // 2 comes before 3.
    let both = with(with(program.clone(), 6, 5), 4, 7);
    assert_refused(&both, CERTIFICATE_A, 2, 6, 0);
    for (changes, number, place) in [
        (&[(0, 2)][..], 4, 0),
        (&[(4, 9)], 5, 4),
        (&[(21, 1)], 6, 21),
        (&[(14, 999_400)], 7, 21),
        (&[(16, 0)], 15, 4),
    ] {
        let changes = changes.iter();
        let certificate = changes.fold(words(CERTIFICATE_A), |words, &(place, word)| {
            with(words, place, word)
        });
        let expected = format!("refused {number} {place} 0");
        assert_answer(&expected, &program, &certificate, &expected);
    }
    let mut certificate = with(words(CERTIFICATE_A), 2, 9);
    certificate.push(0);
    assert_answer("8", &program, &certificate, "refused 8 25 0");
    let program = words(CALL);
    assert_answer(
        "14",
        &program,
        &words("3 2 1 700 1 2 0 4"),
        "trace 2 700 705 4",
    );
    assert_refused(&program, "3 2 1 1000000001 1 2 0 4", 9, 3, 0);
    assert_refused(&program, "3 2 1 700 1 2 0 1000000001", 9, 7, 0);
    assert_refused(&program, "3 2 0 700 1 2 0", 14, 5, 0);
    assert_refused(&program, "3 2 2 700 1 2 0 4 5", 14, 8, 0);
    let answer = check(&program, &words("3 2 1 700 1 2 0 4"), &mut [0; 2]);
    assert_eq!(answer, refused(13, 3));
    let answer = check(&program, &words("3 2 1 700 1 2 0 4"), &mut [0; 3]);
    assert_eq!(answer, Answer::Trace(2));
}
