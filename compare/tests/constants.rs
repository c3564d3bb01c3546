//! Constants of two words (document 02, CR 8): which words they may be, in expressions, in rows of
//! entries and in split rows, and sums with the largest of them.

mod common;

use common::{assert_answer, refused, words, CERTIFICATE_A, TRACE_B};
use compare::build::spelling;
use compare::checker::{check, Answer};
use compare::compare::Counts;
use compare::generate::constants::{decided, far, Place, BEYOND, LARGEST};
use compare::generate::{aimed, certificates, extremes, splits, traces, Pair};
use compare::random::Random;
use std::collections::BTreeMap;

/// Plan A with these words for 540 and these for -600.
fn plan(value: [i32; 2], limit: [i32; 2]) -> Vec<i32> {
    let [value, limit] = [value, limit].map(|[high, low]| format!("{high} {low}"));
    words(&format!(
        "2 1 1 15 | 2 4 6 | 0 6 12 | 7 2 0 {value} 0 12 3 1 {limit} 1 1 0 0"
    ))
}

/// Certificate A with these words for -540.
fn certificate(row: [i32; 2]) -> Vec<i32> {
    let mut certificate = words(CERTIFICATE_A);
    certificate[13..15].copy_from_slice(&row);
    certificate
}

const VALUE: [i32; 2] = [0, 540];
const LIMIT: [i32; 2] = [-1, 999_400];

/// Switch times: x is the value, which is below another.
#[test]
fn high_and_low() {
    for value in [
        0,
        1,
        -1,
        999_999,
        1_000_000,
        1_000_001,
        -1_000_000,
        -1_000_001,
        1_785_888_000,
        -1_785_888_000,
        LARGEST - 1,
        -LARGEST,
    ] {
        let program = plan(spelling(value), spelling(-value - 1));
        let row = certificate(spelling(-value));
        assert_answer("x < value + 1", &program, &row, "safe 5");
        let failing = plan(spelling(value), spelling(-value));
        assert_answer("x < value", &failing, &row, "refused 7 21 0");
        let trace = format!("trace 2 {value}");
        assert_answer("x < value", &failing, &words(TRACE_B), &trace);
        assert_answer(
            "x < value + 1",
            &program,
            &words(TRACE_B),
            "refused 10 6 12",
        );
        let tighter = certificate(spelling(1 - value));
        if value > -LARGEST {
            assert_answer("x < value + 1", &program, &tighter, "refused 7 18 0");
        }
    }
}

/// Each limit is in, and what is one beyond is refused by its place.
#[test]
fn limits() {
    for constant in [LARGEST, -LARGEST, LARGEST - 1, 1 - LARGEST] {
        let value = spelling(constant);
        let answer = check(&plan(value, LIMIT), &words(TRACE_B), &mut [0]);
        assert!(matches!(answer, Answer::Trace(2)) == (constant > 0));
        let answer = check(&plan(VALUE, value), &certificate(LIMIT), &mut []);
        assert!(matches!(
            answer,
            Answer::Refused { number: 7, .. } | Answer::Safe(_)
        ));
        let answer = check(&plan(VALUE, LIMIT), &certificate(value), &mut []);
        assert!(matches!(answer, Answer::Refused { number: 7, .. }));
    }
    for wrong in BEYOND {
        let safe = words(CERTIFICATE_A);
        assert_answer("value", &plan(wrong, LIMIT), &safe, "refused 3 4 7");
        assert_answer("limit", &plan(VALUE, wrong), &safe, "refused 3 5 12");
        let row = certificate(wrong);
        assert_answer("row", &plan(VALUE, LIMIT), &row, "refused 5 4 0");
    }
}

/// Each constant has one spelling.
#[test]
fn other_spellings() {
    let random = &mut Random::new(91);
    for _ in 0..10_000 {
        let constant = match random.chance(50) {
            true => far(random),
            false => random.number(-LARGEST, LARGEST),
        };
        let [high, low] = spelling(constant);
        assert_eq!(i64::from(high) * 1_000_000 + i64::from(low), constant);
        assert!((0..=999_999).contains(&low));
        for times in [1, -1, 2, -2, 1_000, -1_000] {
            let other = [high - times, low + 1_000_000 * times];
            let program = plan(VALUE, LIMIT);
            let safe = words(CERTIFICATE_A);
            assert_eq!(check(&program, &certificate(other), &mut []), refused(5, 4));
            let answer = check(&plan(other, LIMIT), &safe, &mut []);
            assert!(matches!(answer, Answer::Refused { number: 3, .. }));
        }
    }
}

fn assert_expected((pair, expected): &(Pair, Answer)) {
    let answer = check(&pair.program, &pair.witness, &mut []);
    assert_eq!(answer, *expected, "{pair:?}");
}

/// A constant that is right at each place, and one that is off.
#[test]
fn decided_by_a_constant() {
    let random = &mut Random::new(92);
    for place in Place::ALL {
        let mut counts = Counts::default();
        for _ in 0..3_000 {
            let decided = decided(random, place);
            assert!(matches!(decided.accepted.1, Answer::Safe(_)), "{place:?}");
            let number = match decided.refused.1 {
                Answer::Refused { number, .. } => number,
                answer => panic!("{place:?}: {answer}"),
            };
            assert_eq!(number, 7);
            for (pair, expected) in [decided.accepted, decided.refused] {
                counts.add(&pair.program, &pair.witness, expected);
                assert_expected(&(pair, expected));
            }
        }
        println!("{place:?}: {}", counts.constants);
        let standing = match place {
            Place::Value | Place::Branch | Place::Assertion | Place::Actual => {
                &counts.constants.expressions
            }
            Place::PathRow | Place::SummaryRow => &counts.constants.rows,
            Place::SplitRow => &counts.constants.split_rows,
        };
        assert_eq!((standing.accepted, standing.refused), (3_000, 3_000));
    }
}

/// The largest sums, just enough and short.
#[test]
fn largest_sums() {
    let random = &mut Random::new(93);
    for _ in 0..1_000 {
        for pairs in [extremes::sums(random), extremes::goals(random)] {
            assert!(matches!(pairs[0].1, Answer::Safe(_)));
            assert!(matches!(pairs[1].1, Answer::Refused { number: 7, .. }));
            pairs.iter().for_each(assert_expected);
        }
    }
}

/// Damage aimed at the two words of constants.
#[test]
fn aimed_at_constants() {
    let random = &mut Random::new(94);
    let mut counts = Counts::default();
    let mut cases: BTreeMap<&str, u64> = BTreeMap::new();
    for turn in 0..2_000 {
        let pair = match turn % 2 {
            0 => certificates::accepted(random),
            _ => {
                let sharing = certificates::sharing(random);
                splits::pair(&splits::accepted(random), sharing)
            }
        };
        for aimed in aimed::constants(random, &pair) {
            let input = aimed.input;
            let answer = check(&input.program, &input.witness, &mut []);
            assert_eq!(answer, aimed.answer, "{:?}: {input:?}", aimed.case);
            counts.add(&input.program, &input.witness, answer);
            *cases.entry(aimed.case.expect("a case")).or_default() += 1;
        }
    }
    println!("aimed at constants: {}; {cases:#?}", counts.constants);
    assert_eq!(cases.len(), 17);
    assert!(cases.values().all(|count| *count >= 1_000));
    assert!(counts
        .constants
        .all()
        .iter()
        .all(|place| place.beyond >= 3_000));
}

/// Values up to 1,000,000,000,000 by far constants, and one beyond.
#[test]
fn in_traces() {
    let random = &mut Random::new(95);
    let mut counts = Counts::default();
    let mut largest = 0;
    for turn in 0..6_000 {
        let trace = match turn % 4 {
            0 => traces::growing(random),
            1 => traces::climbing(random),
            2 => traces::switching(random),
            _ => traces::trace(random),
        };
        let Pair { program, witness } = &trace.pair;
        let mut buffer = [0; 16];
        let answer = check(program, witness, &mut buffer);
        assert_eq!(answer, trace.answer, "{:?}", trace.pair);
        assert_eq!(buffer[..trace.values.len()], trace.values);
        counts.add(program, witness, answer);
        largest = trace
            .values
            .iter()
            .fold(largest, |most, value| most.max(value.abs()));
    }
    println!("traces: {counts}; the largest value {largest}");
    let standing = &counts.constants.expressions;
    assert!(standing.accepted >= 1_000 && standing.refused >= 1_000);
    assert_eq!(largest, 1_000_000_000_000);
}
