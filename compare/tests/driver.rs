//! The driver, with the second checker itself as the subject and with one that is wrong.

use compare::checker::{check, Answer};
use compare::compare::{run, run_large, Second, Subject, WITH_LINES};

#[test]
fn agrees_with_itself() {
    let report = run(&Second, 31, 190_000);
    println!("{}", report.counts);
    assert!(report.disagreement.is_none());
    let report = run_large(&Second, 31);
    assert!(report.disagreement.is_none());
}

/// Takes a contradiction with constant 0 for one, as it were: never answers 7.
struct Lenient;

impl Subject for Lenient {
    fn check(&self, program: &[i32], witness: &[i32], buffer: &mut [i64]) -> Answer {
        match check(program, witness, buffer) {
            Answer::Refused { number: 7, .. } => Answer::Safe(1),
            answer => answer,
        }
    }
}

/// Writes past the values.
struct Untidy;

impl Subject for Untidy {
    fn check(&self, program: &[i32], witness: &[i32], buffer: &mut [i64]) -> Answer {
        let answer = check(program, witness, buffer);
        if let (Answer::Trace(_), Some(last)) = (answer, buffer.last_mut()) {
            *last = 0;
        }
        answer
    }
}

/// Gives no refusal of this number its line.
struct Lineless(u64);

impl Subject for Lineless {
    fn check(&self, program: &[i32], witness: &[i32], buffer: &mut [i64]) -> Answer {
        match check(program, witness, buffer) {
            Answer::Refused { number, place, .. } if number == self.0 => {
                Answer::refused(number, place)
            }
            answer => answer,
        }
    }
}

#[test]
fn finds_a_line_that_is_left_out() {
    for number in WITH_LINES.map(|number| number as u64) {
        let report = run(&Lineless(number), 34, 12_000);
        let disagreement = report.disagreement.expect("some have a line");
        let (second, subject) = (disagreement.second.0, disagreement.subject.0);
        let (found, place, line) = match second {
            Answer::Refused {
                number,
                place,
                line,
            } => (number, place, line),
            answer => panic!("{answer}"),
        };
        assert!(found == number && line != 0, "{second}");
        assert_eq!(subject, Answer::refused(number, place));
    }
}

#[test]
fn finds_a_wrong_answer_and_a_wrong_buffer() {
    let report = run(&Lenient, 32, 12_000);
    let disagreement = report.disagreement.expect("7 is not safe");
    assert!(matches!(
        disagreement.second.0,
        Answer::Refused { number: 7, .. }
    ));
    let report = run(&Untidy, 33, 12_000);
    let disagreement = report.disagreement.expect("the rest stays");
    assert_eq!(disagreement.second.0, disagreement.subject.0);
    assert_ne!(disagreement.second.1, disagreement.subject.1);
}
