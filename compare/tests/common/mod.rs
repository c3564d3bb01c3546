//! Words written as in the documents, answers as the file program prints them, and which witnesses
//! need rounding.

#![allow(dead_code, unused_imports)]

use compare::build::{systems, Certificate, Combination, Program, System, Witness};
use compare::checker::{check, Answer};
use compare::compare::sparse::{conversion, unwritten, written};
use compare::compare::{Second, Subject};
use compare::convert::Writing;
pub use compare::examples::{examples, named, Asked, Example, Task};
use compare::files::marked_buffer;
pub use compare::files::MARK;
use compare::generate::Pair;
pub use compare::plans::{words, CERTIFICATE_A, PROGRAM_A, PROGRAM_B, TRACE_B};
use compare::proved::{self, converters, Proved, TRIMMERS};

/// Program S, one skip that is its own successor, and its certificate.
pub const PROGRAM_S: &str = named("program S");
pub const CERTIFICATE_S: &str = named("certificate S");

/// Program C, main calls f(5), and its certificate.
pub const PROGRAM_C: &str = named("program C");
pub const CERTIFICATE_C: &str = named("certificate C");

/// A refusal without a line.
pub fn refused(number: u64, place: u64) -> Answer {
    Answer::refused(number, place)
}

type Checker = fn(&[i32], &[i32], &mut [i64]) -> Answer;

/// Both checkers; with the first of them alone the tests are the second checker's.
const CHECKERS: &[Checker] = &[check, proved::check];

/// The answer of both checkers, which leaves the result buffer as it was, whatever that is.
pub fn answer(pair: &Pair) -> Answer {
    let checkers: [&dyn Subject; 2] = [&Second, &Proved];
    let [second, proved] = checkers.map(|checker| {
        let mut buffer = marked_buffer();
        let answer = checker.check(&pair.program, &pair.witness, &mut buffer);
        assert_eq!(buffer, marked_buffer());
        assert_eq!(checker.check(&pair.program, &pair.witness, &mut []), answer);
        answer
    });
    assert_eq!(second, proved, "{pair:?}");
    proved
}

/// Asserts the answer of both checkers, written as the file program prints it, with a buffer of
/// marked cells.
pub fn assert_answer(name: &str, program: &[i32], witness: &[i32], expected: &str) {
    for &checker in CHECKERS {
        assert_by(checker, name, program, witness, expected);
    }
}

/// Asserts the answer of the second checker alone.
pub fn assert_second(program: &str, witness: &str, expected: &str) {
    assert_by(check, program, &words(program), &words(witness), expected);
}

fn assert_by(checker: Checker, name: &str, program: &[i32], witness: &[i32], expected: &str) {
    let mut parts = expected.split(' ');
    let kind = parts.next().expect("a kind of answer");
    let numbers: Vec<i64> = parts.map(|part| part.parse().expect("a number")).collect();
    let (answer, values) = match kind {
        "safe" => (Answer::Safe(numbers[0] as u64), &[][..]),
        "trace" => (Answer::Trace(numbers[0] as u64), &numbers[1..]),
        _ => {
            let [number, place, line] = numbers[..] else {
                panic!("{name}: a refusal has three numbers: {expected}");
            };
            let [number, place, line] = [number, place, line].map(|number| number as u64);
            let refused = Answer::Refused {
                number,
                place,
                line,
            };
            (refused, &[][..])
        }
    };
    let mut buffer = vec![MARK; 20];
    assert_eq!(checker(program, witness, &mut buffer), answer, "{name}");
    let (front, rest) = buffer.split_at(values.len());
    assert_eq!(front, values, "{name}");
    assert!(rest.iter().all(|cell| *cell == MARK), "{name}");
}

pub fn assert_answers(cases: &[(&str, &str, &str, &str)]) {
    for (name, program, witness, expected) in cases {
        assert_answer(name, &words(program), &words(witness), expected);
    }
}

/// Asserts the answer of an example by both checkers, both converters or both trimmers, and the result
/// buffer after it.
pub fn assert_example(example: &Example) {
    if let Some(asked) = &example.asked {
        return assert_writing(example, asked);
    }
    for &checker in CHECKERS {
        let mut buffer = buffer_before(example);
        let answer = checker(&example.program, &example.witness, &mut buffer);
        let told = (answer.to_string(), buffer);
        assert_eq!(told, expected(example), "{}", example.name);
    }
}

fn assert_writing(example: &Example, asked: &Asked) {
    let pair = Pair {
        program: example.program.clone(),
        witness: example.witness.clone(),
    };
    for (answer, after) in writings(asked, &pair) {
        let told = (answer.to_string(), after);
        let wanted = (example.answer.clone(), written(&asked.result, asked.length));
        assert_eq!(told, wanted, "{}", example.name);
    }
    let count = example.answer.strip_prefix("written ");
    let count = count.map_or(0, |count| count.parse().expect("a count"));
    assert_eq!(asked.result.len(), count, "{}", example.name);
}

/// What each implementation answers, and its whole result buffer afterwards.
fn writings(asked: &Asked, pair: &Pair) -> Vec<(Writing, Vec<i32>)> {
    match asked.task {
        Task::Convert(direction) => converters()
            .into_iter()
            .map(|converter| conversion(converter, direction, pair, asked.length))
            .collect(),
        Task::Trim => trimmings(pair, asked.length),
    }
}

/// The same of the trimmers, with a result buffer of so many words.
pub fn trimmings(pair: &Pair, length: usize) -> Vec<(Writing, Vec<i32>)> {
    let results = TRIMMERS.iter().map(|trim| {
        let mut result = unwritten(length);
        let writing = trim(&pair.program, &pair.witness, &mut result);
        (writing, result)
    });
    results.collect()
}

/// Its result buffer, or one of marked cells.
fn buffer_before(example: &Example) -> Vec<i64> {
    let marked = || vec![MARK; 20];
    example.buffer.clone().unwrap_or_else(marked)
}

/// The answer of an example without the values of a trace, and the result buffer after it, which has
/// them at its front.
pub fn expected(example: &Example) -> (String, Vec<i64>) {
    let parts: Vec<&str> = example.answer.split(' ').collect();
    let values = if parts[0] == "trace" { 2 } else { parts.len() };
    let (answer, values) = parts.split_at(values);
    let mut buffer = buffer_before(example);
    for (cell, value) in buffer.iter_mut().zip(values) {
        *cell = value.parse().expect("a value");
    }
    (answer.join(" "), buffer)
}

/// The entailments, counted from 0, whose witnesses don't fit by document 01 without rounding.
pub fn needing_rounding(program: &Program, certificate: &Certificate) -> Vec<usize> {
    let systems = systems(program, &certificate.edges).expect("well formed");
    let pairs = systems.iter().zip(&certificate.witnesses).enumerate();
    pairs
        .filter(|(_, (system, witness))| !fits_unrounded(system, witness))
        .map(|(at, _)| at)
        .collect()
}

fn fits_unrounded(system: &System, witness: &Witness) -> bool {
    match witness {
        Witness::Contradiction(multipliers) => gives(system, 1, multipliers, &[1]),
        Witness::Disjunct { number, rows } => {
            let goals = system.goal_rows(number - 1);
            let mut pairs = rows.iter().zip(goals);
            pairs.all(|(combination, goal)| {
                let Combination {
                    divisor,
                    multipliers,
                } = combination;
                gives(system, *divisor, multipliers, goal)
            })
        }
        Witness::Split { row, witnesses } => {
            let systems = system.sides(row);
            let mut sides = systems.iter().zip(&**witnesses);
            sides.all(|(system, witness)| fits_unrounded(system, witness))
        }
    }
}

/// Whether the weighted sum has the coefficients of `divisor` times the row, which are 0 where it
/// has none, and a constant not below `divisor` times the row's.
fn gives(system: &System, divisor: i32, multipliers: &[i32], row: &[i64]) -> bool {
    let sum = system.sum(multipliers);
    let row = row.iter().copied().chain(std::iter::repeat(0));
    let mut pairs = sum.iter().zip(row.map(|cell| i64::from(divisor) * cell));
    let constants = pairs.next();
    constants.is_some_and(|(cell, wanted)| *cell >= wanted)
        && pairs.all(|(cell, wanted)| *cell == wanted)
}
