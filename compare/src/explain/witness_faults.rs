//! What is wrong with the words of `plan.wit` before any of them is used: refusals 4 and 9. Those of
//! entries are in `entry_faults`.

use super::edges::names;
use super::faults::Faults;
use super::names::count;
use crate::checker::program::Program;
use crate::checker::row::Form;
use crate::checker::trace::{STARTS, START_LIMIT};
use crate::checker::TRACE;
use crate::files::WITNESS;

const LARGEST: usize = 1_000_000;

/// The mark of document 01's traces.
const OLD_TRACE: i32 = 2;

/// Refusal 4.
pub fn sizes(program: &Program, words: &[i32]) -> Vec<String> {
    let mut faults = Faults::new(WITNESS, words);
    match words.first() {
        None => faults.add(format!(
            "{WITNESS} has no words; its first says what it is."
        )),
        Some(&mark) if Form::of(mark).is_some() => certificate_sizes(&mut faults, program),
        Some(&TRACE) => trace_sizes(&mut faults, program),
        Some(&mark) => {
            let marks = "1 for a certificate, 4 for a sparse one or 3 for a trace";
            faults.unless(false, 0, "its mark", marks);
            if mark == OLD_TRACE {
                faults.add(
                    "2 was the mark of a trace before traces had the values of other locals."
                        .into(),
                );
            }
        }
    }
    faults.found()
}

fn certificate_sizes(faults: &mut Faults, program: &Program) {
    if faults.length() < 3 {
        let (words, mark) = (count(faults.length(), "word"), faults.word(0));
        faults.add(format!(
            "{WITNESS} has {words}; the first three of a certificate are {mark}, R and W."
        ));
        return;
    }
    let not_negative = "at least 0";
    let [rows, witnesses] = [1, 2].map(|place| faults.word(place));
    let right = [
        faults.unless(rows >= 0, 1, "R, the number of row words", not_negative),
        faults.unless(
            witnesses >= 0,
            2,
            "W, the number of witness words",
            not_negative,
        ),
    ];
    if right == [true; 2] {
        let entries = entries(program);
        let sum = format!("3 + 2 × {entries} + {rows} + {witnesses}");
        let parts =
            "the mark and the sizes, a count and a place for each vertex and each summary, \
                     R row words and W witness words";
        faults.total(3 + 2 * entries as i64 + rows + witnesses, &sum, parts);
    }
    if faults.length() > LARGEST {
        faults.add("A certificate has at most 1,000,000 words.".into());
    }
}

fn trace_sizes(faults: &mut Faults, program: &Program) {
    if faults.length() < 3 {
        let words = count(faults.length(), "word");
        faults.add(format!(
            "{WITNESS} has {words}; the first three of a trace are 3, N and E."
        ));
        return;
    }
    let right = [
        faults.expect(1, 1..=4_096, "N, the number of steps"),
        faults.expect(2, 0..=32_768, "E, the number of entry values"),
    ];
    if right == [true; 2] {
        let [steps, entry_values] = [1, 2].map(|place| faults.word(place));
        let starts = program.columns(0) as i64;
        let sum = format!("3 + {starts} + {steps} + 1 + {entry_values}");
        let parts = "the mark and the sizes, the start values, N + 1 vertices and E entry values";
        faults.total(4 + starts + steps + entry_values, &sum, parts);
    }
}

/// How many entries a certificate has, those of vertices and of summaries.
pub fn entries(program: &Program) -> usize {
    program.vertices() + program.procedures.len()
}

/// Refusal 9, of a start value or of an entry value.
pub fn value(program: &Program, words: &[i32], place: usize) -> Vec<String> {
    let mut faults = Faults::new(WITNESS, words);
    let limit = i64::from(START_LIMIT);
    let what = match place - STARTS {
        column if column < program.columns(0) => {
            format!("the start value of {}", names(program).column(column))
        }
        _ => {
            // The last words are the entry values.
            let all = faults.word(2) as usize;
            format!("entry value {} of {all}", 1 + all + place - words.len())
        }
    };
    faults.expect(place, -limit..=limit, &what);
    faults.found()
}
