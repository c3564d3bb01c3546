//! Explains an answer to a person: the plan as statements, the certificate as inequalities, and for
//! a refusal what failed where.
//!
//! Nothing here is proved. The explanation follows the second checker, whose parts it uses; what
//! the proved checker answered is passed in and compared.

mod edges;
mod entailments;
mod entry_faults;
mod faults;
mod input;
mod listing;
pub(crate) mod names;
mod program_faults;
mod run;
mod sparse_faults;
mod witness_faults;
mod witness_range;
mod witness_sums;
mod witnesses;

pub use input::Plan;

use crate::checker::certificate::Certificate;
use crate::checker::program::Program;
use crate::checker::row::Form;
use crate::checker::{Answer, TRACE};
use crate::compare::{outcome, Outcome, Second};
use crate::files::{line, PROGRAM, WITNESS};

/// The explanation, its first line what the proved checker answered.
pub fn explain(plan: &Plan, proved: &Outcome) -> String {
    let second = outcome(&Second, &plan.input());
    let parts = [
        format!("{}\n", line(proved)),
        agreement(proved, &second),
        the_plan(plan),
        the_certificate(plan),
        the_answer(plan, second.0),
    ];
    let parts: Vec<String> = parts.into_iter().filter(|part| !part.is_empty()).collect();
    parts.join("\n")
}

fn agreement(proved: &Outcome, second: &Outcome) -> String {
    let unproved = "What follows is not proved: it explains, and only check-plan decides.";
    match proved == second {
        true => format!(
            "This is the proved checker's line, and the second checker's is the same. {unproved}\n"
        ),
        false => format!(
            "THE CHECKERS DISAGREE. The line above is the proved checker's, and it is the one that \
             counts; the second checker's is: {}\nThe explanation is of the second checker's line. \
             Please report the two files to whoever maintains the checkers.\n{unproved}\n",
            line(second)
        ),
    }
}

fn the_plan(plan: &Plan) -> String {
    let listing = listing::listing(&plan.program);
    let unread = || format!("It can't be read from the words of {PROGRAM}; see below.\n");
    format!("THE PLAN\n{}", listing.unwrap_or_else(unread))
}

/// Nothing for a trace, which is shown as a run, and where the plan can't be read.
fn the_certificate(plan: &Plan) -> String {
    let Ok(program) = Program::parse(&plan.program) else {
        return String::new();
    };
    if plan.witness.first() == Some(&TRACE) {
        return String::new();
    }
    let edges = match Certificate::parse(&program, &plan.witness) {
        Ok(certificate) => edges::edges(&program, &certificate),
        Err(_) => format!("It can't be read from the words of {WITNESS}; see below.\n"),
    };
    let is_sparse = plan.witness.first() == Some(&Form::Sparse.mark());
    let heading = match is_sparse {
        true => "THE CERTIFICATE, WITH SPARSE ROWS",
        false => "THE CERTIFICATE",
    };
    format!("{heading}\n{edges}")
}

fn the_answer(plan: &Plan, answer: Answer) -> String {
    match answer {
        Answer::Safe(count) => format!(
            "WHY IT IS SAFE\nEach of the certificate's {count} entailments is shown by its witness: \
             the edges hold wherever a run gets to, and none gets to vertex 0.\n{}",
            witnesses::splits(plan)
        ),
        Answer::Trace(_) => {
            let run = Program::parse(&plan.program)
                .ok()
                .and_then(|program| run::good(&program, &plan.witness));
            format!("THE RUN\n{}", run.unwrap_or_else(unexplained))
        }
        Answer::Refused {
            number,
            place,
            line,
        } => {
            let text = refusal(plan, number, place as usize).unwrap_or_else(unexplained);
            let (test, line) = (test(number), at_line(number, line));
            format!("WHY IT IS REFUSED\nNumber {number}, at {place}: {test}.\n{line}{text}")
        }
    }
}

/// What the test of that number is about.
fn test(number: u64) -> &'static str {
    match number {
        1 => "plan.lin, its sizes or the total of its words",
        2 => "an exit of the plan",
        3 => "a statement of the plan",
        4 => "plan.wit, its mark, its sizes or the total of its words",
        5 => "an entry of the certificate",
        6 => "a witness word is missing or beyond its range",
        7 => "a weighted sum doesn't fit",
        8 => "words are left after the last entailment",
        9 => "a start value or an entry value of the trace",
        10 => "no step leads to the listed vertex, or the first isn't 1, or the last isn't 0",
        11 => "a value leaves its limits",
        12 => "a call too deep",
        13 => "the result buffer is too short",
        14 => "an entry value of the trace is missing or left over",
        15 => "a constant row in an entry of the certificate",
        25 => {
            "a column, a coefficient or a place of a sparse certificate, or a row word that is left"
        }
        _ => "a number that this explanation doesn't know",
    }
}

/// Where the author finds it, if the refusal has a line.
fn at_line(number: u64, line: u64) -> String {
    match (number, line) {
        (_, 0) => String::new(),
        (3, _) => format!("It is the statement at line {line} of the plan's text.\n"),
        _ => format!("It is the step from line {line} of the plan's text.\n"),
    }
}

/// What failed in a refusal of the second checker, at its place.
fn refusal(plan: &Plan, number: u64, place: usize) -> Option<String> {
    let words = &plan.program;
    match number {
        1 => return sentences(&plan.program_fault, program_faults::sizes(words)),
        2 => return sentences(&None, program_faults::exit(words, place)),
        3 => return sentences(&None, program_faults::statement(words, place)),
        _ => {}
    }
    let program = &Program::parse(words).ok()?;
    let words = &plan.witness;
    match number {
        4 => sentences(&plan.witness_fault, witness_faults::sizes(program, words)),
        5 | 15 | 25 => sentences(&None, entry_faults::entry(program, words, place)),
        6 | 7 => witnesses::entailment(program, words, place),
        8 => witnesses::left_over(program, words, place),
        9 => sentences(&None, witness_faults::value(program, words, place)),
        10..=12 | 14 => run::refused(program, words, number, place),
        _ => None,
    }
}

/// A line for each sentence; what is wrong with the file itself says it all.
fn sentences(file: &Option<String>, faults: Vec<String>) -> Option<String> {
    let sentences = match file {
        Some(fault) => vec![fault.clone()],
        None => faults,
    };
    let lines = sentences.iter().map(|sentence| format!("{sentence}\n"));
    (!sentences.is_empty()).then(|| lines.collect())
}

/// Said where the second checker's answer has no explanation, which the tests look for.
pub const UNEXPLAINED: &str = "There is no explanation for this answer.";

fn unexplained() -> String {
    format!("{UNEXPLAINED}\n")
}
