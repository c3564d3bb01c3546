//! Compares another checker with the second checker.
//!
//! A checker becomes a [`Subject`] by its answers alone; [`run`] then gives both the same inputs
//! and compares answers and whole result buffers.

mod constants;
mod refused;
pub mod sparse;

pub use constants::{Constants, Standing};
pub use refused::Refused;
pub use sparse::Converter;

use crate::checker::witness::{SPLIT, SPLITS};
use crate::checker::{check, replay_by_grammar, witness_layout, Answer, WitnessLayout};
use crate::generate::program_words::ProgramWords;
use crate::generate::{
    certificate_inputs, large, sparse_inputs, split_inputs, trace_inputs, Input,
};
use crate::random::Random;
use std::fmt;

/// The checker that is compared.
pub trait Subject {
    fn check(&self, program: &[i32], witness: &[i32], buffer: &mut [i64]) -> Answer;
}

/// The second checker itself.
pub struct Second;

impl Subject for Second {
    fn check(&self, program: &[i32], witness: &[i32], buffer: &mut [i64]) -> Answer {
        check(program, witness, buffer)
    }
}

/// Its replay by the grammar.
pub struct SecondByGrammar;

impl Subject for SecondByGrammar {
    fn check(&self, program: &[i32], witness: &[i32], buffer: &mut [i64]) -> Answer {
        replay_by_grammar(program, witness, buffer)
    }
}

/// How often each answer was given.
#[derive(Clone, Debug, Default)]
pub struct Counts {
    pub safe: u64,
    pub trace: u64,
    pub refused: Refused,
    pub others: OtherLocals,
    pub splits: Splits,
    pub lines: Lines,
    pub constants: Constants,
}

/// How often an answer had to do with other locals.
#[derive(Clone, Debug, Default)]
pub struct OtherLocals {
    /// Safe, with a program that has some.
    pub safe: u64,
    /// A trace with entry values.
    pub trace: u64,
    /// 9 at an entry value.
    pub beyond: u64,
    /// 14 at a vertex, and at an entry value.
    pub missing: u64,
    pub left_over: u64,
}

/// How often an answer had to do with splits.
#[derive(Clone, Debug, Default)]
pub struct Splits {
    /// Safe, with a certificate that has some; and where a tree has eight on a way.
    pub safe: u64,
    pub deepest: u64,
    /// 6 and 7 at an entailment whose witness begins with one.
    pub beyond: u64,
    pub misfit: u64,
}

/// How often a refusal had to do with lines.
#[derive(Clone, Debug, Default)]
pub struct Lines {
    /// Those whose line isn't 0.
    pub refused: Refused,
    /// 3 with such a line at a kind that there is not, and at a row whose other words are past the
    /// pool.
    pub unknown_kinds: u64,
    pub cut_off: u64,
    /// 3 with line 0 at a row whose first word is there and beyond its range.
    pub beyond: u64,
    /// 10 with line 0 behind the first vertex.
    pub none: u64,
}

/// The refusal numbers of certificates and of traces.
pub const NUMBERS: [usize; 16] = [1, 2, 3, 4, 5, 6, 7, 8, 9, 10, 11, 12, 13, 14, 15, 25];

/// Those that may have a line.
pub const WITH_LINES: [usize; 4] = [3, 10, 11, 12];

impl Counts {
    /// Counts the answer to these words.
    pub fn add(&mut self, program: &[i32], witness: &[i32], answer: Answer) {
        match answer {
            Answer::Safe(_) => self.safe += 1,
            Answer::Trace(_) => self.trace += 1,
            Answer::Refused { number, .. } => self.refused.add(number, 1),
        }
        self.others.add(program, witness, answer);
        self.splits.add(program, witness, answer);
        self.lines.add(program, answer);
        self.constants.add(program, witness, answer);
    }
}

impl OtherLocals {
    fn add(&mut self, program: &[i32], witness: &[i32], answer: Answer) {
        // The last words of a trace are its entry values.
        let is_entry_value = |place: u64| place + witness[2] as u64 >= witness.len() as u64;
        match answer {
            Answer::Safe(_) => self.safe += u64::from(ProgramWords(program).has_others()),
            Answer::Trace(_) => self.trace += u64::from(witness[2] > 0),
            Answer::Refused {
                number: 9, place, ..
            } => self.beyond += u64::from(is_entry_value(place)),
            Answer::Refused {
                number: 14, place, ..
            } => match is_entry_value(place) {
                true => self.left_over += 1,
                false => self.missing += 1,
            },
            Answer::Refused { .. } => {}
        }
    }
}

impl Splits {
    fn add(&mut self, program: &[i32], witness: &[i32], answer: Answer) {
        match answer {
            Answer::Safe(_) if witness.contains(&SPLIT) => {
                let layout = witness_layout(program, witness).unwrap_or_default();
                let depth = layout.iter().map(WitnessLayout::depth).max();
                self.safe += u64::from(depth > Some(0));
                self.deepest += u64::from(depth == Some(SPLITS));
            }
            Answer::Refused { number, place, .. } => {
                let is_tree = witness.get(place as usize) == Some(&SPLIT);
                match number {
                    6 => self.beyond += u64::from(is_tree),
                    7 => self.misfit += u64::from(is_tree),
                    _ => {}
                }
            }
            _ => {}
        }
    }
}

impl Lines {
    fn add(&mut self, program: &[i32], answer: Answer) {
        let Answer::Refused {
            number,
            place,
            line,
        } = answer
        else {
            return;
        };
        let (given, place) = (ProgramWords(program), place as usize);
        self.refused.add(number, u64::from(line != 0));
        match (number, line) {
            (3, 0) => {
                let first = given.first_word(ProgramWords::vertex(place));
                self.beyond += u64::from(first.is_some_and(|line| line != 0));
            }
            (3, _) => {
                self.unknown_kinds += u64::from(!(1..=5).contains(&program[place]));
                self.cut_off += u64::from(given.is_cut_off(ProgramWords::vertex(place)));
            }
            (10, 0) => self.none += u64::from(place > 3 + given.starts()),
            _ => {}
        }
    }
}

impl fmt::Display for Lines {
    fn fmt(&self, out: &mut fmt::Formatter) -> fmt::Result {
        write!(
            out,
            "with a line: {}, of 3 at an unknown kind {}, at a row that is cut off {}; line 0: 3 at a line beyond \
             its range {}, 10 behind the first vertex {}",
            self.refused, self.unknown_kinds, self.cut_off, self.beyond, self.none
        )
    }
}

impl fmt::Display for Splits {
    fn fmt(&self, out: &mut fmt::Formatter) -> fmt::Result {
        write!(
            out,
            "with splits: safe {}, eight on a way {}, 6 in a tree {}, 7 in a tree {}",
            self.safe, self.deepest, self.beyond, self.misfit
        )
    }
}

impl fmt::Display for OtherLocals {
    fn fmt(&self, out: &mut fmt::Formatter) -> fmt::Result {
        write!(
            out,
            "with other locals: safe {}, trace with entry values {}, 9 at an entry value {}, 14 \
             missing {}, 14 left over {}",
            self.safe, self.trace, self.beyond, self.missing, self.left_over
        )
    }
}

impl fmt::Display for Counts {
    fn fmt(&self, out: &mut fmt::Formatter) -> fmt::Result {
        write!(out, "safe {}, trace {}", self.safe, self.trace)?;
        write!(out, ", refused {}", self.refused)?;
        write!(out, "; {}; {}; {}", self.others, self.splits, self.lines)?;
        write!(out, "; {}", self.constants)
    }
}

/// An answer and the result buffer after it.
pub type Outcome = (Answer, Vec<i64>);

/// The first input on which the two differ.
#[derive(Clone, Debug)]
pub struct Disagreement {
    pub input: Input,
    pub second: Outcome,
    pub subject: Outcome,
}

impl fmt::Display for Disagreement {
    fn fmt(&self, out: &mut fmt::Formatter) -> fmt::Result {
        let Input {
            program,
            witness,
            buffer,
        } = &self.input;
        writeln!(out, "program {program:?}")?;
        writeln!(out, "witness {witness:?}")?;
        writeln!(out, "buffer  {buffer:?}")?;
        writeln!(out, "second  {}, {:?}", self.second.0, self.second.1)?;
        write!(out, "subject {}, {:?}", self.subject.0, self.subject.1)
    }
}

#[derive(Clone, Debug, Default)]
pub struct Report {
    /// The second checker's answers, the one in disagreement included.
    pub counts: Counts,
    pub disagreement: Option<Disagreement>,
}

/// Compares `amount` generated inputs. At the first disagreement it stops and prints the words.
pub fn run(subject: &dyn Subject, seed: u64, amount: usize) -> Report {
    compare(subject, inputs(seed).take(amount))
}

/// Compares the inputs of the largest sizes.
pub fn run_large(subject: &dyn Subject, seed: u64) -> Report {
    let inputs = large::inputs(seed).into_iter();
    compare(subject, inputs.map(|large| large.input))
}

/// Certificates, dense ones without and with splits and sparse ones, and traces in turns of chance, good
/// and damaged. One in ten is about splits, and one about sparse rows.
pub fn inputs(seed: u64) -> impl Iterator<Item = Input> {
    let mut random = Random::new(seed);
    let mut certificates = certificate_inputs(random.word());
    let mut traces = trace_inputs(random.word());
    let mut splits = split_inputs(random.word());
    let mut sparse = sparse_inputs(random.word());
    std::iter::from_fn(move || match random.below(10) {
        0..=3 => certificates.next(),
        4..=7 => traces.next(),
        8 => splits.next(),
        _ => sparse.next(),
    })
}

/// Compares these inputs.
pub fn compare(subject: &dyn Subject, inputs: impl Iterator<Item = Input>) -> Report {
    let mut report = Report::default();
    for input in inputs {
        let second = outcome(&Second, &input);
        report.counts.add(&input.program, &input.witness, second.0);
        let subject = outcome(subject, &input);
        if second != subject {
            let disagreement = Disagreement {
                input,
                second,
                subject,
            };
            println!("{disagreement}");
            report.disagreement = Some(disagreement);
            break;
        }
    }
    report
}

/// The subject's answer to an input, and the buffer after it.
pub fn outcome(subject: &dyn Subject, input: &Input) -> Outcome {
    let mut buffer = input.buffer.clone();
    let answer = subject.check(&input.program, &input.witness, &mut buffer);
    (answer, buffer)
}
