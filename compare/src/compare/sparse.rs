//! Compares sparse certificates and the converters between the two forms.

use super::{Refused, Second, Subject};
use crate::checker::row::Form;
use crate::checker::Answer;
use crate::convert::{self, Writing};
use crate::generate::sparse::{self, Parts};
use crate::generate::Pair;
use std::fmt;

/// A checker that is compared together with its converters.
pub trait Converter: Subject {
    fn to_sparse(&self, program: &[i32], certificate: &[i32], result: &mut [i32]) -> Writing;
    fn to_dense(&self, program: &[i32], certificate: &[i32], result: &mut [i32]) -> Writing;
}

impl Converter for Second {
    fn to_sparse(&self, program: &[i32], certificate: &[i32], result: &mut [i32]) -> Writing {
        convert::to_sparse(program, certificate, result)
    }

    fn to_dense(&self, program: &[i32], certificate: &[i32], result: &mut [i32]) -> Writing {
        convert::to_dense(program, certificate, result)
    }
}

/// One of the two converters.
#[derive(Clone, Copy, Debug, PartialEq, Eq)]
pub enum Direction {
    ToSparse,
    ToDense,
}

impl Direction {
    pub const ALL: [Direction; 2] = [Direction::ToSparse, Direction::ToDense];

    /// The converter that reads this form.
    pub fn from(form: Form) -> Direction {
        match form {
            Form::Dense => Direction::ToSparse,
            Form::Sparse => Direction::ToDense,
        }
    }

    /// Whether a certificate has the mark that the converter reads.
    fn reads(self, certificate: &[i32]) -> bool {
        let form = certificate.first().and_then(|&mark| Form::of(mark));
        form.map(Direction::from) == Some(self)
    }

    /// The subject's answer with this result buffer.
    pub fn convert(self, subject: &dyn Converter, pair: &Pair, result: &mut [i32]) -> Writing {
        let Pair { program, witness } = pair;
        match self {
            Direction::ToSparse => subject.to_sparse(program, witness, result),
            Direction::ToDense => subject.to_dense(program, witness, result),
        }
    }
}

/// What a converter answers, and its whole result buffer afterwards.
pub type Conversion = (Writing, Vec<i32>);

/// The subject's conversion with a result buffer of so many words.
pub fn conversion(
    subject: &dyn Converter,
    direction: Direction,
    pair: &Pair,
    room: usize,
) -> Conversion {
    let mut result = unwritten(room);
    let writing = direction.convert(subject, pair, &mut result);
    (writing, result)
}

/// A result buffer of so many words before a conversion, no two of them equal and none of them one that
/// is likely to be written.
pub fn unwritten(room: usize) -> Vec<i32> {
    (0..room as i32).map(|at| 1_500_000_000 + at).collect()
}

/// The result buffer of so many words that begins with these and is else as it was.
pub fn written(words: &[i32], room: usize) -> Vec<i32> {
    let mut result = unwritten(room);
    result[..words.len()].copy_from_slice(words);
    result
}

/// How often each answer was given: by the check to sparse certificates, and by the converters.
#[derive(Clone, Debug, Default)]
pub struct Counts {
    pub safe: u64,
    pub refused: Refused,
    pub to_sparse: Written,
    pub to_dense: Written,
}

/// How often a converter wrote, and refused.
#[derive(Clone, Debug, Default)]
pub struct Written {
    pub written: u64,
    pub refused: Refused,
}

impl Counts {
    /// Counts the check's answer, if the certificate is sparse.
    pub fn add_checked(&mut self, certificate: &[i32], answer: Answer) {
        if certificate.first() != Some(&Form::Sparse.mark()) {
            return;
        }
        match answer {
            Answer::Refused { number, .. } => self.refused.add(number, 1),
            _ => self.safe += 1,
        }
    }

    pub fn add_converted(&mut self, direction: Direction, writing: Writing) {
        let written = match direction {
            Direction::ToSparse => &mut self.to_sparse,
            Direction::ToDense => &mut self.to_dense,
        };
        match writing {
            Writing::Written(_) => written.written += 1,
            Writing::Refused { number, .. } => written.refused.add(number, 1),
        }
    }
}

impl fmt::Display for Counts {
    fn fmt(&self, out: &mut fmt::Formatter) -> fmt::Result {
        write!(
            out,
            "sparse certificates: safe {}, refused {}; to sparse form: written {}, refused {}; to \
             dense form: written {}, refused {}",
            self.safe,
            self.refused,
            self.to_sparse.written,
            self.to_sparse.refused,
            self.to_dense.written,
            self.to_dense.refused
        )
    }
}

/// The first call in which the two differ.
#[derive(Clone, Debug)]
pub struct Disagreement {
    pub pair: Pair,
    /// The call, and what each of them gave.
    pub call: String,
    pub second: String,
    pub subject: String,
}

impl fmt::Display for Disagreement {
    fn fmt(&self, out: &mut fmt::Formatter) -> fmt::Result {
        writeln!(out, "program     {:?}", self.pair.program)?;
        writeln!(out, "certificate {:?}", self.pair.witness)?;
        writeln!(out, "{}", self.call)?;
        writeln!(out, "second      {}", self.second)?;
        write!(out, "subject     {}", self.subject)
    }
}

#[derive(Clone, Debug, Default)]
pub struct Report {
    /// The second implementation's answers, the one in disagreement included.
    pub counts: Counts,
    pub disagreement: Option<Disagreement>,
}

/// Compares `amount` generated certificates of both forms, good and damaged, and words that are none.
/// At the first disagreement it stops and prints the words.
pub fn run(subject: &dyn Converter, seed: u64, amount: usize) -> Report {
    compare(subject, sparse::pairs(seed).take(amount))
}

/// Compares the check and both converters on these pairs, with result buffers of several lengths.
pub fn compare(subject: &dyn Converter, pairs: impl Iterator<Item = Pair>) -> Report {
    let mut report = Report::default();
    // Long enough for all that may be written.
    let mut scratch = vec![0; 1_000_000];
    for pair in pairs {
        let differs = differs(subject, &pair, &mut scratch, &mut report.counts);
        if let Err((call, second, subject)) = differs {
            let disagreement = Disagreement {
                pair,
                call,
                second,
                subject,
            };
            println!("{disagreement}");
            report.disagreement = Some(disagreement);
            break;
        }
    }
    report
}

/// A call, and what the second and the subject gave.
type Difference = (String, String, String);

fn differs(
    subject: &dyn Converter,
    pair: &Pair,
    scratch: &mut [i32],
    counts: &mut Counts,
) -> Result<(), Difference> {
    let [second, other] = [&Second, subject].map(|checker| {
        let mut values = [7, 8, 9];
        let answer = checker.check(&pair.program, &pair.witness, &mut values);
        (answer, values)
    });
    counts.add_checked(&pair.witness, second.0);
    if second != other {
        let [second, other] = [second, other].map(|told| format!("{}, {:?}", told.0, told.1));
        return Err(("check".into(), second, other));
    }
    for direction in Direction::ALL {
        let writing = direction.convert(&Second, pair, scratch);
        for room in rooms(direction, &pair.witness, writing) {
            let second = conversion(&Second, direction, pair, room);
            let other = conversion(subject, direction, pair, room);
            counts.add_converted(direction, second.0);
            if second != other {
                let call = format!("{direction:?}, room for {room} words");
                let mut words = second.1.iter().zip(&other.1);
                let place = words.position(|(word, other)| word != other);
                let [second, other] = [second, other].map(|(writing, result)| match place {
                    None => writing.to_string(),
                    Some(place) => format!("{writing}, word {place} is {}", result[place]),
                });
                return Err((call, second, other));
            }
        }
    }
    Ok(())
}

/// Lengths of result buffers: longer than is needed, just enough, one word short, and none.
fn rooms(direction: Direction, certificate: &[i32], writing: Writing) -> Vec<usize> {
    match writing {
        Writing::Written(words) => {
            let words = words as usize;
            vec![words + 5, words, words - 1, 0]
        }
        _ if direction.reads(certificate) => vec![40, 0],
        _ => vec![40],
    }
}

/// Converts a well-formed dense certificate to sparse form, back, there again and back again, by the
/// subject alone. What doesn't hold that should: the words are those of the entries in order, nothing
/// changes any more, and all forms are judged alike.
pub fn round_trip(subject: &dyn Converter, pair: &Pair) -> Result<(), String> {
    let parts = Parts::of(pair);
    let mut before = pair.clone();
    for _ in 0..2 {
        for form in [Form::Sparse, Form::Dense] {
            let expected = parts.pair(&pair.program, form);
            let words = expected.witness.len();
            let direction = match form {
                Form::Sparse => Direction::ToSparse,
                Form::Dense => Direction::ToDense,
            };
            let (writing, result) = conversion(subject, direction, &before, words + 3);
            if writing != Writing::Written(words as u64) {
                return Err(format!("{direction:?}: {writing}"));
            }
            if result != written(&expected.witness, words + 3) {
                return Err(format!("{direction:?}: {result:?}"));
            }
            if judged(subject, &expected) != judged(subject, pair) {
                return Err(format!("{form:?}: judged otherwise"));
            }
            before = expected;
        }
    }
    match Parts::of(&before) == parts {
        true => Ok(()),
        false => Err("other disjuncts or witness words".into()),
    }
}

/// The number of a refusal and how far from the end its place is; 0 and the count if there is none.
fn judged(subject: &dyn Converter, pair: &Pair) -> (u64, u64) {
    let length = pair.witness.len() as u64;
    match subject.check(&pair.program, &pair.witness, &mut []) {
        Answer::Safe(count) | Answer::Trace(count) => (0, count),
        Answer::Refused { number, place, .. } => (number, length - place),
    }
}
