//! The second checker: all of document 01, for certificates and for traces, and of document 02 the
//! other locals of any value (CR 2), the refusal of constant rows (CR 3), the rounding of sums (CR 4),
//! case splits inside a witness (CR 5), line numbers (CR 7), constants of two words (CR 8), sparse
//! rows (CR 9), a replay by the grammar (CR 10) and a check of traces of programs with arrays (CR 12).
//!
//! The words are parsed into a `Program` (tests 1 to 3) and a `Certificate` of either form (4, 5, 25,
//! 15) or a `Trace` (4, 9). A certificate's entailments are then listed and judged one by one (6 to 8); a trace is
//! replayed vertex by vertex, or read by the grammar of valid paths (10 to 14).

pub mod arrays;
pub(crate) mod certificate;
pub(crate) mod entailment;
pub mod grammar;
pub(crate) mod linear;
pub(crate) mod program;
pub(crate) mod row;
mod step;
pub(crate) mod trace;
pub(crate) mod witness;

use program::Program;
use std::fmt;
use std::ops::{Range, RangeInclusive};

/// What a check answers: the number of entailments, the number of steps, or the first test that
/// failed.
#[derive(Clone, Copy, Debug, PartialEq, Eq, Hash, PartialOrd, Ord)]
pub enum Answer {
    Safe(u64),
    Trace(u64),
    /// With 3 and with 10 to 12 the line of the statement concerned, if it has one; else 0.
    Refused {
        number: u64,
        place: u64,
        line: u64,
    },
}

impl Answer {
    /// A refusal without a line.
    pub fn refused(number: u64, place: u64) -> Answer {
        Answer::Refused {
            number,
            place,
            line: 0,
        }
    }
}

impl fmt::Display for Answer {
    fn fmt(&self, out: &mut fmt::Formatter) -> fmt::Result {
        match self {
            Answer::Safe(count) => write!(out, "safe {count}"),
            Answer::Trace(steps) => write!(out, "trace {steps}"),
            Answer::Refused {
                number,
                place,
                line,
            } => write!(out, "refused {number} {place} {line}"),
        }
    }
}

/// The first test that failed, by its number, and the place and the line that it returns.
#[derive(Clone, Copy, Debug)]
pub(crate) struct Refusal {
    pub number: u64,
    pub place: usize,
    pub line: u64,
}

impl Refusal {
    pub fn new(number: u64, place: usize) -> Refusal {
        Refusal::of_line(number, place, 0)
    }

    fn of_line(number: u64, place: usize, line: u64) -> Refusal {
        Refusal {
            number,
            place,
            line,
        }
    }
}

impl From<Refusal> for Answer {
    fn from(refusal: Refusal) -> Answer {
        Answer::Refused {
            number: refusal.number,
            place: refusal.place as u64,
            line: refusal.line,
        }
    }
}

/// The mark, which is the first word, of a trace. Those of certificates are their forms'.
pub(crate) const TRACE: i32 = 3;

/// Checks a certificate or a trace, whichever the witness input is.
pub fn check(program: &[i32], witness: &[i32], buffer: &mut [i64]) -> Answer {
    match witness.first() {
        Some(&TRACE) => replay(program, witness, buffer),
        _ => judge(program, witness),
    }
}

/// Checks a certificate; any other witness input is refused with 4.
pub fn judge(program: &[i32], witness: &[i32]) -> Answer {
    Program::parse(program)
        .and_then(|program| witness::judge(&program, witness))
        .map_or_else(Answer::from, Answer::Safe)
}

/// Checks a trace; any other witness input is refused with 4.
pub fn replay(program: &[i32], witness: &[i32], buffer: &mut [i64]) -> Answer {
    Program::parse(program)
        .and_then(|program| trace::replay(&program, witness, buffer))
        .map_or_else(Answer::from, Answer::Trace)
}

/// Checks a trace, which is read by the grammar; any other witness input is refused with 4.
pub fn replay_by_grammar(program: &[i32], witness: &[i32], buffer: &mut [i64]) -> Answer {
    Program::parse(program)
        .and_then(|program| grammar::replay(&program, witness, buffer))
        .map_or_else(Answer::from, Answer::Trace)
}

/// How an entailment's witness stands in the words of a certificate.
#[derive(Clone, Debug)]
pub struct WitnessLayout {
    /// The vertex that the entailment starts from, 0 for the start.
    pub source: usize,
    /// Premises of the entailment, without those of splits; how many of them, which come first, are
    /// rows of the source's disjunct; and its columns.
    pub premises: usize,
    pub rows: usize,
    pub columns: usize,
    /// Its leaves and splits, in the order of their words.
    pub parts: Vec<Part>,
}

/// A leaf; or the first word and the row of a split, whose two witnesses are behind it.
#[derive(Clone, Debug, PartialEq, Eq)]
pub struct Part {
    pub words: Range<usize>,
    /// How many splits are above it.
    pub depth: usize,
    pub is_split: bool,
}

impl WitnessLayout {
    /// The places of all its words.
    pub fn words(&self) -> Range<usize> {
        let last = self.parts.len() - 1;
        self.parts[0].words.start..self.parts[last].words.end
    }

    pub fn has_splits(&self) -> bool {
        self.parts[0].is_split
    }

    /// The most splits on the way to a leaf.
    pub fn depth(&self) -> usize {
        let depths = self.parts.iter().map(|part| part.depth);
        depths.max().unwrap_or(0)
    }
}

/// How the witnesses of a well-formed certificate stand, one for each entailment.
pub fn witness_layout(program: &[i32], witness: &[i32]) -> Option<Vec<WitnessLayout>> {
    let program = Program::parse(program).ok()?;
    witness::layout(&program, witness).ok()
}

/// The words that an answer is about, from its place on.
pub fn diagnosis<'a>(program: &'a [i32], witness: &'a [i32], answer: Answer) -> &'a [i32] {
    let (words, place) = match answer {
        Answer::Refused { number, place, .. } => match number {
            1..=3 => (program, place),
            4..=12 | 14 | 15 | 25 => (witness, place),
            _ => (witness, u64::MAX),
        },
        _ => (witness, u64::MAX),
    };
    let place = usize::try_from(place).map_or(words.len(), |place| place.min(words.len()));
    &words[place..]
}

/// The word as a number, if it lies in the range.
fn within(word: i32, range: RangeInclusive<usize>) -> Option<usize> {
    usize::try_from(word)
        .ok()
        .filter(|number| range.contains(number))
}

/// `length` words from `place` on, if all of them are there.
fn part(words: &[i32], place: i32, length: usize) -> Option<&[i32]> {
    let start = usize::try_from(place).ok()?;
    words.get(start..start.checked_add(length)?)
}
