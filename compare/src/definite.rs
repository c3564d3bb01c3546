//! The second implementation of a choice made definite (document 02, CR 13): a `?` branch gets a
//! condition, and the certificate a multiplier 0 for the new guard row in each list of multipliers of
//! that branch's entailments.

pub mod condition;
pub mod folder;

pub use crate::build::{Expression, Operator};

use crate::checker::certificate::LARGEST;
use crate::checker::linear::{linear_words, COEFFICIENTS, CONSTANT_LIMIT};
use crate::checker::program::{Action, Program};
use crate::checker::{judge, witness_layout, Answer, Part, WitnessLayout};
use crate::explain::names::sign;
use crate::generate::Pair;
use std::ops::Range;
use std::{fmt, iter};

/// What takes the place of a `?`: `expression operator 0`.
#[derive(Clone, Debug, PartialEq, Eq)]
pub struct Condition {
    pub operator: Operator,
    pub expression: Expression,
}

/// Operators of one guard row on each side.
pub const OPERATORS: [Operator; 4] = [
    Operator::Less,
    Operator::Greater,
    Operator::AtMost,
    Operator::AtLeast,
];

/// A program and a certificate in which the choice is definite.
#[derive(Clone, Debug)]
pub struct Definite {
    pub pair: Pair,
    /// How many multipliers were put in.
    pub zeros: usize,
}

/// Why a choice isn't made definite.
#[derive(Clone, Copy, Debug, PartialEq, Eq)]
pub enum Fault {
    /// The check answers this, and not safe.
    NotAccepted(Answer),
    NoChoice(usize),
    /// The branch, and the vertex that shares words of its row.
    SharedRow(usize, usize),
    Operator(Operator),
    /// How many coefficients there are, and how many there have to be.
    Coefficients(usize, usize),
    BeyondLimits,
    /// How many words the certificate would have.
    TooLong(usize),
}

/// Puts the condition in the place of the `?` at the vertex, and multipliers 0 into the certificate,
/// which may be dense or sparse.
pub fn definite(
    program: &[i32],
    certificate: &[i32],
    vertex: usize,
    condition: &Condition,
) -> Result<Definite, Fault> {
    let answer = judge(program, certificate);
    let not_accepted = Fault::NotAccepted(answer);
    let (Answer::Safe(_), Ok(parsed)) = (answer, Program::parse(program)) else {
        return Err(not_accepted);
    };
    let columns = choice_columns(&parsed, vertex).ok_or(Fault::NoChoice(vertex))?;
    if let Some(other) = sharing(&parsed, program, vertex) {
        return Err(Fault::SharedRow(vertex, other));
    }
    condition.test(columns)?;
    let lists = lists(program, certificate, vertex).ok_or(not_accepted)?;
    let places: Vec<usize> = lists.iter().map(|list| list.guard).collect();
    let length = certificate.len() + places.len();
    if length > LARGEST {
        return Err(Fault::TooLong(length));
    }
    Ok(Definite {
        pair: Pair {
            program: with_condition(program, vertex, condition),
            witness: with_zeros(certificate, &places),
        },
        zeros: places.len(),
    })
}

impl Condition {
    /// Whether its operator is one of the four, and its expression within the limits over so many
    /// columns.
    fn test(&self, columns: usize) -> Result<(), Fault> {
        let coefficients = &self.expression.coefficients;
        let in_range = |cell: &i32| COEFFICIENTS.contains(cell);
        if !OPERATORS.contains(&self.operator) {
            return Err(Fault::Operator(self.operator));
        }
        if coefficients.len() != columns {
            return Err(Fault::Coefficients(coefficients.len(), columns));
        }
        let constant = self.expression.constant;
        let is_constant = (-CONSTANT_LIMIT..=CONSTANT_LIMIT).contains(&constant);
        match is_constant && coefficients.iter().all(in_range) {
            true => Ok(()),
            false => Err(Fault::BeyondLimits),
        }
    }
}

/// How many globals there are, and k, at a vertex that is a branch on `?`.
pub fn variables(program: &[i32], vertex: usize) -> Option<(usize, usize)> {
    let program = Program::parse(program).ok()?;
    Some((program.globals, choice_columns(&program, vertex)?))
}

/// k at a vertex that is a branch on `?`.
fn choice_columns(program: &Program, vertex: usize) -> Option<usize> {
    match program.action(vertex)? {
        Action::Branch { guard, .. } if guard.operator == Operator::Any => {
            Some(program.columns(program.procedure_of(vertex)))
        }
        _ => None,
    }
}

// ---- the program's words

/// Place of the first kind word.
const KINDS: usize = 4;

/// Where in a branch's row its operator stands: behind the line and the two successors.
const OPERATOR: usize = 3;

/// The places of a vertex's row in the words of a program of so many vertices.
fn row(words: &[i32], vertices: usize, vertex: usize, length: usize) -> Range<usize> {
    let place = words[KINDS + vertices + vertex - 1] as usize;
    let start = KINDS + 2 * vertices + place;
    start..start + length
}

/// How many words the row of a statement or an exit has.
fn row_length(program: &Program, vertex: usize) -> usize {
    let expression = linear_words(program.columns(program.procedure_of(vertex)));
    match program.action(vertex) {
        None => 3,
        Some(Action::Skip { .. }) => 2,
        Some(Action::Assign { .. } | Action::Assert { .. }) => 3 + expression,
        Some(Action::Branch { .. }) => 4 + expression,
        Some(Action::Call { actuals, .. }) => 3 + actuals.len() * expression,
    }
}

/// The first other vertex whose row has a word of this vertex's row.
fn sharing(program: &Program, words: &[i32], vertex: usize) -> Option<usize> {
    let vertices = program.vertices();
    let row = |vertex| row(words, vertices, vertex, row_length(program, vertex));
    let own = row(vertex);
    (1..=vertices)
        .filter(|&other| other != vertex)
        .find(|&other| row(other).start < own.end && own.start < row(other).end)
}

/// The program's words with this condition at a branch, whatever was there.
pub fn with_condition(program: &[i32], vertex: usize, condition: &Condition) -> Vec<i32> {
    let mut words = program.to_vec();
    let vertices = (program[0] + program[1]) as usize;
    let start = row(program, vertices, vertex, 0).start + OPERATOR;
    let put_in = [condition.operator as i32].into_iter();
    for (place, word) in (start..).zip(put_in.chain(condition.expression.words())) {
        words[place] = word;
    }
    words
}

// ---- the certificate's words

/// A list of multipliers: those of a contradiction, or those for one row of a target's disjunct.
#[derive(Clone, Debug, PartialEq, Eq)]
pub struct List {
    /// The entailment, counted from 0, and whether it is of the true side.
    pub entailment: usize,
    pub is_true_side: bool,
    /// The first word of its leaf, how many splits are above that, and which list it is there, counted
    /// from 0.
    pub leaf: usize,
    pub depth: usize,
    pub number: usize,
    /// Its places.
    pub words: Range<usize>,
    /// Where the guard row's multiplier is to stand: right behind those of the disjunct's rows.
    pub guard: usize,
}

/// The lists of multipliers in the entailments of a `?` branch, in the order of their words. Each
/// disjunct has one entailment for the true side and then one for the false side.
pub fn lists(program: &[i32], certificate: &[i32], vertex: usize) -> Option<Vec<List>> {
    let layout = witness_layout(program, certificate)?;
    let entailments = layout.iter().enumerate();
    let of_branch = entailments.filter(|(_, witness)| witness.source == vertex);
    let mut lists = Vec::new();
    for (turn, (entailment, witness)) in of_branch.enumerate() {
        for leaf in witness.parts.iter().filter(|part| !part.is_split) {
            let words = leaf_lists(certificate, witness, leaf);
            lists.extend(words.into_iter().enumerate().map(|(number, words)| List {
                entailment,
                is_true_side: turn % 2 == 0,
                leaf: leaf.words.start,
                depth: leaf.depth,
                number,
                guard: words.start + witness.rows,
                words,
            }));
        }
    }
    Some(lists)
}

/// The places of a leaf's lists: one of a contradiction, and of a disjunct one behind each divisor.
fn leaf_lists(certificate: &[i32], witness: &WitnessLayout, leaf: &Part) -> Vec<Range<usize>> {
    let first = leaf.words.start + 1;
    let length = witness.premises + leaf.depth;
    match certificate[leaf.words.start] {
        0 => iter::once(first..leaf.words.end).collect(),
        _ => (first..leaf.words.end)
            .step_by(1 + length)
            .map(|divisor| divisor + 1..divisor + 1 + length)
            .collect(),
    }
}

/// Place of W.
const WITNESS_WORDS: usize = 2;

/// The certificate with a 0 put in before the word at each of these places, which don't fall, and W
/// raised by as many.
pub fn with_zeros(certificate: &[i32], places: &[usize]) -> Vec<i32> {
    let mut words = Vec::with_capacity(certificate.len() + places.len());
    let mut from = 0;
    for &place in places {
        words.extend(&certificate[from..place]);
        words.push(0);
        from = place;
    }
    words.extend(&certificate[from..]);
    words[WITNESS_WORDS] += places.len() as i32;
    words
}

impl fmt::Display for Fault {
    fn fmt(&self, out: &mut fmt::Formatter) -> fmt::Result {
        match self {
            Fault::NotAccepted(answer) => write!(
                out,
                "the plan comes with no certificate that is accepted; the answer is {answer}"
            ),
            Fault::NoChoice(vertex) => write!(out, "vertex {vertex} is no branch on ?"),
            Fault::SharedRow(vertex, other) => write!(
                out,
                "the rows of vertices {vertex} and {other} share words, so that the condition would \
                 change both"
            ),
            Fault::Operator(operator) => write!(
                out,
                "with {} the branch would have other cases, and the certificate doesn't fit these; \
                 it fits with <, >, ≤ and ≥",
                sign(*operator)
            ),
            Fault::Coefficients(given, wanted) => {
                write!(out, "the condition has {given} coefficients for {wanted} columns")
            }
            Fault::BeyondLimits => write!(
                out,
                "the condition is beyond the limits, ±1,000 for coefficients and ±4,000,000,000 for \
                 the constant"
            ),
            Fault::TooLong(words) => write!(
                out,
                "the certificate would have {words} words, and may have {LARGEST}"
            ),
        }
    }
}
