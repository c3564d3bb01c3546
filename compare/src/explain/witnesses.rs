//! The entailment at which a certificate's witnesses are refused, and words that are left: 6 to 8.

use super::entailments::{origins, target_text, Origin};
use super::names::{count, inequality};
use super::{witness_range, witness_sums, Plan};
use crate::checker::certificate::{Certificate, Disjunct, Target};
use crate::checker::entailment::{entailments, Entailment};
use crate::checker::program::{Program, ERROR};
use crate::checker::witness::Witness;
use crate::checker::witness_layout;
use crate::files::WITNESS;
use std::fmt::Write;
use std::ops::Range;

/// An entailment whose witness is refused.
pub struct Refused<'a> {
    pub program: &'a Program,
    pub origin: Origin,
    pub entailment: &'a Entailment<'a>,
    /// The disjuncts of what it leads to.
    pub targets: &'a [Disjunct<'a>],
    /// All words of `plan.wit`.
    pub words: &'a [i32],
    /// Where the witness stands; for 6 its end is only how far it was read.
    pub witness: Range<usize>,
}

/// A side of a split, which is a premise of the witness under it.
#[derive(Clone, Debug)]
pub struct Side {
    /// Of the split's first word.
    pub place: usize,
    pub is_second: bool,
    pub row: Vec<i64>,
}

impl Side {
    /// Where a witness under it is, for a sentence.
    pub fn text(&self) -> String {
        format!("on {}", self.name())
    }

    fn name(&self) -> String {
        let side = if self.is_second { "second" } else { "first" };
        format!("the {side} side of the split at word {}", self.place)
    }
}

/// Refusals 6 and 7, of the entailment whose witness begins at the place.
pub fn entailment(program: &Program, words: &[i32], place: usize) -> Option<String> {
    let certificate = Certificate::parse(program, words).ok()?;
    let origins = origins(program, &certificate);
    let mut rest = certificate.witness_words;
    for (at, entailment) in entailments(program, &certificate).enumerate() {
        let targets = certificate.edges(entailment.target);
        let start = words.len() - rest.len();
        let witness = Witness::read(&mut rest, &entailment, targets);
        if start < place {
            continue;
        }
        let origin = origins.get(at)?;
        let refused = Refused {
            program,
            origin: (origin.vertex == entailment.source).then_some(*origin)?,
            entailment: &entailment,
            targets,
            words,
            witness: start..words.len() - rest.len(),
        };
        let failed = match witness {
            None => witness_range::explain(&refused),
            Some(witness) => witness_sums::explain(&refused, &witness),
        };
        return Some(refused.heading(at + 1, origins.len()) + &failed? + HINT);
    }
    None
}

const HINT: &str =
    "If these words look like those of another entailment, an earlier witness may be a word too long \
     or too short.\n";

/// Refusal 8, with the place of the first word that is left.
pub fn left_over(program: &Program, words: &[i32], place: usize) -> Option<String> {
    let certificate = Certificate::parse(program, words).ok()?;
    let entailments = count(entailments(program, &certificate).count(), "entailment");
    let all = count(certificate.witness_words.len(), "witness word");
    let left = count(words.len() - place, "word");
    let first = words.get(place)?;
    Some(format!(
        "The certificate has {entailments} to show, and the last of their witnesses ends before word \
         {place} of {WITNESS}, which is {first}. W, word 2, says that there are {all}: {left} too \
         many.\n\
         The certificate may be one for another version of the plan, or an earlier witness may be a \
         word too short.\n"
    ))
}

/// How many entailments are shown by cases; nothing if none is.
pub fn splits(plan: &Plan) -> String {
    let layout = witness_layout(&plan.program, &plan.witness).unwrap_or_default();
    let trees: Vec<_> = layout.iter().filter(|tree| tree.has_splits()).collect();
    let parts = trees.iter().flat_map(|tree| &tree.parts);
    let splits = parts.filter(|part| part.is_split).count();
    match trees.len() {
        0 => String::new(),
        1 => format!(
            "One of them is shown by cases, with {}.\n",
            count(splits, "split")
        ),
        several => format!("{several} of them are shown by cases, with {splits} splits in all.\n"),
    }
}

impl Refused<'_> {
    pub fn target(&self) -> String {
        target_text(self.entailment.target)
    }

    /// The premises that splits add, numbered on from the entailment's; nothing without splits.
    pub fn added(&self, sides: &[Side]) -> String {
        if sides.is_empty() {
            return String::new();
        }
        let names = self.origin.columns(self.program);
        let mut text = String::from("The splits above the leaf add premises:\n");
        for (number, side) in (self.entailment.premise_count() + 1..).zip(sides) {
            let (row, name) = (inequality(&side.row, &names), side.name());
            let _ = writeln!(text, "{number:>6}  {row}, {name}");
        }
        text
    }

    /// Which entailment it is, and its premises.
    fn heading(&self, number: usize, all: usize) -> String {
        let (origin, target) = (self.origin.text(self.program), self.target());
        let aim = match (self.entailment.target, self.targets) {
            (Target::Path(ERROR), _) => "a failed assertion; it must be impossible".into(),
            (_, []) => "which has no disjuncts; it must be impossible".into(),
            (_, several) => format!("which has {}", count(several.len(), "disjunct")),
        };
        let mut text = format!("It is entailment {number} of {all}: {origin}.\n");
        let _ = writeln!(text, "It leads to {target}, {aim}.");
        text += &self.origin.legend(self.program);
        let premises = self.origin.premises(self.program, self.entailment);
        text += match premises[..] {
            [] => "There are no premises.\n",
            _ => "The premises:\n",
        };
        for (at, line) in premises.iter().enumerate() {
            let _ = writeln!(text, "{:>6}  {line}", at + 1);
        }
        text
    }
}
