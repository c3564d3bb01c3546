//! The second implementation of trimming (document 02, CR 11): a certificate cut down to the disjuncts
//! that are used, in dense form.
//!
//! Kept is the least set with the start's targets and with each target of an entailment whose disjunct,
//! and at a return whose summary disjunct, is kept. The targets of an entailment are the disjuncts that
//! the leaves of its witness name.

use crate::checker::certificate::{Certificate, Disjunct, Target};
use crate::checker::entailment::{cases, entailments};
use crate::checker::program::{Action, Operator, Program};
use crate::checker::row::Form;
use crate::checker::{witness, Refusal, WitnessLayout};
use crate::convert::{laid_out, write, Writing};
use std::collections::{BTreeMap, BTreeSet};
use std::iter;
use std::ops::Range;

/// An entry, vertices and then summaries, and one of its disjuncts, both counted from 0.
type Name = (usize, usize);

/// A trimmer: from the words of a program and of a certificate, with a result buffer.
pub type Trimmer = fn(&[i32], &[i32], &mut [i32]) -> Writing;

/// Writes what is used of a certificate, which may be dense or sparse, to the front of the result
/// buffer.
pub fn trim(program: &[i32], certificate: &[i32], result: &mut [i32]) -> Writing {
    Program::parse(program)
        .and_then(|program| trimmed(&program, certificate))
        .and_then(|words| write(&words, result))
        .map_or_else(Writing::from, Writing::Written)
}

/// The words of the trimmed certificate, which may be too many, or the first test that fails.
fn trimmed(program: &Program, words: &[i32]) -> Result<Vec<i32>, Refusal> {
    witness::judge(program, words)?;
    let certificate = Certificate::parse(program, words)?;
    let layout = witness::layout(program, words)?;
    let shown = shown(program, &certificate, &layout);
    let kept = kept(&shown, words);
    let entries = certificate.entries().enumerate();
    let entries = entries.map(|(entry, disjuncts)| kept_of(entry, disjuncts, &kept));
    let witness_words = witness_words(&shown, words, &kept);
    Ok(laid_out(entries, Form::Dense, &witness_words))
}

/// The disjuncts of an entry that are kept.
fn kept_of<'a, 'b>(
    entry: usize,
    disjuncts: &'b [Disjunct<'a>],
    kept: &'b BTreeSet<Name>,
) -> impl Iterator<Item = &'b Disjunct<'a>> {
    let disjuncts = disjuncts.iter().enumerate();
    let kept = disjuncts.filter(move |(at, _)| kept.contains(&(entry, *at)));
    kept.map(|(_, disjunct)| disjunct)
}

/// An entailment and its witness.
struct Shown {
    /// The disjuncts whose rows are its premises: none at the start, at a return two.
    sources: Vec<Name>,
    /// The entry that it leads to. Vertex 0 is none, but no leaf names a disjunct there.
    target: Option<usize>,
    /// The places of the witness's words, and those of the first words of its leaves.
    words: Range<usize>,
    leaves: Vec<usize>,
}

impl Shown {
    /// The places of the leaves that name a disjunct, and the disjuncts. A contradiction names none.
    fn targets<'a>(&'a self, words: &'a [i32]) -> impl Iterator<Item = (usize, Name)> + 'a {
        self.leaves.iter().filter_map(move |&place| {
            let disjunct = usize::try_from(words[place]).ok()?.checked_sub(1)?;
            Some((place, (self.target?, disjunct)))
        })
    }

    fn is_kept(&self, kept: &BTreeSet<Name>) -> bool {
        self.sources.iter().all(|source| kept.contains(source))
    }
}

/// All entailments, in order.
fn shown(program: &Program, certificate: &Certificate, layout: &[WitnessLayout]) -> Vec<Shown> {
    let sources = sources(program, certificate);
    let targets = entailments(program, certificate).map(|entailment| entailment.target);
    let targets: Vec<Target> = targets.collect();
    assert_eq!([sources.len(), targets.len()], [layout.len(); 2]);
    let parts = sources.into_iter().zip(targets).zip(layout);
    let shown = parts.map(|((sources, target), witness)| {
        let leaves = witness.parts.iter().filter(|part| !part.is_split);
        Shown {
            sources,
            target: match target {
                Target::Path(vertex) => vertex.checked_sub(1),
                Target::Summary(procedure) => Some(program.vertices() + procedure),
            },
            words: witness.words(),
            leaves: leaves.map(|leaf| leaf.words.start).collect(),
        }
    });
    shown.collect()
}

/// The disjuncts that each entailment has premises of.
fn sources(program: &Program, certificate: &Certificate) -> Vec<Vec<Name>> {
    let start = Vec::new();
    let mut sources = vec![start];
    for vertex in 1..=program.vertices() {
        for disjunct in 0..certificate.edges(Target::Path(vertex)).len() {
            let own = (vertex - 1, disjunct);
            match program.action(vertex) {
                Some(Action::Branch { guard, .. } | Action::Assert { guard, .. }) => {
                    sources.extend(iter::repeat_n(vec![own], case_count(guard.operator)));
                }
                Some(&Action::Call { procedure, .. }) => {
                    let entry = program.vertices() + procedure;
                    let summaries = certificate.edges(Target::Summary(procedure)).len();
                    sources.push(vec![own]);
                    sources.extend((0..summaries).map(|summary| vec![own, (entry, summary)]));
                }
                Some(Action::Skip { .. } | Action::Assign { .. }) | None => sources.push(vec![own]),
            }
        }
    }
    sources
}

/// How many cases both sides of a condition have.
fn case_count(operator: Operator) -> usize {
    let sides = [operator, operator.opposite()];
    sides.iter().map(|side| cases(*side).len()).sum()
}

/// The least set. An entailment is looked at when the last of its sources has been found.
fn kept(shown: &[Shown], words: &[i32]) -> BTreeSet<Name> {
    let mut uses: BTreeMap<Name, Vec<usize>> = BTreeMap::new();
    for (at, entailment) in shown.iter().enumerate() {
        for source in &entailment.sources {
            uses.entry(*source).or_default().push(at);
        }
    }
    let sources = shown.iter().map(|entailment| entailment.sources.len());
    let mut missing: Vec<usize> = sources.collect();
    let mut found: Vec<usize> = (0..shown.len()).filter(|at| missing[*at] == 0).collect();
    let mut kept = BTreeSet::new();
    while let Some(entailment) = found.pop() {
        for (_, target) in shown[entailment].targets(words) {
            if !kept.insert(target) {
                continue;
            }
            for &at in uses.get(&target).into_iter().flatten() {
                missing[at] -= 1;
                if missing[at] == 0 {
                    found.push(at);
                }
            }
        }
    }
    kept
}

/// The numbers that kept disjuncts get, counted from 1.
fn numbers(kept: &BTreeSet<Name>) -> BTreeMap<Name, i32> {
    let mut counts: BTreeMap<usize, i32> = BTreeMap::new();
    let numbered = kept.iter().map(|&(entry, disjunct)| {
        let count = counts.entry(entry).or_default();
        *count += 1;
        ((entry, disjunct), *count)
    });
    numbered.collect()
}

/// The witnesses of the kept entailments, leaves with the new numbers.
fn witness_words(shown: &[Shown], words: &[i32], kept: &BTreeSet<Name>) -> Vec<i32> {
    let numbers = numbers(kept);
    let mut result = Vec::new();
    for entailment in shown.iter().filter(|entailment| entailment.is_kept(kept)) {
        let first = result.len();
        result.extend(&words[entailment.words.clone()]);
        for (place, target) in entailment.targets(words) {
            result[first + place - entailment.words.start] = numbers[&target];
        }
    }
    result
}
