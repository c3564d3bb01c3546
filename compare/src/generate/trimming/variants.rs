//! More disjuncts for an accepted certificate, which stays accepted: copies of its own, with rows less
//! or more, and such as contradict themselves.

use super::used::{counts, steps, Name, Step};
use crate::build::{Certificate, Combination, Disjunct, Edges, Program, Row, Witness};
use crate::random::Random;
use std::collections::BTreeMap;

/// A disjunct of the new certificate.
#[derive(Clone, Debug)]
pub struct Variant {
    /// The disjunct of the same entry that it is made from, counted from 0; nothing if it contradicts
    /// itself by its two rows.
    pub origin: Option<usize>,
    /// 0, or another number for the copies that were made together.
    pub layer: usize,
    /// Rows of the origin that it doesn't have. No witness from there uses these.
    pub dropped: Vec<usize>,
    /// Rows that it has behind the others. No leaf names a disjunct with such rows.
    pub added: Vec<Row>,
}

impl Variant {
    pub fn copy(origin: usize, layer: usize) -> Variant {
        Variant {
            origin: Some(origin),
            layer,
            dropped: Vec::new(),
            added: Vec::new(),
        }
    }

    /// A row and its other side.
    pub fn absurd(row: Row, layer: usize) -> Variant {
        Variant {
            origin: None,
            layer,
            dropped: Vec::new(),
            added: vec![row.other_side(), row],
        }
    }

    fn rows(&self, entry: &[Disjunct]) -> Disjunct {
        let own = self.origin.map_or(&[][..], |origin| &entry[origin]);
        let own = own.iter().enumerate();
        let own = own.filter(|(at, _)| !self.dropped.contains(at));
        let rows = own.map(|(_, row)| row).chain(&self.added);
        rows.cloned().collect()
    }

    /// The multipliers for its rows, from those for the origin's.
    fn multipliers(&self, of_origin: &[i32]) -> Vec<i32> {
        let own = of_origin.iter().enumerate();
        let own = own.filter(|(at, _)| !self.dropped.contains(at));
        let mut own: Vec<i32> = own.map(|(_, multiplier)| *multiplier).collect();
        own.resize(own.len() + self.added.len(), 0);
        own
    }
}

/// Which of several disjuncts with one origin the leaves name.
#[derive(Clone, Copy, Debug)]
pub struct Naming {
    /// Whether those of layer 0, and those of another layer, name their own layer, if it has one
    /// there. Else they name any.
    pub first_apart: bool,
    pub others_apart: bool,
}

/// The certificate with these disjuncts, which have each of its own at least once in layer 0.
pub fn grown(
    random: &mut Random,
    program: &Program,
    certificate: &Certificate,
    variants: &[Vec<Variant>],
    naming: Naming,
) -> Certificate {
    let old: Vec<&Vec<Disjunct>> = certificate.edges.entries().collect();
    let rows = variants.iter().zip(&old).map(|(variants, old)| {
        let rows = variants.iter().map(|variant| variant.rows(old));
        rows.collect::<Vec<Disjunct>>()
    });
    let mut path: Vec<Vec<Disjunct>> = rows.collect();
    let summaries = path.split_off(certificate.edges.path.len());
    let edges = Edges { path, summaries };
    let old_steps = steps(program, &counts(&certificate.edges));
    let known = old_steps.into_iter().zip(&certificate.witnesses);
    let mut growth = Growth {
        random,
        old,
        known: known
            .map(|(step, witness)| ((step.sources, step.case), witness))
            .collect(),
        variants,
        naming,
    };
    let steps = steps(program, &counts(&edges));
    let witnesses = steps.iter().map(|step| growth.witness(step)).collect();
    Certificate { edges, witnesses }
}

struct Growth<'a> {
    random: &'a mut Random,
    old: Vec<&'a Vec<Disjunct>>,
    /// The old witnesses by the disjuncts and the case of their entailments.
    known: BTreeMap<(Vec<Name>, usize), &'a Witness>,
    variants: &'a [Vec<Variant>],
    naming: Naming,
}

impl Growth<'_> {
    fn variant(&self, (entry, at): Name) -> &Variant {
        &self.variants[entry][at]
    }

    fn witness(&mut self, step: &Step) -> Witness {
        let origins: Option<Vec<Name>> = step
            .sources
            .iter()
            .map(|&(entry, at)| Some((entry, self.variants[entry][at].origin?)))
            .collect();
        let Some(origins) = origins else {
            return self.contradiction(step);
        };
        let mut witness = self.known[&(origins, step.case)].clone();
        let layer = step
            .sources
            .first()
            .map_or(0, |own| self.variant(*own).layer);
        for leaf in witness.leaves_mut() {
            self.adapt(step, layer, leaf);
        }
        witness
    }

    /// By the two rows of a disjunct that contradicts itself.
    fn contradiction(&mut self, step: &Step) -> Witness {
        let factor = self.random.between(1, 1_000);
        let (mut multipliers, mut is_shown) = (Vec::new(), false);
        for (turn, &(entry, at)) in step.sources.iter().enumerate() {
            let variant = &self.variants[entry][at];
            let rows = variant.rows(self.old[entry]).len();
            let is_used = variant.origin.is_none() && !is_shown;
            is_shown |= is_used;
            multipliers.extend(vec![if is_used { factor } else { 0 }; rows]);
            if turn == 0 {
                multipliers.extend(vec![0; step.guards]);
            }
        }
        Witness::Contradiction(multipliers)
    }

    /// A leaf of the origin's witness for the new disjuncts.
    fn adapt(&mut self, step: &Step, layer: usize, leaf: &mut Witness) {
        match leaf {
            Witness::Contradiction(multipliers) => *multipliers = self.adapted(step, multipliers),
            Witness::Disjunct { number, rows } => {
                let target = step.target.expect("a disjunct is named");
                let chosen = self.choose(layer, target, *number - 1);
                let dropped = &self.variants[target][chosen].dropped;
                let kept = rows.iter().enumerate();
                let kept = kept.filter(|(at, _)| !dropped.contains(at));
                let kept = kept.map(|(_, row)| Combination {
                    divisor: row.divisor,
                    multipliers: self.adapted(step, &row.multipliers),
                });
                let kept: Vec<Combination> = kept.collect();
                (*number, *rows) = (chosen + 1, kept);
            }
            Witness::Split { .. } => unreachable!("a leaf"),
        }
    }

    /// A list of multipliers for the new premises.
    fn adapted(&self, step: &Step, list: &[i32]) -> Vec<i32> {
        let (mut rest, mut adapted) = (list, Vec::new());
        for (turn, &(entry, at)) in step.sources.iter().enumerate() {
            let variant = &self.variants[entry][at];
            let origin = variant.origin.expect("not absurd");
            let own = rest.split_off(..self.old[entry][origin].len());
            adapted.extend(variant.multipliers(own.expect("its multipliers are there")));
            if turn == 0 {
                let guards = rest.split_off(..step.guards);
                adapted.extend(guards.expect("its multipliers are there"));
            }
        }
        adapted.extend(rest);
        adapted
    }

    /// The disjunct, counted from 0, that is named for one of these with this origin.
    fn choose(&mut self, layer: usize, target: usize, origin: usize) -> usize {
        let variants = self.variants[target].iter().enumerate();
        let fitting = variants
            .filter(|(_, variant)| variant.origin == Some(origin) && variant.added.is_empty());
        let fitting: Vec<(usize, usize)> =
            fitting.map(|(at, variant)| (at, variant.layer)).collect();
        let apart = match layer {
            0 => self.naming.first_apart,
            _ => self.naming.others_apart,
        };
        let own = fitting.iter().filter(|(_, of)| *of == layer);
        let own: Vec<(usize, usize)> = own.copied().collect();
        match apart && !own.is_empty() {
            true => self.random.pick(&own).0,
            false => self.random.pick(&fitting).0,
        }
    }
}

/// For each disjunct of each entry its rows, counted from 0, that no witness from there uses.
pub fn unused_rows(program: &Program, certificate: &Certificate) -> Vec<Vec<Vec<usize>>> {
    let entries = certificate.edges.entries();
    let unused = entries.map(|entry| entry.iter().map(|rows| (0..rows.len()).collect()).collect());
    let mut unused: Vec<Vec<Vec<usize>>> = unused.collect();
    let lengths: Vec<Vec<usize>> = certificate
        .edges
        .entries()
        .map(|entry| entry.iter().map(Vec::len).collect())
        .collect();
    let steps = steps(program, &counts(&certificate.edges));
    for (step, witness) in steps.iter().zip(&certificate.witnesses) {
        for list in witness.clone().multipliers_mut() {
            let mut first = 0;
            for (turn, &(entry, at)) in step.sources.iter().enumerate() {
                unused[entry][at].retain(|row| list[first + row] == 0);
                first += lengths[entry][at] + if turn == 0 { step.guards } else { 0 };
            }
        }
    }
    unused
}
