//! Trees changed so that a leaf's sum doesn't fit any more, for what a split adds is another premise
//! there or stands at another place.

use super::Tree;
use crate::build::{self, Certificate, Goal, Row, Sharing, System, Witness};
use crate::checker::witness::least_constant;
use crate::checker::Answer;
use crate::generate::constants::LARGEST;
use crate::generate::Pair;
use crate::random::Random;

/// A changed certificate with the answer that it must get.
#[derive(Clone, Debug)]
pub struct Changed {
    pub case: &'static str,
    pub pair: Pair,
    pub answer: Answer,
}

/// All changes that there are for this tree.
pub fn changed(random: &mut Random, tree: &Tree, sharing: Sharing) -> Vec<Changed> {
    let systems = build::systems(&tree.program, &tree.certificate.edges).expect("accepted");
    let mut changes = Changes {
        random,
        tree,
        system: systems[tree.entailment].clone(),
        sharing,
        changed: Vec::new(),
    };
    changes.exchanged_sides();
    changes.both_on_one_side();
    changes.other_side();
    changes.dropped();
    changes.exchanged_multipliers();
    changes.tighter();
    changes.changed
}

/// A multiplier above 0 for what a split with coefficients adds.
#[derive(Clone, Debug)]
struct Use {
    /// The sides from the root to the leaf.
    way: Vec<usize>,
    /// How many splits are above this one.
    depth: usize,
    /// Which of the leaf's combinations.
    combination: usize,
}

struct Changes<'a> {
    random: &'a mut Random,
    tree: &'a Tree,
    system: System,
    sharing: Sharing,
    changed: Vec<Changed>,
}

impl Changes<'_> {
    fn witness(&self) -> &Witness {
        &self.tree.certificate.witnesses[self.tree.entailment]
    }

    /// Adds the certificate with this witness, refused with this number.
    fn push(&mut self, case: &'static str, witness: Witness, number: u64) {
        let mut certificate = self.tree.certificate.clone();
        certificate.witnesses[self.tree.entailment] = witness;
        self.push_certificate(case, certificate, number);
    }

    fn push_certificate(&mut self, case: &'static str, certificate: Certificate, number: u64) {
        let rest = certificate.witnesses[self.tree.entailment..].iter();
        let rest: usize = rest.map(Witness::length).sum();
        let pair = Pair {
            program: self.tree.program.words(self.sharing),
            witness: certificate.words(self.sharing),
        };
        let place = (pair.witness.len() - rest) as u64;
        self.changed.push(Changed {
            case,
            pair,
            answer: Answer::refused(number, place),
        });
    }

    fn any_use(&mut self) -> Option<Use> {
        let mut uses = Vec::new();
        let first = self.system.premise_count();
        add_uses(self.witness(), first, &mut Vec::new(), &mut uses);
        (!uses.is_empty()).then(|| self.random.pick(&uses).clone())
    }

    /// The two witnesses of a split, each where the other was.
    fn exchanged_sides(&mut self) {
        let Some(used) = self.any_use() else { return };
        let mut witness = self.witness().clone();
        if let Witness::Split { witnesses, .. } = below(&mut witness, &used.way[..used.depth]) {
            witnesses.swap(0, 1);
        }
        self.push("7 sides exchanged", witness, 7);
    }

    /// The same witness on both sides of a split, of which only one gives its sum.
    fn both_on_one_side(&mut self) {
        let Some(used) = self.any_use() else { return };
        let mut witness = self.witness().clone();
        if let Witness::Split { witnesses, .. } = below(&mut witness, &used.way[..used.depth]) {
            let side = used.way[used.depth];
            witnesses[1 - side] = witnesses[side].clone();
        }
        self.push("7 one witness on both sides", witness, 7);
    }

    /// The other side for the row, which may be beyond the limit by 1.
    fn other_side(&mut self) {
        let Some(used) = self.any_use() else { return };
        let mut witness = self.witness().clone();
        let mut number = 7;
        if let Witness::Split { row, .. } = below(&mut witness, &used.way[..used.depth]) {
            *row = row.other_side();
            if row.constant > LARGEST {
                number = 6;
            }
        }
        self.push("7 the other side for the row", witness, number);
    }

    fn dropped(&mut self) {
        let Some(used) = self.any_use() else { return };
        let first = self.system.premise_count();
        let mut witness = self.witness().clone();
        let leaf = below(&mut witness, &used.way);
        leaf.multipliers_mut()[used.combination][first + used.depth] = 0;
        self.push("7 the multiplier of a split dropped", witness, 7);
    }

    /// The multiplier of a split for another premise's, and that for it.
    fn exchanged_multipliers(&mut self) {
        let Some(used) = self.any_use() else { return };
        let at = self.system.premise_count() + used.depth;
        let mut witness = self.witness().clone();
        let rows = self.premises(&used.way);
        let leaf = below(&mut witness, &used.way);
        let multipliers = &mut *leaf.multipliers_mut().remove(used.combination);
        let others = (0..rows.len()).filter(|&other| {
            multipliers[other] != multipliers[at] && rows[other][1..] != rows[at][1..]
        });
        let others: Vec<usize> = others.collect();
        if others.is_empty() {
            return;
        }
        let other = *self.random.pick(&others);
        multipliers.swap(at, other);
        let case = match other < self.system.premise_count() {
            true => "7 multipliers of a split and a premise exchanged",
            false => "7 multipliers of two splits exchanged",
        };
        self.push(case, witness, 7);
    }

    /// All premises of the leaf at the end of this way.
    fn premises(&self, way: &[usize]) -> Vec<Vec<i64>> {
        let own = 0..self.system.premise_count();
        let mut rows: Vec<Vec<i64>> = own.map(|at| self.system.premise(at).to_vec()).collect();
        let mut witness = self.witness();
        for &side in way {
            if let Witness::Split { row, witnesses } = witness {
                rows.push(row.sides()[side].clone());
                witness = &witnesses[side];
            }
        }
        rows
    }

    /// A row of the goal claims one more than a leaf's sum gives it.
    fn tighter(&mut self) {
        if !self.tree.is_first {
            return;
        }
        let Some(used) = self.any_use() else { return };
        let rows = self.premises(&used.way);
        let leaf = below_ref(self.witness(), &used.way);
        let Witness::Disjunct {
            number,
            rows: combinations,
        } = leaf
        else {
            return;
        };
        let combination = &combinations[used.combination];
        let multipliers = combination.multipliers.iter();
        let sum: i64 = multipliers
            .zip(&rows)
            .map(|(multiplier, row)| i64::from(*multiplier) * row[0])
            .sum();
        let (disjunct, row) = (number - 1, used.combination);
        let claimed = self.system.goal_rows(disjunct)[row][0];
        let mut certificate = self.tree.certificate.clone();
        let disjuncts = match self.tree.goal {
            Goal::Path(vertex) => &mut certificate.edges.path[vertex - 1],
            Goal::Summary(procedure) => &mut certificate.edges.summaries[procedure],
        };
        let row: &mut Row = &mut disjuncts[disjunct][row];
        row.constant += 1;
        let fits = sum >= least_constant(combination.divisor.into(), claimed + 1);
        if !fits && row.constant <= LARGEST {
            self.push_certificate("7 one tighter than a split gives", certificate, 7);
        }
    }
}

/// The witness at the end of this way.
fn below<'w>(witness: &'w mut Witness, way: &[usize]) -> &'w mut Witness {
    way.iter().fold(witness, |witness, &side| match witness {
        Witness::Split { witnesses, .. } => &mut witnesses[side],
        leaf => leaf,
    })
}

fn below_ref<'w>(witness: &'w Witness, way: &[usize]) -> &'w Witness {
    way.iter().fold(witness, |witness, &side| match witness {
        Witness::Split { witnesses, .. } => &witnesses[side],
        leaf => leaf,
    })
}

/// Adds the uses in this witness; the first split's premise is counted from 0.
fn add_uses(witness: &Witness, first: usize, way: &mut Vec<(usize, bool)>, uses: &mut Vec<Use>) {
    let combinations: Vec<&[i32]> = match witness {
        Witness::Contradiction(multipliers) => vec![multipliers],
        Witness::Disjunct { rows, .. } => rows.iter().map(|row| &row.multipliers[..]).collect(),
        Witness::Split { row, witnesses } => {
            for (side, witness) in witnesses.iter().enumerate() {
                way.push((side, !row.is_constant()));
                add_uses(witness, first, way, uses);
                way.pop();
            }
            return;
        }
    };
    for (combination, multipliers) in combinations.into_iter().enumerate() {
        for (depth, &(_, has_coefficients)) in way.iter().enumerate() {
            if has_coefficients && multipliers[first + depth] > 0 {
                uses.push(Use {
                    way: way.iter().map(|&(side, _)| side).collect(),
                    depth,
                    combination,
                });
            }
        }
    }
}
