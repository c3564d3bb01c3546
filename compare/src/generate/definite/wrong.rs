//! Wrong ways to put multipliers into a certificate, and where each has them.

use crate::definite::List;
use crate::generate::aimed::Spot;

/// What is wrong with where the multipliers were put in.
#[derive(Clone, Copy, Debug, PartialEq, Eq, PartialOrd, Ord)]
pub enum Wrong {
    /// Behind the multipliers of the split rows.
    BehindSplits,
    /// In all leaves that have lists but one.
    LeafLeftOut(Spot),
    /// In each leaf in its first list alone.
    FirstListAlone,
    /// On the true side alone.
    TrueSideAlone,
}

impl Wrong {
    pub const ALL: [Wrong; 6] = [
        Wrong::BehindSplits,
        Wrong::LeafLeftOut(Spot::First),
        Wrong::LeafLeftOut(Spot::Middle),
        Wrong::LeafLeftOut(Spot::Last),
        Wrong::FirstListAlone,
        Wrong::TrueSideAlone,
    ];

    /// Where multipliers are put in, and the first entailment, counted from 0, that is wrong by that;
    /// nothing if none is.
    pub fn places(self, certificate: &[i32], lists: &[List]) -> Option<(Vec<usize>, usize)> {
        let leaf = self.leaf_left_out(lists);
        let place = |list: &List| match self {
            Wrong::BehindSplits => Some(list.words.end),
            Wrong::LeafLeftOut(_) => Some(list.guard).filter(|_| leaf != Some(list.leaf)),
            Wrong::FirstListAlone => Some(list.guard).filter(|_| list.number == 0),
            Wrong::TrueSideAlone => Some(list.guard).filter(|_| list.is_true_side),
        };
        // A 0 more among those behind the guard row's multiplier would be the same words.
        let is_right = |list: &List| match place(list) {
            None => false,
            Some(place) => certificate[list.guard..place].iter().all(|word| *word == 0),
        };
        let first = lists.iter().find(|list| !is_right(list))?;
        Some((lists.iter().filter_map(place).collect(), first.entailment))
    }

    /// The first word of the leaf that is left out.
    fn leaf_left_out(self, lists: &[List]) -> Option<usize> {
        let Wrong::LeafLeftOut(spot) = self else {
            return None;
        };
        let mut leaves: Vec<usize> = lists.iter().map(|list| list.leaf).collect();
        leaves.dedup();
        match spot {
            Spot::First => leaves.first().copied(),
            Spot::Middle if leaves.len() < 3 => None,
            Spot::Middle => leaves.get(leaves.len() / 2).copied(),
            Spot::Last => leaves.last().copied(),
        }
    }
}
