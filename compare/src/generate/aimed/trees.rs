//! Damage aimed at trees: 6 by a word of a split or by one split too many, 7 by a leaf, and 6 before
//! 7 wherever in a tree the two are.

use super::{refused, Aim, Aimed, Spot};
use crate::build::spelling;
use crate::checker::linear::CONSTANT_WORDS;
use crate::checker::witness::{SPLIT, SPLITS};
use crate::checker::{witness_layout, Answer, WitnessLayout};
use crate::generate::constants::{BEYOND, LARGEST};
use crate::generate::Pair;
use crate::random::Random;
use std::ops::Range;

/// An accepted pair with trees damaged at its entailments: for 6, 7 and 8.
pub fn trees(random: &mut Random, pair: &Pair) -> Vec<Aimed> {
    let mut aim = Aim {
        random,
        pair,
        aimed: Vec::new(),
    };
    for spot in Spot::ALL {
        aim.entailment(spot);
    }
    aim.left_words();
    let layout = witness_layout(&pair.program, &pair.witness).expect("the pair is accepted");
    let trees = Tree::all(&layout);
    for spot in Spot::ALL {
        if trees.is_empty() {
            break;
        }
        let tree = aim.random.pick(&trees);
        aim.no_split(spot, tree);
        aim.split_row(spot, tree);
        aim.one_split_too_many(spot, tree);
        aim.as_many_splits_as_may_be(spot, tree, layout.len());
        aim.missing_words(spot, tree);
        aim.leaf(spot, tree);
        aim.six_and_seven(spot, tree);
    }
    aim.left_after_a_tree(&layout[layout.len() - 1]);
    aim.aimed
}

/// Where the parts of a tree are.
pub(super) struct Tree<'a> {
    layout: &'a WitnessLayout,
    /// Its first word.
    pub place: usize,
    /// Numbers of its parts, counted from 0.
    pub splits: Vec<usize>,
    leaves: Vec<usize>,
}

impl<'a> Tree<'a> {
    /// Those of the witnesses that have splits.
    pub fn all(layout: &[WitnessLayout]) -> Vec<Tree<'_>> {
        let trees = layout.iter().filter(|tree| tree.has_splits());
        trees.map(Tree::new).collect()
    }

    fn new(layout: &'a WitnessLayout) -> Tree<'a> {
        let parts = 0..layout.parts.len();
        let (splits, leaves) = parts.partition(|&at| layout.parts[at].is_split);
        Tree {
            layout,
            place: layout.words().start,
            splits,
            leaves,
        }
    }

    pub fn words(&self, part: usize) -> Range<usize> {
        self.layout.parts[part].words.clone()
    }

    /// The parts of the two witnesses of a split.
    fn sides(&self, split: usize) -> [Range<usize>; 2] {
        let parts = &self.layout.parts;
        let depth = parts[split].depth;
        let next = |from: usize, depth: usize| {
            let behind = parts[from..].iter().position(|part| part.depth <= depth);
            behind.map_or(parts.len(), |count| from + count)
        };
        let second = next(split + 2, depth + 1);
        [split + 1..second, second..next(second + 1, depth)]
    }

    /// The words of these parts.
    fn all_words(&self, parts: &Range<usize>) -> Range<usize> {
        self.words(parts.start).start..self.words(parts.end - 1).end
    }
}

impl Aim<'_> {
    /// One of the tree's splits or leaves.
    pub(super) fn part(&mut self, spot: Spot, parts: &[usize]) -> Option<usize> {
        let number = spot.number(self.random, parts.len())?;
        Some(parts[number - 1])
    }

    /// Other words at these places, and W to match.
    fn with_words(&self, places: Range<usize>, words: Vec<i32>) -> Vec<i32> {
        let mut witness = self.pair.witness.clone();
        witness[2] += words.len() as i32 - places.len() as i32;
        witness.splice(places, words);
        witness
    }

    /// A first word that is neither a split's nor a leaf's.
    fn no_split(&mut self, spot: Spot, tree: &Tree) {
        let Some(split) = self.part(spot, &tree.splits) else {
            return;
        };
        let mut witness = self.pair.witness.clone();
        let word = *self.random.pick(&[-2, -2, 9, i32::MIN, i32::MAX]);
        witness[tree.words(split).start] = word;
        self.push_case("6 no split", witness, spot, refused(6, tree.place));
    }

    /// A constant or a coefficient beyond its limit.
    fn split_row(&mut self, spot: Spot, tree: &Tree) {
        let Some(split) = self.part(spot, &tree.splits) else {
            return;
        };
        let witness = self.with_wrong_row(tree, split);
        let answer = refused(6, tree.place);
        self.push_case("6 a split row beyond a limit", witness, spot, answer);
    }

    fn with_wrong_row(&mut self, tree: &Tree, split: usize) -> Vec<i32> {
        let constant = tree.words(split).start + 1;
        let columns = tree.layout.columns;
        let mut witness = self.pair.witness.clone();
        match self.random.below(columns + 1) {
            0 => {
                let wrong = self.random.pick(&BEYOND);
                witness[constant..constant + CONSTANT_WORDS].copy_from_slice(wrong);
            }
            column => {
                let wrong = [1_001, -1_001, i32::MIN, i32::MAX];
                witness[constant + CONSTANT_WORDS + column - 1] = *self.random.pick(&wrong);
            }
        }
        witness
    }

    /// A leaf under so many splits more, each with the leaf again on its other side.
    fn under_splits(&mut self, tree: &Tree, leaf: usize, more: usize) -> Vec<i32> {
        let mut words = self.pair.witness[tree.words(leaf)].to_vec();
        let premises = tree.layout.premises + tree.layout.parts[leaf].depth;
        let mut leaves = vec![words.clone()];
        for added in 0..more {
            words = deeper(&words, premises + added);
            leaves.push(words.clone());
        }
        let mut below = leaves[more].clone();
        for depth in (1..=more).rev() {
            let [high, low] = spelling(*self.random.pick(&[0, LARGEST, -LARGEST]));
            let mut row = vec![SPLIT, high, low];
            for _ in 0..tree.layout.columns {
                row.push(*self.random.pick(&[0, 0, 1_000, -1_000]));
            }
            below = match self.random.chance(50) {
                true => [row, below, leaves[depth].clone()].concat(),
                false => [row, leaves[depth].clone(), below].concat(),
            };
        }
        self.with_words(tree.words(leaf), below)
    }

    fn one_split_too_many(&mut self, spot: Spot, tree: &Tree) {
        let Some(leaf) = self.part(spot, &tree.leaves) else {
            return;
        };
        let more = SPLITS + 1 - tree.layout.parts[leaf].depth;
        let witness = self.under_splits(tree, leaf, more);
        let answer = refused(6, tree.place);
        self.push_case("6 a ninth split", witness, spot, answer);
    }

    /// Eight splits, which are accepted.
    fn as_many_splits_as_may_be(&mut self, spot: Spot, tree: &Tree, count: usize) {
        let Some(leaf) = self.part(spot, &tree.leaves) else {
            return;
        };
        let more = SPLITS - tree.layout.parts[leaf].depth;
        if more > 0 {
            let witness = self.under_splits(tree, leaf, more);
            let answer = Answer::Safe(count as u64);
            self.push_case("an eighth split", witness, spot, answer);
        }
    }

    /// The words end inside a split's row, its first witness or its second.
    fn missing_words(&mut self, spot: Spot, tree: &Tree) {
        let Some(split) = self.part(spot, &tree.splits) else {
            return;
        };
        let row = tree.words(split);
        let [first, second] = tree.sides(split).map(|side| tree.all_words(&side));
        for (case, places) in [
            ("6 missing in a split row", row.start + 1..row.end),
            ("6 missing in a first witness", first),
            ("6 missing in a second witness", second),
        ] {
            let mut witness = self.pair.witness.clone();
            witness.truncate(places.start + self.random.below(places.len()));
            witness[2] -= (self.pair.witness.len() - witness.len()) as i32;
            self.push_case(case, witness, spot, refused(6, tree.place));
        }
    }

    /// A contradiction of nothing for a leaf, or a disjunct's.
    fn empty(&self, tree: &Tree, leaf: usize) -> Vec<i32> {
        let premises = tree.layout.premises + tree.layout.parts[leaf].depth;
        vec![0; 1 + premises]
    }

    fn leaf(&mut self, spot: Spot, tree: &Tree) {
        let Some(leaf) = self.part(spot, &tree.leaves) else {
            return;
        };
        let words = self.empty(tree, leaf);
        let witness = self.with_words(tree.words(leaf), words);
        self.push_case("7 a leaf", witness, spot, refused(7, tree.place));
    }

    /// A leaf that doesn't fit on one side of a split, and a word beyond its range on the other.
    fn six_and_seven(&mut self, spot: Spot, tree: &Tree) {
        let Some(split) = self.part(spot, &tree.splits) else {
            return;
        };
        let sides = tree.sides(split);
        let cases = [
            "6 in the second witness, 7 in the first",
            "6 in the first witness, 7 in the second",
        ];
        for (case, [misfit, beyond]) in cases.into_iter().zip([[0, 1], [1, 0]]) {
            let inside = |leaf: &&usize| sides[misfit].contains(leaf);
            let leaves: Vec<usize> = tree.leaves.iter().filter(inside).copied().collect();
            let leaf = *self.random.pick(&leaves);
            let other = sides[beyond].start + self.random.below(sides[beyond].len());
            let mut witness = match tree.layout.parts[other].is_split {
                true => self.with_wrong_row(tree, other),
                false => {
                    let mut witness = self.pair.witness.clone();
                    witness[tree.words(other).start] = *self.random.pick(&[-2, 9]);
                    witness
                }
            };
            let (places, words) = (tree.words(leaf), self.empty(tree, leaf));
            witness[2] += words.len() as i32 - places.len() as i32;
            witness.splice(places, words);
            self.push_case(case, witness, spot, refused(6, tree.place));
        }
    }

    fn left_after_a_tree(&mut self, last: &WitnessLayout) {
        if last.has_splits() {
            let word = *self.random.pick(&[0, 1, SPLIT]);
            let end = self.pair.witness.len();
            let witness = self.with_words(end..end, vec![word]);
            self.push_case("8 after a tree", witness, Spot::Last, refused(8, end));
        }
    }
}

/// A leaf's words with a multiplier 0 more, the last, in each combination.
fn deeper(leaf: &[i32], premises: usize) -> Vec<i32> {
    let length = match leaf[0] {
        0 => premises,
        _ => 1 + premises,
    };
    let mut words = vec![leaf[0]];
    match length {
        // A contradiction without premises.
        0 => words.push(0),
        _ => {
            for combination in leaf[1..].chunks(length) {
                words.extend(combination);
                words.push(0);
            }
        }
    }
    words
}
