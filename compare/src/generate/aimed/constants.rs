//! Damage aimed at the two words of a constant: a 3 by one of an expression, a 5 by one of a row and a
//! 6 by one of a split row.

use super::trees::Tree;
use super::{refused, refused_at, Aim, Aimed, Spot};
use crate::checker::linear::CONSTANT_WORDS;
use crate::checker::witness_layout;
use crate::generate::program_words::ProgramWords;
use crate::generate::Pair;
use crate::random::Random;

/// An accepted pair damaged at its constants: for 3 and 5, and for 6 if it has trees.
pub fn constants(random: &mut Random, pair: &Pair) -> Vec<Aimed> {
    let mut aim = Aim {
        random,
        pair,
        aimed: Vec::new(),
    };
    let layout = witness_layout(&pair.program, &pair.witness).expect("the pair is accepted");
    let trees = Tree::all(&layout);
    for spot in Spot::ALL {
        aim.expression_constants(spot);
        aim.any_with_a_constant(spot);
        aim.row_constants(spot);
        if !trees.is_empty() {
            let tree = aim.random.pick(&trees);
            aim.split_constants(spot, tree);
        }
    }
    aim.aimed
}

/// The names of the damage of `wrong_words`, by place.
const IN_EXPRESSIONS: [&str; 4] = [
    "3 a low word out of its range",
    "3 a constant one beyond a limit",
    "3 a high word beyond the limit",
    "3 another spelling of a constant",
];
const IN_ROWS: [&str; 4] = [
    "5 a low word out of its range",
    "5 a constant one beyond a limit",
    "5 a high word beyond the limit",
    "5 another spelling of a constant",
];
const IN_SPLIT_ROWS: [&str; 4] = [
    "6 a low word out of its range",
    "6 a constant one beyond a limit",
    "6 a high word beyond the limit",
    "6 another spelling of a constant",
];

/// Words for a constant that are none.
fn wrong_words(random: &mut Random, constant: &[i32]) -> [[i32; 2]; 4] {
    let (high, low) = (constant[0], constant[1]);
    let outside = [1_000_000, -1, i32::MIN, i32::MAX];
    let beyond = [4_001, -4_002, i32::MIN, i32::MAX];
    [
        [high, *random.pick(&outside)],
        *random.pick(&[[4_000, 1], [-4_001, 999_999]]),
        [*random.pick(&beyond), low],
        *random.pick(&[[high + 1, low - 1_000_000], [high - 1, low + 1_000_000]]),
    ]
}

/// The words with the constant at a place replaced.
fn with_constant(words: &[i32], at: usize, constant: [i32; 2]) -> Vec<i32> {
    let mut words = words.to_vec();
    words[at..at + CONSTANT_WORDS].copy_from_slice(&constant);
    words
}

impl Aim<'_> {
    /// Number 3, by a row of its own at the end of the pool.
    fn expression_constants(&mut self, spot: Spot) {
        let given = ProgramWords(&self.pair.program);
        let vertices = 1..=given.statements();
        let vertices: Vec<usize> = vertices
            .filter(|&vertex| !given.expressions(vertex).is_empty())
            .collect();
        let Some(number) = spot.number(self.random, vertices.len()) else {
            return;
        };
        let vertex = vertices[number - 1];
        let at = *self.random.pick(&given.expressions(vertex));
        let row = given.statement_row(vertex);
        let answer = refused_at(3, ProgramWords::kind(vertex), row[0]);
        let wrong = wrong_words(self.random, &row[at..]);
        for (case, constant) in IN_EXPRESSIONS.into_iter().zip(wrong) {
            let row = with_constant(&row, at, constant);
            self.push_program_case(case, given.with_row(vertex, &row), spot, answer);
        }
        let cut = given.with_row(vertex, &row[..=at]);
        self.push_program_case("3 a row cut off before a low word", cut, spot, answer);
    }

    /// A `?` beside one word of a constant that isn't 0.
    fn any_with_a_constant(&mut self, spot: Spot) {
        let given = ProgramWords(&self.pair.program);
        let Some(vertex) = spot.number(self.random, given.statements()) else {
            return;
        };
        let procedure = given.procedure_of(vertex);
        let exit = (given.statements() + procedure) as i32;
        let line = given.line(vertex as i32);
        let answer = refused_at(3, ProgramWords::kind(vertex), line);
        for (case, constant) in [
            ("3 a ? with a high word", [1, 0]),
            ("3 a ? with a low word", [0, 1]),
        ] {
            let mut row = vec![line, exit, exit, 0];
            row.extend(constant);
            row.resize(row.len() + given.columns(procedure), 0);
            let mut program = given.with_row(vertex, &row);
            program[ProgramWords::kind(vertex)] = 3;
            self.push_program_case(case, program, spot, answer);
        }
    }

    /// Number 5, by the entry's own rows at the end of the row words.
    fn row_constants(&mut self, spot: Spot) {
        let entries = self.entries_with_rows();
        let Some(number) = spot.number(self.random, entries.len()) else {
            return;
        };
        let entry = entries[number - 1];
        let disjuncts = self.own_rows(entry);
        let filled: Vec<usize> = (0..disjuncts.len())
            .filter(|&at| !disjuncts[at].is_empty())
            .collect();
        let disjunct = *self.random.pick(&filled);
        let at = self.random.below(disjuncts[disjunct].len());
        let answer = refused(5, 2 + entry);
        let wrong = wrong_words(self.random, &disjuncts[disjunct][at]);
        for (case, constant) in IN_ROWS.into_iter().zip(wrong) {
            let mut disjuncts = disjuncts.clone();
            disjuncts[disjunct][at] = with_constant(&disjuncts[disjunct][at], 0, constant);
            let witness = self.with_disjuncts(&[entry], &disjuncts);
            self.push_case(case, witness, spot, answer);
        }
        // Up to the high word of the last of all rows.
        let mut cut = disjuncts[..=disjunct].to_vec();
        if let Some(row) = cut[disjunct].last_mut() {
            row.truncate(1);
        }
        let witness = self.with_disjuncts(&[entry], &cut);
        self.push_case("5 a row cut off before a low word", witness, spot, answer);
    }

    /// Number 6, at one split of a tree.
    fn split_constants(&mut self, spot: Spot, tree: &Tree) {
        let Some(split) = self.part(spot, &tree.splits) else {
            return;
        };
        let at = tree.words(split).start + 1;
        let answer = refused(6, tree.place);
        let given = &self.pair.witness;
        let wrong = wrong_words(self.random, &given[at..]);
        for (case, constant) in IN_SPLIT_ROWS.into_iter().zip(wrong) {
            self.push_case(case, with_constant(given, at, constant), spot, answer);
        }
        let mut cut = given[..=at].to_vec();
        cut[2] -= (given.len() - cut.len()) as i32;
        self.push_case("6 missing before a low word", cut, spot, answer);
    }
}
