//! The weighted sum that a witness reaches and the one that is needed: refusal 7.

use super::edges::columns;
use super::names::{count, inequality, list, places, row, sum};
use super::witnesses::{Refused, Side};
use crate::checker::certificate::Disjunct;
use crate::checker::entailment::Matrix;
use crate::checker::linear::Linear;
use crate::checker::witness::{least_constant, sides, weighted_sum, Witness};
use crate::files::WITNESS;
use std::fmt::Write;

pub fn explain(refused: &Refused, witness: &Witness) -> Option<String> {
    let mut tree = Tree {
        refused,
        place: refused.witness.start,
        premises: refused.entailment.premises(),
        above: Vec::new(),
        leaves: 0,
        wrong: Vec::new(),
    };
    tree.read(witness);
    let all = places(refused.witness.start, refused.witness.end - 1);
    let mut wrong = tree.wrong.into_iter();
    let first = wrong.next()?;
    if tree.leaves == 1 {
        return Some(format!("The witness is {all} of {WITNESS}: {}", first.text));
    }
    let (splits, leaves) = (count(tree.leaves - 1, "split"), tree.leaves);
    let others: Vec<String> = wrong.map(|leaf| format!("leaf {}", leaf.number)).collect();
    let others = match others.len() {
        0 => String::new(),
        1..=LISTED => format!("The same goes for {}.\n", list(&others)),
        many => format!("The same goes for {many} leaves behind it.\n"),
    };
    Some(format!(
        "The witness is {all} of {WITNESS}, {splits} and {leaves} leaves. The sums of leaf {} don't \
         fit; it is {}: {}{others}",
        first.number, first.places, first.text
    ))
}

/// A witness while its leaves are looked at in turn.
struct Tree<'a> {
    refused: &'a Refused<'a>,
    /// Of the next word.
    place: usize,
    /// The premises here, the last of them those of the splits above.
    premises: Matrix,
    above: Vec<Side>,
    /// How many there were so far, and those that don't fit.
    leaves: usize,
    wrong: Vec<Leaf>,
}

/// A leaf that doesn't fit.
struct Leaf {
    /// Counted from 1.
    number: usize,
    places: String,
    text: String,
}

/// The most leaves that are listed by their numbers.
const LISTED: usize = 8;

impl Tree<'_> {
    fn read(&mut self, witness: &Witness) {
        let start = self.place;
        self.place += 1;
        let claim = match witness {
            Witness::Contradiction(multipliers) => {
                self.place += multipliers.len();
                self.contradiction(multipliers)
            }
            Witness::Disjunct(disjunct, combinations) => {
                self.place += combinations.len();
                self.rows(self.refused.words[start], disjunct, combinations)
            }
            Witness::Split(row, witnesses) => {
                self.place += row.len();
                self.split(start, row, witnesses);
                return;
            }
        };
        self.leaves += 1;
        if let Some(claim) = claim {
            let words = &self.refused.words[start..self.place];
            let listed: Vec<String> = words.iter().map(i32::to_string).collect();
            self.wrong.push(Leaf {
                number: self.leaves,
                places: places(start, self.place - 1),
                text: format!(
                    "{}\n{}{claim}",
                    listed.join(" "),
                    self.refused.added(&self.above)
                ),
            });
        }
    }

    fn split(&mut self, place: usize, row: &[i32], witnesses: &[Witness; 2]) {
        let rows = sides(Linear::of(row)).into_iter().zip([false, true]);
        for ((row, is_second), witness) in rows.zip(witnesses) {
            self.premises.push(&row);
            self.above.push(Side {
                place,
                is_second,
                row,
            });
            self.read(witness);
            self.above.pop();
            self.premises.pop();
        }
    }

    /// What is wrong with a contradiction, or nothing.
    fn contradiction(&self, multipliers: &[i32]) -> Option<String> {
        let needed = Needed {
            coefficients: vec![0; self.premises.width() - 1],
            constant: 1,
        };
        let sums = needed.compared(self, multipliers)?;
        Some(format!(
            "Its first word, 0, says that the premises contradict each other.\n{sums}"
        ))
    }

    /// The first row of the disjunct that doesn't fit, and the numbers of the others.
    fn rows(&self, number: i32, disjunct: &Disjunct, words: &[i32]) -> Option<String> {
        let refused = self.refused;
        let goals = refused.entailment.goals(disjunct);
        let combinations = words.chunks_exact(1 + self.premises.rows().len());
        let rows = goals.rows().zip(disjunct.rows()).zip(combinations);
        let mut wrong = rows.enumerate().filter_map(|(at, ((goal, own), words))| {
            let sums = Needed::new(goal, words[0]).compared(self, &words[1..])?;
            Some((at + 1, goal, own, words[0], sums))
        });
        let (at, goal, own, divisor, sums) = wrong.next()?;
        let target = refused.target();
        let own = row(own, &columns(refused.program, refused.entailment.target));
        let here = inequality(goal, &refused.origin.columns(refused.program));
        let mut text = format!(
            "Its first word, {number}, says that disjunct {number} of {target} follows. Row {at} of \
             it doesn't follow as the witness says:\n        {own}\nOver the premises' columns this \
             is:\n        {here}\nThe divisor: {divisor}\n{sums}"
        );
        let others: Vec<String> = wrong.map(|(at, ..)| format!("row {at}")).collect();
        if !others.is_empty() {
            let _ = writeln!(text, "The same goes for {}.", list(&others));
        }
        Some(text)
    }
}

/// The coefficients and the least constant of a sum that shows what a witness says.
struct Needed {
    coefficients: Vec<i64>,
    constant: i64,
}

impl Needed {
    /// For a row and a divisor.
    fn new(goal: &[i64], divisor: i32) -> Needed {
        let divisor = i64::from(divisor);
        Needed {
            coefficients: goal[1..].iter().map(|cell| divisor * cell).collect(),
            constant: least_constant(divisor, goal[0]),
        }
    }

    /// The multipliers, the sum that they reach, the one that is needed, and each difference; or
    /// nothing if the sum fits.
    fn compared(&self, tree: &Tree, multipliers: &[i32]) -> Option<String> {
        let names = tree.refused.origin.columns(tree.refused.program);
        let reached = weighted_sum(&tree.premises, multipliers);
        let differences = self.differences(&reached, &names);
        (!differences.is_empty()).then(|| {
            format!(
                "The multipliers: {}\nThe sum reached: {}\nThe sum needed: {}\n{differences}",
                weights(multipliers),
                sum(reached[0], &reached[1..], &names),
                self.text(&names)
            )
        })
    }

    fn text(&self, names: &[String]) -> String {
        let constant = self.constant;
        match self
            .coefficients
            .iter()
            .all(|&coefficient| coefficient == 0)
        {
            true => format!("a constant of at least {constant}, and no variables"),
            false => {
                let variables = sum(0, &self.coefficients, names);
                format!("{variables}, and a constant of at least {constant}")
            }
        }
    }

    /// A line for each coefficient that is wrong, and for the constant.
    fn differences(&self, reached: &[i64], names: &[String]) -> String {
        let mut text = String::new();
        let coefficients = reached[1..].iter().zip(&self.coefficients);
        for ((is, must), name) in coefficients.zip(names) {
            if is != must {
                let _ = writeln!(
                    text,
                    "The coefficient of {name} is {is} and must be {must}."
                );
            }
        }
        let (is, least) = (reached[0], self.constant);
        if is < least {
            let _ = writeln!(text, "The constant is {is} and must be at least {least}.");
        }
        text
    }
}

/// `1 × premise 1 + 3 × premise 4`, those that aren't 0.
fn weights(multipliers: &[i32]) -> String {
    let terms = multipliers.iter().zip(1..);
    let terms = terms.filter(|(multiplier, _)| **multiplier != 0);
    let terms: Vec<String> = terms
        .map(|(multiplier, premise)| format!("{multiplier} × premise {premise}"))
        .collect();
    match (&terms[..], multipliers) {
        ([], []) => "none, for there are no premises".into(),
        ([], _) => "all 0".into(),
        _ => terms.join(" + "),
    }
}
