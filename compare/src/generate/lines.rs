//! Lines for the statements of generated programs.

use crate::build::{Procedure, Program};
use crate::random::Random;

/// The largest line that a statement may have.
pub const LARGEST: i32 = 1_000_000;

/// Lines that none may have.
pub const BEYOND: [i32; 6] = [LARGEST + 1, -1, 2 * LARGEST, -LARGEST, i32::MIN, i32::MAX];

impl Program {
    /// The program with lines of some sort: none, one for all, a few, those of a text, or any.
    pub fn lined(self, random: &mut Random) -> Program {
        let count = self.statement_count();
        let lines = match random.below(10) {
            0 => Vec::new(),
            1 => vec![some(random); count],
            2..=4 => (0..count).map(|_| any(random)).collect(),
            5 | 6 => text(random, count),
            _ => (0..count).map(|_| some(random)).collect(),
        };
        let mut program = self.with_lines(lines);
        if random.chance(50) {
            program.share_lines();
        }
        program
    }

    /// Gives equal statements of a procedure the line of the first of them, so that they may share
    /// a row.
    fn share_lines(&mut self) {
        if self.lines.is_empty() {
            return;
        }
        let mut first = 0;
        for Procedure { statements, .. } in &self.procedures {
            for (at, statement) in statements.iter().enumerate() {
                let same = statements.iter().position(|earlier| earlier == statement);
                self.lines[first + at] = self.lines[first + same.unwrap_or(at)];
            }
            first += statements.len();
        }
    }
}

/// A line that isn't 0.
pub fn some(random: &mut Random) -> i32 {
    match random.below(4) {
        0 => *random.pick(&[1, 1, 2, LARGEST, LARGEST, LARGEST - 1]),
        1 => random.between(1, 100),
        _ => random.between(1, LARGEST),
    }
}

/// A line, or 0 for none.
pub fn any(random: &mut Random) -> i32 {
    match random.chance(20) {
        true => 0,
        false => some(random),
    }
}

/// Lines that rise, several statements at one of them and some between them empty.
fn text(random: &mut Random, count: usize) -> Vec<i32> {
    let mut line = random.between(1, 20);
    let lines = (0..count).map(|_| {
        line += *random.pick(&[0, 1, 1, 1, 2, 3]);
        line
    });
    lines.collect()
}
