//! Builders: typed programs and certificates, and the words of each.

mod certificate;
mod program;
mod prove;
mod solve;

pub use certificate::{Certificate, Combination, Disjunct, Edges, Row, Witness};
pub use program::{Expression, Next, Operator, Procedure, Program, Statement};
pub use prove::{certify, systems, Attempt, Goal, System};

use crate::checker::linear::UNIT;

/// Whether rows that are equal, or stand inside one another, use the same words.
#[derive(Clone, Copy, Debug, PartialEq, Eq)]
pub enum Sharing {
    Apart,
    Shared,
}

/// The high word and the low word of a constant.
pub fn spelling(constant: i64) -> [i32; 2] {
    [constant.div_euclid(UNIT), constant.rem_euclid(UNIT)].map(|word| word as i32)
}

/// The place of `words` in the pool, at its end if they are not to share words with others.
fn place(pool: &mut Vec<i32>, words: &[i32], sharing: Sharing) -> i32 {
    let found = match sharing {
        Sharing::Shared => pool.windows(words.len()).position(|part| part == words),
        Sharing::Apart => None,
    };
    let place = found.unwrap_or_else(|| {
        pool.extend(words);
        pool.len() - words.len()
    });
    place as i32
}
