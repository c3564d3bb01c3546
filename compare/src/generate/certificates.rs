//! Accepted programs and certificates of all kinds, as words.

use super::large::{self, Circle, Multipliers};
use super::{extremes, invariants, rounding, Pair};
use crate::build::Sharing;
use crate::families::FAMILIES;
use crate::random::Random;

/// An accepted pair.
pub fn accepted(random: &mut Random) -> Pair {
    let mut pair = match random.below(13) {
        0 => family(random),
        1 => {
            let (program, certificate) = extremes::pair(random);
            let (rows, edges) = (sharing(random), sharing(random));
            Pair {
                program: program.words(rows),
                witness: certificate.words(edges),
            }
        }
        2 => {
            let rounded = rounding::rounded(random);
            rounded.accepted(sharing(random)).0
        }
        _ => loop {
            if let Some((program, certificate)) = invariants::accepted(random) {
                let (rows, edges) = (sharing(random), sharing(random));
                break Pair {
                    program: program.words(rows),
                    witness: certificate.words(edges),
                };
            }
        },
    };
    if random.chance(30) {
        scatter(random, &mut pair);
    }
    pair
}

/// Accepted pairs of many words that have at most 1,000,000 in either form: of all kinds of
/// statements, of 8 disjuncts with 32 rows over all columns, of the most calls.
pub fn long(random: &mut Random) -> Vec<Pair> {
    let (mixed, _) = large::mixed(random, 8, Multipliers::Dense);
    let wide = Circle {
        globals: 8,
        locals: 8,
        skips: 5,
        disjuncts: 8,
        rows: 32,
        sharing: Sharing::Shared,
        multipliers: Multipliers::Sparse,
    };
    let (wide, _) = large::circle(random, &wide);
    let (calls, _) = large::all_calls(4, 8);
    vec![mixed, wide, calls]
}

pub fn sharing(random: &mut Random) -> Sharing {
    *random.pick(&[Sharing::Apart, Sharing::Shared])
}

/// A family of the report with a small N, at times a larger one.
fn family(random: &mut Random) -> Pair {
    let family = random.pick(&FAMILIES);
    let limit = *random.pick(&[3, 7, 27, 1_000_000]);
    let n = random.between(0, family.largest.min(limit));
    let (program, witness) = (family.make)(n);
    Pair { program, witness }
}

/// Words that nobody reads: unused pool and row words, and places of empty entries.
pub fn scatter(random: &mut Random, pair: &mut Pair) {
    let unused = random.below(4);
    let unused: Vec<i32> = (0..unused).map(|_| any_word(random)).collect();
    pair.program[3] += unused.len() as i32;
    pair.program.extend(&unused);

    let entries = (pair.program[0] + 2 * pair.program[1]) as usize;
    for entry in 0..entries {
        if pair.witness[3 + entry] == 0 && random.chance(50) {
            pair.witness[3 + entries + entry] = any_word(random);
        }
    }
    let end = 3 + 2 * entries + pair.witness[1] as usize;
    pair.witness[1] += unused.len() as i32;
    pair.witness.splice(end..end, unused);
}

fn any_word(random: &mut Random) -> i32 {
    *random.pick(&[i32::MIN, i32::MAX, -1, 9, 1_001, 2_000_000])
}
