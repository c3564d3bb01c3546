//! The certificates that are timed. A seed fixes each of them.

use crate::build::Sharing;
use crate::checker::{judge, Answer};
use crate::families::FAMILIES;
use crate::generate::large::{self, Circle, Multipliers};
use crate::generate::Pair;
use crate::random::Random;

/// An accepted certificate.
pub struct Shape {
    pub name: String,
    pub multipliers: Multipliers,
    pub pair: Pair,
    /// How many entailments it has.
    pub count: u64,
}

/// Certificates of one kind in several sizes.
struct Kind {
    name: &'static str,
    multipliers: &'static [Multipliers],
    sizes: &'static [usize],
    make: fn(usize, Multipliers) -> (Pair, u64),
}

const BOTH: &[Multipliers] = &[Multipliers::Sparse, Multipliers::Dense];

const KINDS: [Kind; 7] = [
    Kind {
        name: "narrow rows",
        multipliers: BOTH,
        sizes: &[2, 6, 21, 62, 199],
        make: |skips, multipliers| large::circle(&mut random(), &narrow(skips, multipliers)),
    },
    Kind {
        name: "wide rows",
        multipliers: BOTH,
        sizes: &[1, 4, 12, 35, 116],
        make: |skips, multipliers| large::circle(&mut random(), &wide(skips, multipliers)),
    },
    Kind {
        name: "few narrow rows",
        multipliers: BOTH,
        sizes: &[10, 31, 106, 317, 1_020],
        make: |skips, multipliers| large::circle(&mut random(), &few(narrow(skips, multipliers))),
    },
    Kind {
        name: "all kinds of statements",
        multipliers: BOTH,
        sizes: &[1, 3, 10, 32],
        make: |procedures, multipliers| large::mixed(&mut random(), procedures, multipliers),
    },
    Kind {
        name: "most entailments, two rows",
        multipliers: BOTH,
        sizes: &[1, 4, 12, 32],
        make: |procedures, multipliers| {
            large::all_calls_with_rows(&mut random(), procedures, multipliers)
        },
    },
    Kind {
        name: "most entailments, no rows",
        multipliers: &[Multipliers::Sparse],
        sizes: &[1, 4, 12, 32],
        make: |procedures, _| large::all_calls(procedures, 32),
    },
    Kind {
        name: "three full trees of depth 8",
        multipliers: BOTH,
        sizes: &[2, 8, 32],
        make: |rows, multipliers| {
            let circle = Circle {
                disjuncts: 1,
                rows,
                ..wide(2, multipliers)
            };
            large::circle_of_trees(&mut random(), &circle)
        },
    },
];

/// Kinds whose rows are mostly 0.
const MOSTLY_ZERO: [Kind; 2] = [
    Kind {
        name: "wide rows of one variable",
        multipliers: BOTH,
        sizes: &[12, 116],
        make: |skips, multipliers| {
            large::circle_of_few(&mut random(), &wide(skips, multipliers), 1)
        },
    },
    Kind {
        name: "few wide rows of one variable",
        multipliers: BOTH,
        sizes: &[36, 360],
        make: |skips, multipliers| {
            large::circle_of_few(&mut random(), &few(wide(skips, multipliers)), 1)
        },
    },
];

/// Each family with an N.
const NUMBERS: [(&str, i32); 7] = [
    ("swap_seq", 509),
    ("swap_iter", 1_000),
    ("parity", 7),
    ("delay_iter", 1_000),
    ("delay_recur", 1_000),
    ("sum", 7),
    ("sum", 27),
];

/// All kinds in all sizes.
pub fn all() -> impl Iterator<Item = Shape> {
    KINDS.iter().flat_map(|kind| kind.shapes(kind.sizes))
}

/// Those for a comparison of the two forms of a certificate: each kind in the middle one of its sizes,
/// kinds whose rows are mostly 0, and the families.
pub fn for_both_forms() -> impl Iterator<Item = Shape> {
    let kinds = KINDS.iter().flat_map(|kind| {
        let middle = (kind.sizes.len() - 1) / 2;
        kind.shapes(&kind.sizes[middle..=middle])
    });
    let mostly_zero = MOSTLY_ZERO.iter().flat_map(|kind| kind.shapes(kind.sizes));
    kinds.chain(mostly_zero).chain(families())
}

/// The families.
pub fn families() -> impl Iterator<Item = Shape> {
    NUMBERS.iter().map(|&(name, n)| family(name, n))
}

impl Shape {
    /// Its name and its multipliers, for a table.
    pub fn title(&self) -> String {
        let multipliers = format!("{:?}", self.multipliers).to_lowercase();
        format!("{} | {multipliers}", self.name)
    }
}

impl Kind {
    fn shapes(&self, sizes: &'static [usize]) -> impl Iterator<Item = Shape> + use<'_> {
        self.multipliers.iter().flat_map(move |&multipliers| {
            sizes.iter().map(move |&size| {
                let (pair, count) = (self.make)(size, multipliers);
                Shape {
                    name: self.name.into(),
                    multipliers,
                    pair,
                    count,
                }
            })
        })
    }
}

fn family(name: &str, n: i32) -> Shape {
    let family = FAMILIES.iter().find(|family| family.name == name);
    let (program, witness) = (family.expect("one of the six").make)(n);
    let count = match judge(&program, &witness) {
        Answer::Safe(count) => count,
        answer => panic!("{name} ({n}): {answer}"),
    };
    Shape {
        name: format!("{name}, N = {n}"),
        multipliers: Multipliers::Sparse,
        pair: Pair { program, witness },
        count,
    }
}

/// Fixes every input.
pub fn random() -> Random {
    Random::new(1)
}

/// 4 disjuncts of 32 rows over 2 columns at entry and now.
fn narrow(skips: usize, multipliers: Multipliers) -> Circle {
    Circle {
        globals: 1,
        locals: 1,
        skips,
        disjuncts: 4,
        rows: 32,
        sharing: Sharing::Apart,
        multipliers,
    }
}

/// 4 disjuncts of 32 rows over 16 columns at entry and now, the most there can be.
pub fn wide(skips: usize, multipliers: Multipliers) -> Circle {
    Circle {
        globals: 8,
        locals: 8,
        ..narrow(skips, multipliers)
    }
}

/// The same with 8 disjuncts of 8 rows.
fn few(circle: Circle) -> Circle {
    Circle {
        disjuncts: 8,
        rows: 8,
        ..circle
    }
}
