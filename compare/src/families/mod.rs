//! The six families of the report's library (document 000, section 4.2), each with its assertion
//! and a certificate.
//!
//! The report gives each family one sentence and, in its Table 4, the numbers of globals, locals
//! and conditions; the figures with the program texts are not in the document. What is written
//! here is the natural Linear Program of that name. The report's grammar allows only identifiers
//! as actuals, which is why a recursive procedure has a local for its argument less one.

mod delay;
mod parity;
mod sum;
mod swap;

pub use delay::{delay_iter, delay_recur};
pub use parity::parity;
pub use sum::sum;
pub use swap::{swap_iter, swap_seq};

use crate::build::{certify, Disjunct, Edges, Program, Row, Sharing};

/// A family by its name, with the largest N for which it has a program and a certificate.
pub struct Family {
    pub name: &'static str,
    pub largest: i32,
    /// Program words and certificate words for an N in `0..=largest`.
    pub make: fn(i32) -> (Vec<i32>, Vec<i32>),
}

pub const FAMILIES: [Family; 6] = [
    Family {
        name: "swap_seq",
        largest: swap::LARGEST_SEQ,
        make: swap_seq,
    },
    Family {
        name: "swap_iter",
        largest: swap::LARGEST_ITER,
        make: swap_iter,
    },
    Family {
        name: "parity",
        largest: parity::LARGEST,
        make: parity,
    },
    Family {
        name: "delay_iter",
        largest: delay::LARGEST,
        make: delay_iter,
    },
    Family {
        name: "delay_recur",
        largest: delay::LARGEST,
        make: delay_recur,
    },
    Family {
        name: "sum",
        largest: sum::LARGEST,
        make: sum,
    },
];

/// A disjunct under construction, over a fixed number of columns.
struct Rows {
    columns: usize,
    rows: Disjunct,
}

impl Rows {
    fn over(columns: usize) -> Rows {
        Rows {
            columns,
            rows: Vec::new(),
        }
    }

    /// `constant + Σ coefficient × column ≤ 0`
    fn at_most(mut self, constant: i32, terms: &[(usize, i32)]) -> Rows {
        self.rows.push(Row::sum(self.columns, constant, terms));
        self
    }

    /// `constant + Σ coefficient × column = 0`
    fn equal(self, constant: i32, terms: &[(usize, i32)]) -> Rows {
        let opposite: Vec<_> = terms
            .iter()
            .map(|&(column, factor)| (column, -factor))
            .collect();
        self.at_most(constant, terms).at_most(-constant, &opposite)
    }

    fn disjunct(self) -> Disjunct {
        self.rows
    }

    /// The only disjunct of its entry.
    fn alone(self) -> Vec<Disjunct> {
        vec![self.rows]
    }
}

/// The entry of one disjunct without rows.
fn anything() -> Vec<Disjunct> {
    vec![Vec::new()]
}

fn finish(program: Program, edges: Edges) -> (Vec<i32>, Vec<i32>) {
    let certificate = certify(&program, edges).expect("each entailment has a witness");
    (
        program.words(Sharing::Shared),
        certificate.words(Sharing::Shared),
    )
}
