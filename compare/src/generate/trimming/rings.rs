//! Skips in a circle, and on them one chain of disjuncts, each named by the one before it alone, that
//! goes round and round.

use super::{Kind, Made, Used};
use crate::build::{
    Certificate, Combination, Disjunct, Edges, Next, Procedure, Program, Row, Statement, Witness,
};
use crate::random::Random;

/// The most disjuncts of an entry, and so the most rounds.
const DISJUNCTS: usize = 8;

/// The most statements.
const STATEMENTS: usize = 1_024;

/// The parts of a ring. The disjuncts of its chain are counted from 0.
#[derive(Clone, Debug)]
pub struct Ring {
    /// Skips, counted from 0, in the order of the steps; the first is the first statement.
    pub order: Vec<usize>,
    /// How many disjuncts the chain has, and which of them, at the first statement, the start names.
    pub chain: usize,
    pub start: usize,
    /// Which one the last names. It stands where a next one would.
    pub back: usize,
    /// For each skip, by its number, the disjuncts of each round, counted from 0.
    pub numbers: Vec<Vec<usize>>,
    pub globals: usize,
    pub locals: usize,
    /// How many rows each disjunct has, and how many more the first one.
    pub rows: usize,
    pub more: usize,
    /// Statements without disjuncts, which nothing leads to.
    pub idle: usize,
}

impl Ring {
    /// A ring whose steps go against the order of vertices and of disjuncts.
    pub fn backwards(skips: usize, rounds: usize) -> Ring {
        let order = [0].into_iter().chain((1..skips).rev());
        let numbers: Vec<usize> = (0..rounds).rev().collect();
        Ring {
            order: order.collect(),
            chain: skips * rounds,
            start: 0,
            back: 0,
            numbers: vec![numbers; skips],
            globals: 1,
            locals: 0,
            rows: 1,
            more: 0,
            idle: 0,
        }
    }

    /// A ring whose steps go to and fro between the first and the last of the vertices, and from round
    /// to round of the disjuncts.
    pub fn alternating(skips: usize, rounds: usize) -> Ring {
        Ring {
            order: alternating(skips),
            numbers: vec![alternating(rounds); skips],
            ..Ring::backwards(skips, rounds)
        }
    }

    /// Any ring of up to 64 disjuncts.
    pub fn any(random: &mut Random) -> Ring {
        let skips = 1 + random.below(8);
        let mut order: Vec<usize> = (1..skips).collect();
        random.shuffle(&mut order);
        order.insert(0, 0);
        let chain = skips + random.below(skips * (DISJUNCTS - 1) + 1);
        let mut numbers = Vec::new();
        for skip in 0..skips {
            let place = order
                .iter()
                .position(|at| *at == skip)
                .expect("all are there");
            let mut own: Vec<usize> = (0..(chain - place).div_ceil(skips)).collect();
            random.shuffle(&mut own);
            numbers.push(own);
        }
        let [globals, locals] = [(); 2].map(|()| random.below(3));
        Ring {
            start: skips * random.below(chain.div_ceil(skips)),
            back: chain % skips + skips * random.below(chain / skips),
            order,
            chain,
            numbers,
            globals,
            locals,
            rows: random.below(2 * (globals + locals) + 1),
            more: 0,
            idle: random.below(3),
        }
    }

    /// A ring that has so many words when it is trimmed, up to 1,100,000, and all of which is used. With
    /// shared or with sparse rows it has fewer.
    pub fn of_words(words: usize) -> Ring {
        let skips = 900;
        let mut ring = Ring {
            globals: 8,
            locals: 8,
            rows: 4,
            ..Ring::backwards(skips, DISJUNCTS)
        };
        let row = 2 + 2 * ring.columns();
        let each = 1 + ring.rows * row + 1 + ring.rows * (1 + ring.rows);
        // A row more of the first disjunct, its divisor at the start, and a multiplier for each row of
        // the second: an odd number of words.
        ring.more = words % 2;
        let more = row + 1 + ring.rows;
        let least = 3 + 2 * (skips + 2) + 1 + ring.rows + ring.more * more;
        ring.chain = (words - least) / each;
        ring.idle = (words - least - ring.chain * each) / 2;
        ring.back = ring.chain % skips + skips;
        for (place, skip) in ring.order.iter().enumerate() {
            let rounds = (ring.chain - place).div_ceil(skips);
            ring.numbers[*skip] = (0..rounds).rev().collect();
        }
        assert!(skips + ring.idle <= STATEMENTS && ring.chain >= 2 * skips);
        ring
    }

    /// Where a disjunct of the chain stands: its skip and its number there, both counted from 0.
    pub fn place(&self, at: usize) -> (usize, usize) {
        let skip = self.order[at % self.order.len()];
        (skip, self.numbers[skip][at / self.order.len()])
    }

    /// The first disjunct of the chain that is used: the start's, or where it goes back to. All behind
    /// it are used too.
    pub fn first_used(&self) -> usize {
        self.start.min(self.back)
    }

    /// For each disjunct of each entry whether it is used.
    pub fn used(&self) -> Used {
        let mut used: Used = self
            .numbers
            .iter()
            .map(|own| vec![false; own.len()])
            .collect();
        for at in self.first_used()..self.chain {
            let (skip, number) = self.place(at);
            used[skip][number] = true;
        }
        // The idle statements, the exit and the summary have none.
        used.resize(self.order.len() + self.idle + 2, Vec::new());
        used
    }

    /// The program, and its certificate.
    pub fn made(&self) -> Made {
        let edges = self.edges();
        let witnesses = self.witnesses();
        Made {
            kind: Kind::Chains,
            program: self.program(),
            certificate: Certificate { edges, witnesses },
        }
    }

    fn program(&self) -> Program {
        let skips = self.order.len();
        let mut statements = vec![Statement::Skip { next: Next::Exit }; skips + self.idle];
        for (at, skip) in self.order.iter().enumerate() {
            let next = self.order[(at + 1) % skips];
            statements[*skip] = Statement::Skip {
                next: Next::Statement(next),
            };
        }
        let main = Procedure {
            locals: self.locals,
            parameters: 0,
            statements,
        };
        Program::new(self.globals, vec![main])
    }

    fn edges(&self) -> Edges {
        let mut path = vec![Vec::new(); self.order.len() + self.idle + 1];
        for (skip, numbers) in self.numbers.iter().enumerate() {
            path[skip] = vec![Disjunct::new(); numbers.len()];
        }
        for at in 0..self.chain {
            let (skip, number) = self.place(at);
            path[skip][number] = (0..self.rows_of(at)).map(|row| self.row(row)).collect();
        }
        Edges {
            path,
            summaries: vec![Vec::new()],
        }
    }

    fn rows_of(&self, at: usize) -> usize {
        self.rows + if at == 0 { self.more } else { 0 }
    }

    /// k of main.
    fn columns(&self) -> usize {
        self.globals + self.locals
    }

    /// A column now is at most what it was at entry; behind those of all columns, at least.
    fn row(&self, at: usize) -> Row {
        let columns = self.columns();
        let (entry, now) = (at % columns, columns + at % columns);
        let sign = if at < columns { 1 } else { -1 };
        Row::sum(2 * columns, 0, &[(now, sign), (entry, -sign)])
    }

    /// In the order of the skips and of the disjuncts there.
    fn witnesses(&self) -> Vec<Witness> {
        let start = self.naming(self.start, 0);
        let mut of_chain: Vec<((usize, usize), Witness)> = (0..self.chain)
            .map(|at| {
                let next = if at + 1 == self.chain {
                    self.back
                } else {
                    at + 1
                };
                (self.place(at), self.naming(next, self.rows_of(at)))
            })
            .collect();
        of_chain.sort_by_key(|(place, _)| *place);
        let of_chain = of_chain.into_iter().map(|(_, witness)| witness);
        [start].into_iter().chain(of_chain).collect()
    }

    /// A leaf that names this disjunct of the chain, from the first rows of so many.
    fn naming(&self, at: usize, premises: usize) -> Witness {
        let rows = (0..self.rows_of(at)).map(|row| {
            let mut multipliers = vec![0; premises];
            if let Some(multiplier) = multipliers.get_mut(row) {
                *multiplier = 1;
            }
            Combination {
                divisor: 1,
                multipliers,
            }
        });
        Witness::Disjunct {
            number: self.place(at).1 + 1,
            rows: rows.collect(),
        }
    }
}

/// The first, the last, the second, the last but one and so on of so many, counted from 0.
fn alternating(count: usize) -> Vec<usize> {
    let pairs = (0..count.div_ceil(2)).flat_map(|at| [at, count - 1 - at]);
    pairs.take(count).collect()
}
