//! Certificates of any number of words, for a `?` branch whose entailments have many lists.

use super::{choice_of, in_form, Choice};
use crate::build::{
    Certificate, Combination, Disjunct, Edges, Next, Procedure, Program, Row, Sharing, Statement,
    Witness,
};
use crate::checker::row::Form;
use crate::generate::Pair;

const GLOBALS: usize = 8;
const LOCALS: usize = 8;
const COLUMNS: usize = GLOBALS + LOCALS;

/// Disjuncts of an entry and rows of a disjunct.
const DISJUNCTS: usize = 8;
const ROWS: usize = 32;

/// The branch, at vertex 2, and the skips behind it, which take up words.
const BRANCH: usize = 2;
const SKIPS: usize = 400;

/// An accepted certificate of this form with so many words, and the choice that it is for. Of a dense
/// one the last row words are used by no entry.
pub fn largest(form: Form, words: usize) -> (Choice, Pair) {
    let mut filling = Filling::default();
    let least = filled(&filling, form).1.witness.len();
    let full = match form {
        Form::Dense => 2 + ROWS * (2 + 2 * COLUMNS),
        Form::Sparse => 2 + ROWS * (3 + 2 * 2 * COLUMNS),
    };
    let mut free = words - least;
    while free >= full + ONE_TERM {
        filling.full += 1;
        free -= full;
    }
    if form == Form::Sparse {
        // A disjunct without rows takes two words, and one with a row of one term seven.
        filling.one_term = free % 2;
        filling.without_rows = (free - filling.one_term * ONE_TERM) / 2;
    }
    let (choice, mut pair) = filled(&filling, form);
    let unused = words - pair.witness.len();
    let rows = pair.witness[1] as usize;
    let end = pair.witness.len() - pair.witness[2] as usize;
    pair.witness.splice(end..end, vec![7; unused]);
    pair.witness[1] = (rows + unused) as i32;
    (choice, pair)
}

/// The words of a disjunct with a row of one term, in sparse form, and of its witness.
const ONE_TERM: usize = 7;

/// How many disjuncts of each sort the skips have.
#[derive(Default)]
struct Filling {
    full: usize,
    one_term: usize,
    without_rows: usize,
}

impl Filling {
    fn disjuncts(&self) -> Vec<Disjunct> {
        let row = |count: usize| {
            let terms: Vec<(usize, i32)> = (0..count).map(|column| (column, -1_000)).collect();
            Row::sum(2 * COLUMNS, -4_000_000_000_i64, &terms)
        };
        let full = vec![vec![row(2 * COLUMNS); ROWS]; self.full];
        let one_term = vec![vec![row(1)]; self.one_term];
        let without_rows = vec![Disjunct::new(); self.without_rows];
        [full, one_term, without_rows].concat()
    }
}

fn filled(filling: &Filling, form: Form) -> (Choice, Pair) {
    let back = Next::Statement(BRANCH - 1);
    let skip = Statement::Skip { next: Next::Exit };
    let mut statements = vec![skip.clone(), choice_of([back, Next::Exit], COLUMNS)];
    statements.extend(vec![skip; SKIPS]);
    let main = Procedure {
        locals: LOCALS,
        parameters: LOCALS,
        statements,
    };
    let program = Program::new(GLOBALS, vec![main]);
    let certificate = certificate(filling.disjuncts());
    let choice = Choice::of(program, certificate, BRANCH).expect("well formed");
    let pair = in_form(choice.pair(Sharing::Apart, Sharing::Apart), form);
    (choice, pair)
}

/// The skips have these disjuncts, eight each as long as there are some.
fn certificate(disjuncts: Vec<Disjunct>) -> Certificate {
    let anything = vec![Disjunct::new()];
    let row = |at: usize| Row::sum(2 * COLUMNS, 1, &[(at, 1)]);
    let own: Disjunct = (0..ROWS).map(row).collect();
    let plain = Witness::Disjunct {
        number: 1,
        rows: Vec::new(),
    };
    let mut witnesses = vec![plain.clone(); 2];
    for number in 1..=DISJUNCTS {
        let rows = (0..ROWS).map(|row| {
            let mut multipliers = vec![0; ROWS];
            multipliers[row] = 1;
            Combination {
                divisor: 1,
                multipliers,
            }
        });
        let rows = rows.collect();
        witnesses.extend([Witness::Disjunct { number, rows }, plain.clone()]);
    }
    witnesses.extend(vec![plain; disjuncts.len() + 1]);
    let mut path = vec![anything.clone(), vec![own; DISJUNCTS]];
    path.extend(disjuncts.chunks(DISJUNCTS).map(<[Disjunct]>::to_vec));
    path.resize(BRANCH + SKIPS, Vec::new());
    path.push(anything.clone());
    Certificate {
        edges: Edges {
            path,
            summaries: vec![anything],
        },
        witnesses,
    }
}
