//! `?` branches that no run gets to, so that their disjuncts may be any: none to eight of them, with
//! up to 32 rows over up to 16 columns.

use super::{choice_of, Choice};
use crate::build::{
    Certificate, Combination, Disjunct, Edges, Next, Procedure, Program, Row, Statement, Witness,
};
use crate::generate::constants::{far, LARGEST};
use crate::random::Random;

/// The branch, at vertex 2.
const BRANCH: usize = 2;

/// Main skips to its exit; the branch leads to itself on one side or on both, and else to the exit. At
/// times there is the same branch again, at vertex 3, with the same disjuncts.
pub fn island(random: &mut Random) -> Choice {
    let most = *random.pick(&[1, 2, 2, 3, 8]);
    let [globals, locals] = [(); 2].map(|()| random.below(most + 1));
    let columns = globals + locals;
    let back = Next::Statement(BRANCH - 1);
    let nexts = *random.pick(&[[back, Next::Exit], [Next::Exit, back], [back, back]]);
    let branches = *random.pick(&[1, 1, 1, 2]);
    let mut statements = vec![Statement::Skip { next: Next::Exit }];
    statements.extend(vec![choice_of(nexts, columns); branches]);
    let main = Procedure {
        locals,
        parameters: random.below(locals + 1),
        statements,
    };
    let program = Program::new(globals, vec![main]).lined(random);
    let count = random.below(9);
    let disjuncts: Vec<Disjunct> = (0..count).map(|_| disjunct(random, columns)).collect();
    let mut witnesses = vec![without_rows(), without_rows()];
    for _ in 0..branches {
        witnesses.extend(of_branch(random, &disjuncts, nexts));
    }
    witnesses.push(without_rows());
    let anything = vec![Disjunct::new()];
    let mut path = vec![anything.clone()];
    path.extend(vec![disjuncts; branches]);
    path.push(anything.clone());
    let edges = Edges {
        path,
        summaries: vec![anything],
    };
    let certificate = Certificate { edges, witnesses };
    Choice::of(program, certificate, BRANCH).expect("well formed")
}

/// The witnesses of a branch that leads to the first one or to the exit.
fn of_branch(random: &mut Random, disjuncts: &[Disjunct], nexts: [Next; 2]) -> Vec<Witness> {
    let mut witnesses = Vec::new();
    for (at, disjunct) in disjuncts.iter().enumerate() {
        witnesses.extend(nexts.map(|next| {
            let absurd = contradiction(random, disjunct);
            absurd.unwrap_or_else(|| match next {
                Next::Exit => without_rows(),
                _ => itself(random, at, disjunct),
            })
        }));
    }
    witnesses
}

/// By the first disjunct of a target, which has no rows.
fn without_rows() -> Witness {
    Witness::Disjunct {
        number: 1,
        rows: Vec::new(),
    }
}

/// A disjunct's own rows, each by itself alone.
fn itself(random: &mut Random, at: usize, disjunct: &Disjunct) -> Witness {
    let rows = (0..disjunct.len()).map(|row| {
        let divisor = *random.pick(&[1, 1, 7, 1_000]);
        let mut multipliers = vec![0; disjunct.len()];
        multipliers[row] = divisor;
        Combination {
            divisor,
            multipliers,
        }
    });
    Witness::Disjunct {
        number: at + 1,
        rows: rows.collect(),
    }
}

/// By the first two rows, at times, if they are each other's sides.
fn contradiction(random: &mut Random, disjunct: &Disjunct) -> Option<Witness> {
    let [first, second, rest @ ..] = &disjunct[..] else {
        return None;
    };
    if *second != first.other_side() || random.chance(30) {
        return None;
    }
    let both = random.between(1, 1_000);
    let mut multipliers = vec![both; 2];
    multipliers.resize(2 + rest.len(), 0);
    Some(Witness::Contradiction(multipliers))
}

fn disjunct(random: &mut Random, columns: usize) -> Disjunct {
    if columns == 0 {
        return Disjunct::new();
    }
    let count = *random.pick(&[0, 1, 1, 2, 2, 3, 5, 32]);
    let mut rows: Disjunct = (0..count).map(|_| row(random, columns)).collect();
    if count >= 2 && random.chance(50) && rows[0].constant > -LARGEST {
        rows[1] = rows[0].other_side();
    }
    rows
}

/// Any row that isn't constant.
fn row(random: &mut Random, columns: usize) -> Row {
    let distant = far(random);
    let constant = *random.pick(&[0, 0, 1, -1, LARGEST, -LARGEST, distant]);
    let mut row = Row::constant(columns * 2, constant);
    let largest = *random.pick(&[1, 5, 1_000]);
    for cell in &mut row.coefficients {
        let any = random.between(-largest, largest);
        *cell = *random.pick(&[0, 0, largest, -largest, any]);
    }
    if row.is_constant() {
        row.coefficients[random.below(2 * columns)] = largest;
    }
    row
}
